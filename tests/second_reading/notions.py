"""The four notions: their items, what they grant a simulator, and the minimal failing sets."""
from typing import NamedTuple, Optional

from .refusals import Refused
from .simulation import minimal, needed_by_tuple

NOTIONS = ("ni", "tni", "sni", "pini")


class Item(NamedTuple):
    """What a probe or a leak shows; `index` is that of an output share, else nothing."""

    name: str
    variables: tuple
    index: Optional[int] = None
    weight: int = 1


def items_of(task, gadget):
    """The items of a notion."""
    if task == "sni" and len(gadget.outputs) > 1:
        raise Refused("gadget", "sni needs one output")
    indices = gadget.output_indices()
    wires = [
        Item(variable.name, (number,), indices.get(number)) for number, variable in enumerate(gadget.variables)
    ]
    if task != "pini":
        return wires
    return [item for item in wires if item.index is None] + columns(gadget)


def columns(gadget):
    """The columns: for each index that share of each output."""
    outputs = range(len(gadget.outputs))
    return [
        Item(f"*{index}", tuple(gadget.output(output, index) for output in outputs), index)
        for index in range(gadget.shares)
    ]


def of_each_input(gadget, shares):
    """A set of input shares as the set of indices of each input."""
    all_of_one = (1 << gadget.shares) - 1
    return [shares >> gadget.shares * place & all_of_one for place in range(len(gadget.inputs))]


def grants(task, order, gadget, probed, shares):
    """Whether the notion grants these input shares for a set of probed items."""
    internal = sum(item.index is None for item in probed)
    sets = of_each_input(gadget, shares)
    if task == "pini":
        further = 0
        for indices in sets:
            further |= indices
        for item in probed:
            further &= ~(0 if item.index is None else 1 << item.index)
        return further.bit_count() <= internal
    most = {"ni": order, "tni": len(probed), "sni": internal}[task]
    return all(indices.bit_count() <= most for indices in sets)


def failing_sets(task, order, gadget, items, simulation):
    """The minimal failing sets of at most `order` items."""
    needed = needed_by_tuple(simulation, items, order)
    return minimal(
        chosen for chosen, shares in needed.items()
        if not grants(task, order, gadget, [items[item] for item in chosen], shares)
    )

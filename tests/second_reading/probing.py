"""Random probing: the wires that leak, the events, and the failure coefficients."""
from itertools import combinations, product
from math import comb
from typing import NamedTuple

from .notions import Item, of_each_input
from .refusals import Refused
from .simulation import EMPTY, minimal, needed_by_tuple

EVENTS = ("rpc", "rpe")
MOST_EVENTS = 65_536
MOST_INPUTS = 2
GIVEN, CHOSEN = "1", "2"  # the modes of an output of rpe


class Event(NamedTuple):
    """One question: its name, about which inputs it asks, and the sets of output shares (as numbers of variables)."""

    name: str
    which: str
    sets: list


def wires_of(gadget, wires):
    """The items of a gadget's leaking wires, each with its weight."""
    uses = [0] * len(gadget.variables)
    for variable in gadget.variables:
        for operand in variable.operands:
            uses[operand] += 1
    indices = gadget.output_indices()
    items = [
        Item(variable.name, (number,), indices.get(number), weight(wires, number in indices, uses[number]))
        for number, variable in enumerate(gadget.variables)
    ]
    return [item for item in items if item.weight]


def weight(wires, is_output, uses):
    """How many wires a variable has."""
    if wires == "copies":
        return 2 * uses if is_output else max(1, 2 * uses - 1)
    return int(not is_output or uses > 0)


def count_events(task, order, gadget):
    """How many events there are."""
    if task == "rpe" and len(gadget.inputs) > MOST_INPUTS:
        raise Refused("gadget", "rpe needs at most two inputs")
    if order > gadget.shares - (task == "rpe"):
        raise Refused("gadget", "order too large")
    given = comb(gadget.shares, order)
    if task == "rpc":
        count = given ** len(gadget.outputs)
    else:
        count = (given + 1) ** len(gadget.outputs) * (3 if len(gadget.inputs) == 2 else 1)
    if count > MOST_EVENTS:
        raise Refused("gadget", f"too many events: {count}")
    return count


def events(task, order, gadget):
    """The events in order."""
    if task == "rpc":
        return list(events_of_modes(task, order, gadget, GIVEN * len(gadget.outputs)))
    modes = ["".join(chosen) for chosen in product((GIVEN, CHOSEN), repeat=len(gadget.outputs))]
    return [event for chosen in modes for event in events_of_modes(task, order, gadget, chosen)]


def events_of_modes(task, order, gadget, modes):
    """The events in which the outputs have these modes."""
    outputs = range(len(modes))
    given = [combinations(range(gadget.shares), order if modes[output] == GIVEN else 0) for output in outputs]
    for indices in product(*given):
        sets = share_sets(gadget, modes, indices)
        names = [f"{gadget.outputs[output]}{index}" for output in outputs for index in indices[output]]
        for which in asked(task, gadget):
            front = "rpc" if task == "rpc" else f"rpe{modes}.{which}"
            yield Event(" ".join([front, *names]), which, sets)


def asked(task, gadget):
    """About which inputs a task asks."""
    if task == "rpc":
        return ["any"]
    return ["in0", "in1", "both"][: 1 if len(gadget.inputs) == 1 else 3]


def share_sets(gadget, modes, indices):
    """The sets of output shares of which a simulator may take any, as numbers of variables."""
    choices = []
    for output, mode in enumerate(modes):
        some = [indices[output]] if mode == GIVEN else combinations(range(gadget.shares), gadget.shares - 1)
        choices.append([tuple(gadget.output(output, index) for index in chosen) for chosen in some])
    return [sum(chosen, ()) for chosen in product(*choices)]


def exceeds(which, order, gadget, shares):
    """Whether a set of input shares is more than an event allows."""
    over = [indices.bit_count() > order for indices in of_each_input(gadget, shares)]
    return {"any": any(over), "in0": over[0], "in1": over[-1], "both": all(over)}[which]


class Failures:
    """The failing sets of events over the same items."""

    def __init__(self, order, size, gadget, items, simulation):
        self.order, self.size, self.gadget, self.items, self.simulation = order, size, gadget, items, simulation
        self.needed = {}

    def needed_with(self, given):
        """The needed shares of each set of items together with some output shares."""
        if given not in self.needed:
            span = self.simulation.extended(EMPTY, given)
            self.needed[given] = needed_by_tuple(self.simulation, self.items, self.size, span)
        return self.needed[given]

    def failing(self, event):
        """All failing sets of an event."""
        found = self.needed_with(event.sets[0]).keys()
        for given in event.sets:
            needed = self.needed_with(given)
            found = [chosen for chosen in found if exceeds(event.which, self.order, self.gadget, needed[chosen])]
        return found

    def of_event(self, event):
        """The minimal failing sets of an event, and its coefficients."""
        failing = self.failing(event)
        coefficients = [0] * (self.size + 1)
        for chosen in failing:
            ways = ways_of([self.items[item].weight for item in chosen], self.size)
            coefficients = [before + more for before, more in zip(coefficients, ways)]
        return minimal(failing), coefficients


def ways_of(weights, size):
    """For each number of wires up to `size` how many sets of so many wires have exactly items of these weights."""
    ways = [1] + [0] * size
    for most in weights:
        ways = [
            sum(ways[total - wires] * comb(most, wires) for wires in range(1, total + 1)) for total in range(size + 1)
        ]
    return ways

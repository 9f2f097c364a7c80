"""Compares the elimination of the second reading with distributions. For lists of variables of random small gadgets it
tries every set of input shares, by the values of the variables over all inputs and all random bits.

  python3 -m tests.second_reading.distributions
"""
import random
import sys
from collections import Counter

from .gadget import Gadget, Polynomials, Variable
from .refusals import Refused
from .simulation import EMPTY, Simulation

GADGETS = 300
LISTS = 5  # of variables, of each gadget


def gadget(rng):
    """A gadget of few shares and random bits, with random operations; it may be outside the class."""
    made = Gadget(2, rng.choice([["a"], ["a", "b"]]), [f"r{count}" for count in range(rng.randrange(4))], ["d"])
    for count in range(rng.randint(1, 8)):
        known = len(made.variables)
        kind = rng.choice(["sum", "sum", "sum", "product", "copy"])
        among = len(made.inputs) * made.shares if kind == "product" else known
        operands = [rng.randrange(among) for _ in range(1 if kind == "copy" else 2)]
        made.add(Variable(f"x{count}", kind, tuple(operands)))
    return made


def values(made, inputs):
    """The values of all variables, from those of the input shares and random bits."""
    found = list(inputs)
    for variable in made.variables[len(inputs) :]:
        operands = [found[operand] for operand in variable.operands]
        found.append({"copy": min, "sum": lambda bits: bits[0] ^ bits[-1], "product": min}[variable.kind](operands))
    return found


def bits(number, count):
    return [number >> place & 1 for place in range(count)]


def distributions(made, share_count, listed):
    """For each vector of input shares how often each list of values comes."""
    found = []
    for shares in range(1 << share_count):
        rows = Counter()
        for chance in range(1 << len(made.randoms)):
            bits_of_all = values(made, bits(shares, share_count) + bits(chance, len(made.randoms)))
            rows[tuple(bits_of_all[variable] for variable in listed)] += 1
        found.append(rows)
    return found


def simulating(found, share_count):
    """The sets of input shares on which the distribution depends alone."""
    sets = []
    for allowed in range(1 << share_count):
        if all(rows == found[shares & allowed] for shares, rows in enumerate(found)):
            sets.append(allowed)
    return sets


def main():
    rng = random.Random(2026)
    passed = failed = 0
    while passed + failed < GADGETS * LISTS:
        made = gadget(rng)
        share_count = len(made.inputs) * made.shares
        try:
            simulation = Simulation(Polynomials(made))
        except Refused:
            continue
        for _ in range(LISTS):
            listed = [rng.randrange(len(made.variables)) for _ in range(rng.randint(0, 4))]
            sets = simulating(distributions(made, share_count, listed), share_count)
            needed = simulation.needed(simulation.extended(EMPTY, listed))
            if sets == [allowed for allowed in range(1 << share_count) if allowed & needed == needed]:
                passed += 1
            else:
                failed += 1
                print(f"distributions: {made.canonical()}{listed}: {needed}, and {sets}", file=sys.stderr)
    print(f"{passed} passed" + (f", {failed} failed" if failed else ""))
    return 1 if failed else 0


if __name__ == "__main__":
    sys.exit(main())

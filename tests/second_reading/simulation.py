"""From which input shares variables can be simulated: elimination over GF(2), with rows as numbers."""
from typing import NamedTuple


class Span(NamedTuple):
    """What is known of the rows so far: a row for each leading random bit, and the monomials of the sums in which all
    random bits cancel."""

    leading: dict
    cancelled: int


EMPTY = Span({}, 0)


class Simulation:
    """The rows of a gadget's variables: a bit for each monomial of input shares, and above them the random bits."""

    def __init__(self, polynomials):
        self.polynomials = polynomials
        self.monomials = []
        places = {}
        self.rows = []
        for polynomial in polynomials.of:
            for monomial in polynomial:
                if not polynomials.randoms_of(monomial) and monomial not in places:
                    places[monomial] = len(places)
                    self.monomials.append(monomial)
        self.width = len(places)
        for polynomial in polynomials.of:
            self.rows.append(self.row(polynomial, places))
        self.known = {}

    def row(self, polynomial, places):
        row = 0
        for monomial in polynomial:
            randoms = self.polynomials.randoms_of(monomial)
            row |= randoms << self.width if randoms else 1 << places[monomial]
        return row

    def extended(self, span, variables):
        """The span with the rows of further variables."""
        leading, cancelled = span
        for variable in variables:
            row = self.rows[variable]
            while row >> self.width:
                top = row.bit_length()
                if top not in leading:
                    leading = {**leading, top: row}
                    break
                row ^= leading[top]
            else:
                cancelled |= row
        return Span(leading, cancelled)

    def needed(self, span):
        """The least set of input shares from which all is simulatable, with a bit for each."""
        if span.cancelled not in self.known:
            shares = 0
            for place, monomial in enumerate(self.monomials):
                if span.cancelled >> place & 1:
                    shares |= monomial
            self.known[span.cancelled] = shares
        return self.known[span.cancelled]


def needed_by_tuple(simulation, items, size, span=EMPTY):
    """The needed shares of each set of at most `size` items, each set as a rising tuple of their numbers."""
    found = {}

    def walk(chosen, before):
        found[chosen] = simulation.needed(before)
        if len(chosen) < size:
            for item in range(chosen[-1] + 1 if chosen else 0, len(items)):
                walk((*chosen, item), simulation.extended(before, items[item].variables))

    walk((), span)
    return found


def minimal(failing):
    """Of failing sets those without a failing proper subset, by size and then in lexicographic order."""
    kept = []
    for chosen in sorted(failing, key=lambda chosen: (len(chosen), chosen)):
        mask = sum(1 << item for item in chosen)
        if all(mask & other != other for other, _ in kept):
            kept.append((mask, chosen))
    return [chosen for _, chosen in kept]

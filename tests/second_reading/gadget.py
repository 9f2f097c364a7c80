"""Gadgets, and the polynomials over GF(2) of their variables."""
from typing import NamedTuple

from .refusals import refuse_line

MOST_MONOMIALS = 256
MOST_DEGREE = 2


class Variable(NamedTuple):
    """An input share, a random bit, or an operation on earlier variables."""

    name: str
    kind: str  # share, random, copy, sum, product
    operands: tuple = ()  # numbers of variables
    line: int = 0


class Gadget:
    """Input shares come first among the variables, input by input, then random bits, then operations."""

    def __init__(self, shares, inputs, randoms, outputs):
        self.shares, self.inputs, self.randoms, self.outputs = shares, inputs, randoms, outputs
        self.variables = [Variable(name, "share") for name in shares_of(inputs, shares)]
        self.variables += [Variable(name, "random") for name in randoms]
        self.numbers = {variable.name: number for number, variable in enumerate(self.variables)}

    def add(self, variable):
        """Adds an operation; its number."""
        self.numbers[variable.name] = len(self.variables)
        self.variables.append(variable)
        return len(self.variables) - 1

    def output(self, output, index):
        """The number of the variable that is this output share, or nothing."""
        return self.numbers.get(f"{self.outputs[output]}{index}")

    def output_indices(self):
        """The index of each variable that is an output share."""
        places = [(output, index) for output in range(len(self.outputs)) for index in range(self.shares)]
        return {self.output(output, index): index for output, index in places}

    def canonical(self):
        """The text with one operation a line."""
        lines = [f"#SHARES {self.shares}", " ".join(["#IN", *self.inputs])]
        if self.randoms:
            lines.append(" ".join(["#RANDOMS", *self.randoms]))
        lines.append(" ".join(["#OUT", *self.outputs]))
        sign = {"copy": "", "sum": " + ", "product": " * "}
        for variable in self.variables:
            if variable.kind in sign:
                names = [self.variables[operand].name for operand in variable.operands]
                lines.append(f"{variable.name} = {sign[variable.kind].join(names)}")
        return "".join(line + "\n" for line in lines)


def shares_of(stems, shares):
    """The names of the shares, stem by stem."""
    return [f"{stem}{index}" for stem in stems for index in range(shares)]


class Polynomials:
    """The polynomial of each variable as a set of monomials, and a monomial as a number with a bit for each input share
    and random bit. Refuses a gadget for the first variable outside the class."""

    def __init__(self, gadget):
        self.share_count = len(gadget.inputs) * gadget.shares
        self.of = []
        for number, variable in enumerate(gadget.variables):
            monomials = self.made(variable, number)
            self.refuse_unfit(variable, monomials)
            self.of.append(monomials)

    def made(self, variable, number):
        """The monomials of a variable whose operands are known."""
        polynomials = [self.of[operand] for operand in variable.operands]
        if variable.kind == "copy":
            return polynomials[0]
        if variable.kind == "sum":
            return polynomials[0] ^ polynomials[1]
        if variable.kind == "product":
            return product(*polynomials)
        return frozenset([1 << number])

    def refuse_unfit(self, variable, monomials):
        if len(monomials) > MOST_MONOMIALS:
            refuse_line(variable.line, "too many monomials")
        if any(self.randoms_of(monomial) and monomial.bit_count() > 1 for monomial in monomials):
            refuse_line(variable.line, "random in a product")
        if any(self.shares_of(monomial).bit_count() > MOST_DEGREE for monomial in monomials):
            refuse_line(variable.line, "degree above 2")

    def randoms_of(self, monomial):
        return monomial >> self.share_count

    def shares_of(self, monomial):
        return monomial & ((1 << self.share_count) - 1)


def product(left, right):
    """The unions that arise an odd number of times."""
    found = set()
    for monomial in left:
        for other in right:
            found ^= {monomial | other}
    return frozenset(found)

"""Compares the second reading with worked examples of the rules, whose answers were worked out by hand.

  python3 -m tests.second_reading.worked_examples [--long]   with --long the demonstration of five shares as well
"""
import sys

from . import demos, grammar
from .answer import LONGEST_FILE, answer
from .gadget import Polynomials
from .simulation import EMPTY, Simulation

REFRESH = ["#SHARES 2", "#IN a", "#RANDOMS r0", "#OUT d", "d0 = a0 + r0", "d1 = a1 + r0"]
UNMASKED = ["#SHARES 2", "#IN a", "#OUT d", "d0 = a0 + a1", "d1 = a1"]
MULTIPLICATION = [
    "#SHARES 2", "#IN a b", "#RANDOMS r01", "#OUT c", "p00 = a0 * b0", "p01 = a0 * b1", "p10 = a1 * b0",
    "p11 = a1 * b1", "u01 = r01 + p01", "r10 = u01 + p10", "c0 = p00 + r01", "c1 = p11 + r10",
]  # fmt: skip
TWO_REFRESHES = [
    "#SHARES 2", "#IN a", "#RANDOMS r0 r1", "#OUT d e", "d0 = a0 + r0", "d1 = a1 + r0", "e0 = a0 + r1", "e1 = a1 + r1",
]  # fmt: skip
THREE_SHARES = [
    "#SHARES 3", "#IN a", "#RANDOMS r0 r1", "#OUT d", "d0 = a0 + r0 + r1", "d1 = a1 + r0", "d2 = a2 + r1",
]  # fmt: skip
COPIES = [
    "#SHARES 2", "#IN a", "#OUT d", "d0 = a0 + a1", "d1 = d0", "x0 = d0", "x1 = d0", "x2 = d0", "x3 = x2",
]  # fmt: skip
SQUARE = [
    "#SHARES 2", "#IN a b", "#RANDOMS r0", "#OUT d", "t = (a0 + r0) * (a0 + r0)", "d0 = t + b0", "d1 = a1 + r0",
]  # fmt: skip
NESTED = [
    "#ORDER 1", "#SHARES 2", "#IN a b", "#RANDOMS r0", "#OUT c", "c0 = a0 * b0 + r0",
    "c1 = a1 * b1 + ((r0 + a0 * b1) + a1 * b0)",
]  # fmt: skip
CANONICAL = [
    "#SHARES 2", "#IN a b", "#RANDOMS r0", "#OUT c", "c0.1 = a0 * b0", "c0 = c0.1 + r0", "c1.1 = a1 * b1",
    "c1.2 = a0 * b1", "c1.3 = r0 + c1.2", "c1.4 = a1 * b0", "c1.5 = c1.3 + c1.4", "c1 = c1.1 + c1.5",
]  # fmt: skip

OF_REFRESH = "gadget shares 2 inputs 1 outputs 1 randoms 1 variables 5"
OF_UNMASKED = "gadget shares 2 inputs 1 outputs 1 randoms 0 variables 4"
OF_MULTIPLICATION = "gadget shares 2 inputs 2 outputs 1 randoms 1 variables 13"
SNI_1 = ["check sni 1", OF_REFRESH, "space items 5 size 1 tuples 6", "verdict yes"]
SNI_1_FAILS = [*SNI_1[:3], "fail 1 d1", "verdict no"]
SNI_2 = ["check sni 2", OF_REFRESH, "space items 5 size 2 tuples 16", "fail 2 d0 d1", "verdict no"]
DEMO = ["check sni 1", OF_MULTIPLICATION, "space items 13 size 1 tuples 14", "verdict yes"]
PINI = ["check pini 1", *DEMO[1:3]]
RPC = [
    "check rpc 1", OF_REFRESH, "space items 3 size 3 tuples 8", "wires copies 5",
    "event rpc d0", "fail 2 a0 a1", "fail 2 a1 r0", "coefficients 0 0 4 6",
    "event rpc d1", "fail 2 a0 a1", "fail 2 a0 r0", "coefficients 0 0 4 6", "greatest any 0 0 4 6",
]  # fmt: skip
RPE = [
    "check rpe 1", *RPC[1:4],
    "event rpe1.in0 d0", "fail 2 a0 a1", "fail 2 a1 r0", "coefficients 0 0 4 6",
    "event rpe1.in0 d1", "fail 2 a0 a1", "fail 2 a0 r0", "coefficients 0 0 4 6",
    "event rpe2.in0", "fail 2 a0 a1", "coefficients 0 0 1 3", "greatest in0 0 0 4 6",
]  # fmt: skip
EMPTY_SET_FAILS = [
    "check rpc 1", OF_UNMASKED, "space items 2 size 0 tuples 1", "wires copies 4",
    "event rpc d0", "fail 0", "coefficients 1", "event rpc d1", "coefficients 0", "greatest any 1",
]  # fmt: skip
NO_FAILURES = [
    "check rpc 2", *RPC[1:4], "event rpc d0 d1", "coefficients 0 0 0 0", "greatest any 0 0 0 0",
]  # fmt: skip
OF_THREE_SHARES = [
    "check sni 2", "gadget shares 3 inputs 1 outputs 1 randoms 2 variables 9", "space items 9 size 2 tuples 46",
    "fail 2 d0.1 d1", "verdict no",
]  # fmt: skip
TALLIES = ["tally size 2 1", "tally item d0 1", "tally item d1 1"]
RPC_TALLIES = ["tally size 2 4", "tally item a0 3", "tally item a1 3", "tally item r0 2"]
USAGE = (2, "usage: mask TASK ARG [options]")
NOT_USED = (2, "--size and --wires are for rpc and rpe")


def text(lines):
    return "".join(line + "\n" for line in lines).encode()


def changed(lines, number, line):
    """The lines with another line in the place of one, counted from 1."""
    return text([*lines[: number - 1], line, *lines[number:]])


def sums(*more):
    """A product of two sums of 16 shares, further lines, and copies of a third input."""
    a, b = (" + ".join(f"{stem}{index}" for index in range(16)) for stem in "ab")
    copies = [f"d{index} = c{index}" for index in range(16)]
    return text(["#SHARES 16", "#IN a b c", "#OUT d", f"t = ({a}) * ({b})", *more, *copies])


def three_inputs():
    return text(["#SHARES 1", "#IN a b c", "#OUT d", "d0 = a0"])


def sixteen_shares():
    outputs = [f"{stem}{index} = a{index}" for stem in "de" for index in range(16)]
    return text(["#SHARES 16", "#IN a", "#OUT d e", *outputs])


def verdict(task, order, numbers, items, tuples, *fails):
    shares, inputs, outputs, randoms, variables = numbers
    return [
        f"check {task} {order}",
        f"gadget shares {shares} inputs {inputs} outputs {outputs} randoms {randoms} variables {variables}",
        f"space items {items} size {order} tuples {tuples}",
        *(f"fail {fail}" for fail in fails),
        "verdict no" if fails else "verdict yes",
    ]


def of_notions():
    """Words, a file, and the lines of the report, or an exit status and the text of the refusal."""
    yield "sni 1", text(REFRESH), SNI_1
    yield "sni 2", text(REFRESH), SNI_2
    yield "ni 1", text(UNMASKED), verdict("ni", 1, (2, 1, 1, 0, 4), 4, 5, "1 d0")
    yield "ni 2", text(UNMASKED), verdict("ni", 2, (2, 1, 1, 0, 4), 4, 11)
    yield "tni 2", text(UNMASKED), verdict("tni", 2, (2, 1, 1, 0, 4), 4, 11, "1 d0")
    yield "tni 0", text(UNMASKED), verdict("tni", 0, (2, 1, 1, 0, 4), 4, 1)
    yield "ni 1", text(REFRESH), verdict("ni", 1, (2, 1, 1, 1, 5), 5, 6)
    yield "ni 1", text([*REFRESH, "x = d0 + d1"]), verdict("ni", 1, (2, 1, 1, 1, 6), 6, 7, "1 x")
    yield "sni 1", text(MULTIPLICATION), DEMO
    yield "ni 1", text(MULTIPLICATION), ["check ni 1", *DEMO[1:]]
    yield "pini 1", text(MULTIPLICATION), [*PINI, "fail 1 p01", "fail 1 p10", "verdict no"]
    yield "sni 1", text(TWO_REFRESHES), (4, "sni needs one output")
    yield "ni 1", text(TWO_REFRESHES), verdict("ni", 1, (2, 1, 2, 2, 8), 8, 9)
    yield "ni 1 --words 4 --block 1 --workers 1", text(COPIES), verdict(
        "ni", 1, (2, 1, 1, 0, 8), 8, 9, *(f"1 {name}" for name in ("d0", "d1", "x0", "x1", "x2", "x3"))
    )
    for workers in (1, 2, 7, 64):
        for block in (1, 3, 65536):
            yield f"sni 2 --workers {workers} --block {block} --words 4", text(THREE_SHARES), OF_THREE_SHARES
    nested = text(NESTED).replace(b"\n", b"\r\n")
    yield "sni 1", nested, DEMO
    yield "pini 1", nested, [*PINI, "fail 1 c1.2", "fail 1 c1.4", "verdict no"]
    yield "sni 2 --tallies", text(REFRESH), SNI_2 + TALLIES


def of_classes():
    """Gadgets inside and outside the class."""
    yield "ni 1", text(SQUARE), verdict("ni", 1, (2, 2, 1, 1, 10), 10, 11)
    yield "ni 1", changed(SQUARE, 5, "t = (a0 + r0) * b0"), (3, "line 5: random in a product")
    yield "ni 1", changed(SQUARE, 5, "t = (a0 * b0) * a1"), (3, "line 5: degree above 2")
    yield "ni 1", changed(SQUARE, 5, "t = (a0 * b0) * a0"), verdict("ni", 1, (2, 2, 1, 1, 9), 9, 10)
    factor = ["x = a0 + r0", "t = x * x"]
    yield "ni 1", text(SQUARE[:4] + factor + SQUARE[5:]), verdict("ni", 1, (2, 2, 1, 1, 9), 9, 10)
    yield "ni 1", text([*SQUARE[:4], factor[0], "t = x * b0", *SQUARE[5:]]), (3, "line 6: random in a product")
    yield "ni 0", sums(), verdict("ni", 0, (16, 3, 1, 0, 95), 95, 1)
    yield "ni 0", sums("u = t + c0"), (3, "line 5: too many monomials")


def of_probing():
    """Events."""
    for workers in ("", " --workers 1", " --workers 64"):
        yield "rpc 1 --size 3" + workers, text(REFRESH), RPC
    yield "rpc 1", text(REFRESH), RPC
    plain = [line.replace("copies 5", "plain 3").replace("0 0 4 6", "0 0 2 1") for line in RPC]
    yield "rpc 1 --size 3 --wires plain", text(REFRESH), plain
    yield "rpe 1 --size 3", text(REFRESH), RPE
    yield "rpc 1 --size 0", text(UNMASKED), EMPTY_SET_FAILS
    yield "rpe 2", text(REFRESH), (4, "order too large")
    yield "rpc 2", text(REFRESH), NO_FAILURES
    yield "rpc 3", text(REFRESH), (4, "order too large")
    yield "rpe 1", three_inputs(), (4, "rpe needs at most two inputs")
    yield "rpc 8", sixteen_shares(), (4, "too many events: 165636900")
    yield "rpc 1 --size 3 --tallies", text(REFRESH), RPC + RPC_TALLIES


def of_words():
    """Command lines; the file is the refresh."""
    yield "sni 2 --budget 16", SNI_2
    yield "sni 2 --budget 15", (5, "over budget: 16")
    yield "rpc 1 --budget 15", (5, "over budget: 16")
    yield "demo 2", DEMO
    yield "demo-refresh 2", SNI_1
    for line in ("", "ni", "ni 1 2", "--help", "ni 1 --workers 2 --workers 2", "ni 1 --size -1"):
        yield line, USAGE
    yield "xni 1", (2, "unknown task")
    for line in ("ni 7", "ni +1", "demo 6"):
        yield line, (2, "bad argument")
    yield "ni 1 --workers 0", (2, "bad value of --workers")
    yield "rpc 1 --budget 67108865", (2, "bad value of --budget")
    yield "ni 1 --size=-1", (2, "bad value of --size")
    for line in ("ni 1 --size 2", "sni 1 --wires plain"):
        yield line, NOT_USED
    for line in ("ni -- 1", "--workers=2 ni 1", "ni 1 --"):
        yield line, verdict("ni", 1, (2, 1, 1, 1, 5), 5, 6)


def of_files():
    """Variants of the refresh."""
    lines = REFRESH
    yield text(lines).replace(b"\n", b"\r\n"), SNI_1
    yield text(["#ORDER 1", *lines, "#anything"]), SNI_1
    yield changed(lines, 5, "d0 = a0 ^ r0 # first"), SNI_1
    yield text(lines)[:-2], (3, "line 6: unknown name")
    yield text(lines[:5]), (3, "output 0 share 1 is not assigned")
    yield text([*lines, "d1 = a0"]), (3, "line 7: name twice")
    yield text([lines[0], "#SHARES 2", *lines[1:]]), (3, "line 2: header twice")
    yield changed(lines, 1, "#SHARES 0"), (3, "line 1: bad number")
    yield changed(lines, 1, "#SHARES 17"), (3, "too many shares")
    yield changed(lines, 2, "#IN 3a"), (3, "line 2: bad name")
    yield text(lines).replace(b"d0 = a0", b"d0 = \xc8a0"), (3, "line 5: not text")
    yield changed(lines, 5, "d0 = a0 +"), (3, "line 5: syntax")
    yield text(lines) + b"#" * (LONGEST_FILE - 61), SNI_1
    yield text(lines) + b"#" * (LONGEST_FILE - 60), (3, "file too long")
    yield text([*lines, *(f"x{count} = a0" for count in range(1, 508))]), (3, "too many variables")
    yield changed(lines, 5, "d0 = " + "(" * 65 + "a0 + r0" + ")" * 65), (3, "too many parentheses")
    yield changed(lines, 5, "d0 = " + "(" * 64 + "a0 + r0" + ")" * 64), SNI_1


def of_prefixes():
    """The first bytes of the refresh, by their number."""
    ends = {
        (3, "no #SHARES line"): range(7),
        (3, "line 1: syntax"): (7, 8),
        (3, "no #IN line"): range(9, 13),
        (3, "line 2: syntax"): (13, 14),
        (3, "no #OUT line"): range(15, 32),
        (3, "line 4: syntax"): (32, 33),
        (3, "output 0 share 0 is not assigned"): (34, 35),
        (3, "line 5: syntax"): (*range(36, 41), 44, 45),
        (3, "line 5: unknown name"): (41, 46),
        (3, "output 0 share 1 is not assigned"): (42, 43, 47, 48),
        (3, "line 6: syntax"): (*range(49, 54), 57, 58),
        (3, "line 6: unknown name"): (54, 59),
    }
    for refusal, numbers in ends.items():
        for number in numbers:
            yield text(REFRESH)[:number], refusal
    for number in (55, 56):
        yield text(REFRESH)[:number], SNI_1_FAILS
    for number in (60, 61):
        yield text(REFRESH)[:number], SNI_1


def runs():
    """All of these, in one form."""
    for some in (of_notions(), of_classes(), of_probing()):
        yield from some
    for line, want in of_words():
        yield line, text(REFRESH), want
    for some in (of_files(), of_prefixes()):
        for file, want in some:
            yield "sni 1", file, want
    yield "ni 1", b"", (3, "no #SHARES line")
    full = text([*REFRESH, *(f"x{count} = a0" for count in range(1, 507))])
    yield "ni 0", full, verdict("ni", 0, (2, 1, 1, 1, 511), 511, 1)
    if "--long" in sys.argv:
        yield "demo 5", b"", verdict("sni", 4, (5, 2, 1, 10, 85), 85, 2_127_211)


def difference(line, file, want):
    """What is wrong with a run, or nothing."""
    found = answer([word.encode() for word in line.split()], file)
    if isinstance(want, tuple):
        wanted = (want[0], f"mask: {want[1]}\n".encode(), b"")
    else:
        wanted = (int("verdict no" in want), b"", text(want))
    return "" if found == wanted else f"{line}: {file[:200]!r}: {found} where {wanted} was wanted"


def other_differences():
    """Texts and sets that no report shows."""
    if demos.multiplication(2).encode() != text(MULTIPLICATION):
        yield "the multiplication of two shares"
    if grammar.read(text(NESTED)).canonical().encode() != text(CANONICAL):
        yield "the canonical text"
    simulation = Simulation(Polynomials(grammar.read(text(REFRESH))))
    for variables, shares in {(3,): 0, (3, 4): 3, (2, 4): 2}.items():
        if simulation.needed(simulation.extended(EMPTY, variables)) != shares:
            yield f"the shares needed by {variables}"


def main():
    wrong = [line for line in (difference(*run) for run in runs()) if line]
    wrong += other_differences()
    for line in wrong:
        print(f"worked_examples: {line}", file=sys.stderr)
    print(f"{len(list(runs())) + 5 - len(wrong)} passed" + (f", {len(wrong)} failed" if wrong else ""))
    return 1 if wrong else 0


if __name__ == "__main__":
    sys.exit(main())

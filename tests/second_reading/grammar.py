"""What a gadget file says, and the first thing that is wrong with it."""
import re
from typing import NamedTuple

from .gadget import Gadget, Variable, shares_of
from .refusals import Refused, refuse_line, refuse_many

PROFILE = 1
MOST_SHARES, MOST_INPUTS, MOST_RANDOMS, MOST_OUTPUTS = 16, 4, 128, 2
MOST_OPEN = 64
MOST_VARIABLES = 511

HEADER = re.compile(rb"[ \t]*#(PROFILE|SHARES|IN|RANDOMS|OUT)(?=[ \t#]|\Z)")
FORBIDDEN = re.compile(rb"[^\t\x20-\x7e]")
TOKEN = re.compile(r"[A-Za-z0-9_.]+|[^ \t]")
NAME = re.compile(r"[A-Za-z_][A-Za-z0-9_]*(\.[0-9]+)*")
STEM = re.compile(r"[A-Za-z_][A-Za-z0-9_]*")
NUMBER = re.compile(r"[0-9]+")
SIGNS = {"+": "sum", "^": "sum", "*": "product", "&": "product"}


class Line(NamedTuple):
    """A line that is no comment and not blank; `header` is its word, or nothing."""

    number: int
    header: str
    kept: str


def lines_of(file):
    """The header lines and the assignment lines."""
    found = []
    for number, line in enumerate(file.split(b"\n"), 1):
        line = line[:-1] if line.endswith(b"\r") else line
        text = line.lstrip(b" \t")
        header = HEADER.match(line)
        if not text or (text.startswith(b"#") and not header):
            continue
        kept = text[:1] + text[1:].split(b"#")[0]
        if FORBIDDEN.search(kept):
            refuse_line(number, "not text")
        found.append(Line(number, header[1].decode() if header else "", kept.decode()))
    return found


def read(file):
    """The gadget of a file."""
    headers, gadget = {}, None
    for line in lines_of(file):
        if line.header:
            read_header(line, headers, gadget)
            continue
        gadget = gadget or closed(headers)
        read_assignment(line, gadget)
    gadget = gadget or closed(headers)
    refuse_missing_output(gadget)
    return gadget


def read_header(line, headers, gadget):
    """Adds a header's line number and words to the headers so far."""
    words = re.findall(r"[^ \t]+", line.kept)[1:]
    one = line.header in ("PROFILE", "SHARES")
    if gadget or (one and len(words) != 1) or (line.header in ("IN", "OUT") and not words):
        refuse_line(line.number, "syntax")
    if line.header in headers:
        refuse_line(line.number, "header twice")
    if one:
        refuse_number(line, words[0])
    else:
        refuse_names(line, words)
    headers[line.header] = (line.number, words)


def refuse_number(line, word):
    if not NUMBER.fullmatch(word):
        refuse_line(line.number, "bad number")
    value = int(word.lstrip("0")[:9] or "0")  # nine digits are above each limit
    if value == 0 or (line.header == "PROFILE" and value != PROFILE):
        refuse_line(line.number, "bad number")
    if line.header == "SHARES" and value > MOST_SHARES:
        refuse_many("shares")


def refuse_names(line, words):
    if not all(STEM.fullmatch(word) for word in words):
        refuse_line(line.number, "bad name")
    what, most = {
        "IN": ("inputs", MOST_INPUTS),
        "RANDOMS": ("randoms", MOST_RANDOMS),
        "OUT": ("outputs", MOST_OUTPUTS),
    }[line.header]
    if len(words) > most:
        refuse_many(what)


def closed(headers):
    """The gadget of the headers, without operations."""
    for header in ("SHARES", "IN", "OUT"):
        if header not in headers:
            raise Refused("file", f"no #{header} line")
    shares = int(headers["SHARES"][1][0].lstrip("0"))  # without zeros, since int() takes few thousand digits
    used = set()
    for header in ("IN", "RANDOMS", "OUT"):
        number, words = headers.get(header, (0, []))
        for name in words if header == "RANDOMS" else shares_of(words, shares):
            if name in used:
                refuse_line(number, "name twice")
            used.add(name)
    return Gadget(shares, headers["IN"][1], headers.get("RANDOMS", (0, []))[1], headers["OUT"][1])


def read_assignment(line, gadget):
    """Adds the operations of a line."""
    tokens = TOKEN.findall(line.kept)
    refuse_nesting(tokens)
    left, tree = parse(tokens, line.number)
    operations = operations_of(tree)
    inner = [f"{left}.{count}" for count in range(1, len(operations))]
    if any(name in gadget.numbers for name in [left, *inner]):
        refuse_line(line.number, "name twice")
    if any(name not in gadget.numbers for name in names_of(tree)):
        refuse_line(line.number, "unknown name")
    if len(gadget.variables) + len(operations) > MOST_VARIABLES:
        refuse_many("variables")
    made = {}
    for name, (kind, operands) in zip([*inner, left], operations):
        numbers = tuple(gadget.numbers[part] if isinstance(part, str) else made[id(part)] for part in operands[1:])
        made[id(operands[0])] = gadget.add(Variable(name, kind, numbers, line.number))


def refuse_nesting(tokens):
    opened = 0
    for token in tokens:
        opened += (token == "(") - (token == ")")
        if opened > MOST_OPEN:
            refuse_many("parentheses")


def parse(tokens, number):
    """The name on the left and the tree of the expression: a name, or a list of kind, left and right."""
    rest = tokens[::-1]  # the next token is the last one

    def take(wanted):
        if not rest or not wanted(rest[-1]):
            refuse_line(number, "syntax")
        return rest.pop()

    def chain(signs, part):
        tree = part()
        while rest and rest[-1] in signs:
            tree = [SIGNS[rest.pop()], tree, part()]
        return tree

    def unit():
        if rest and rest[-1] == "(":
            rest.pop()
            tree = expression()
            take(lambda token: token == ")")
            return tree
        return take(NAME.fullmatch)

    def expression():
        return chain("+^", lambda: chain("*&", unit))

    left = take(NAME.fullmatch)
    take(lambda token: token == "=")
    tree = expression()
    if rest:
        refuse_line(number, "syntax")
    return left, tree


def operations_of(tree):
    """The operations of a tree in post-order: the kind, and the tree itself with its operands."""
    if isinstance(tree, str):
        return [("copy", (tree, tree))]
    found, waiting = [], [tree]
    while waiting:
        top = waiting.pop()
        if not isinstance(top, str):
            found.append((top[0], (top, top[1], top[2])))
            waiting += [top[1], top[2]]
    return found[::-1]  # the last one first, and the right operand before the left


def names_of(tree):
    """The names in a tree."""
    waiting, found = [tree], set()
    while waiting:
        top = waiting.pop()
        if isinstance(top, str):
            found.add(top)
        else:
            waiting += [top[1], top[2]]
    return found


def refuse_missing_output(gadget):
    for output in range(len(gadget.outputs)):
        for index in range(gadget.shares):
            if gadget.output(output, index) is None:
                raise Refused("file", f"output {output} share {index} is not assigned")

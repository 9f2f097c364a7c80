"""A case: words, a file, and whether the file can be read and the report written."""
import random
from typing import NamedTuple

from second_reading import answer, words as second_words
from second_reading.refusals import Refused

from . import command_lines, files, gadgets

REFRESH = b"#SHARES 2\n#IN a\n#RANDOMS r0\n#OUT d\nd0 = a0 + r0\nd1 = a1 + r0\n"
TWO_OUTPUTS = b"#SHARES 2\n#IN a\n#OUT d e\nd0 = a0\nd1 = a1\ne0 = a0\ne1 = a0 + a1\n"
LONGEST_FILE = 1_048_576
# What kinds of case come how often, in turn.
TURNS = (
    "notion", "wrong file", "words", "events", "notion", "changed bytes", "notion", "wrong file", "events", "notion",
    "words", "notion", "changed lines", "events", "notion", "changed bytes", "words", "notion", "wrong file", "special",
)  # fmt: skip
SPECIAL = ("limits", "no reading", "demonstration", "many events", "limits", "no writing", "demonstration", "long file")
# Some demonstrations and how many sets they go through.
DEMO_SETS = {("demo", "2"): 14, ("demo", "3"): 466, ("demo", "4"): 26_290, ("demo-refresh", "2"): 6}
# Numbers of shares and orders whose numbers of events are near the limit, or far above it.
EVENT_NUMBERS = ((10, 5), (13, 3), (16, 8), (10, 6), (13, 10), (16, 2), (9, 4), (16, 16), (16, 15), (5, 2))


class Case(NamedTuple):
    """A run of the program."""

    kind: str
    words: list
    file: bytes
    readable: bool = True
    writable: bool = True


def make(seed, number):
    """The case of a seed with this number."""
    rng = random.Random(f"{seed} {number}")
    turn, place = divmod(number, len(TURNS))
    kind = TURNS[place]
    if kind == "special":
        kind = SPECIAL[turn % len(SPECIAL)]
    return MAKERS[kind](rng, kind, turn)


def good_file(rng):
    draft = gadgets.gadget(rng)
    return files.encoded(rng, files.written(rng, draft))


def notion(rng, kind, turn):
    file = good_file(rng)
    task = rng.choice(command_lines.NOTIONS)
    return Case(kind, tamed(rng, task, file, rng.choice([0, 1, 1, 2, 2, 3, 4, 5, 6])), file)


def events(rng, kind, turn):
    file = good_file(rng)
    return Case(kind, tamed(rng, rng.choice(command_lines.EVENTS), file, rng.choice([0, 1, 1, 1, 1, 1, 2, 2, 3])), file)


def any_task(rng, kind, file):
    """A case of any task with this file."""
    task = rng.choice(command_lines.NOTIONS + command_lines.EVENTS)
    return Case(kind, tamed(rng, task, file, rng.choice([0, 1, 1, 2])), file)


def wrong_file(rng, kind, turn):
    draft = gadgets.gadget(rng)
    lines = rng.choice(files.WRONG)(rng, draft, files.written(rng, draft))
    return any_task(rng, kind, files.encoded(rng, lines))


def limits(rng, kind, turn):
    draft = gadgets.gadget(rng)
    lines = rng.choice(files.AT_LIMITS)(rng, draft, files.written(rng, draft))
    return any_task(rng, kind, files.encoded(rng, lines))


def changed_bytes(rng, kind, turn):
    file = good_file(rng)
    for _ in range(rng.choice([1, 1, 1, 2])):
        file = files.change_byte(rng, file)
    return any_task(rng, kind, file)


def changed_lines(rng, kind, turn):
    lines = files.written(rng, gadgets.gadget(rng))
    return any_task(rng, kind, files.encoded(rng, rng.choice(files.LINE_CHANGES)(rng, lines)))


def words(rng, kind, turn):
    line = [word if isinstance(word, bytes) else word.encode() for word in command_lines.odd_words(rng)]
    return Case(kind, line, rng.choice([REFRESH, REFRESH, TWO_OUTPUTS, b"", b"no gadget\n"]))


def no_reading(rng, kind, turn):
    return rng.choice([words, notion, events, demonstration])(rng, kind, turn)._replace(readable=False)


def no_writing(rng, kind, turn):
    return rng.choice([notion, events, words, demonstration])(rng, kind, turn)._replace(writable=False)


def demonstration(rng, kind, turn):
    task = rng.choice(["demo", "demo-refresh"])
    shares = rng.choice("2345")
    tuples = DEMO_SETS.get((task, shares))
    chosen = []
    if (task, shares) == ("demo", "5"):
        chosen = [("--budget", rng.choice(["1", "4096", "2127210"]))]
    elif tuples and rng.random() < 0.5:
        chosen = [("--budget", str(tuples + rng.choice([-1, 0, 1])))]
    groups = command_lines.options(rng, chosen) + command_lines.free_options(rng)
    line = command_lines.mixed(rng, [task, shares], groups)
    return Case(kind, [word.encode() for word in line], rng.choice([REFRESH, b"", b"\xff"]))


def many_events(rng, kind, turn):
    """Gadgets of many shares, whose events are about as many as are allowed."""
    shares, order = EVENT_NUMBERS[turn // len(SPECIAL) % len(EVENT_NUMBERS)]
    outputs = rng.choice(["d", "d e", "d e", "d e"])
    copies = [f"{stem}{index} = a{index}" for stem in outputs.split() for index in range(shares)]
    headers = [f"#SHARES {shares}", "#IN a" + rng.choice(["", " b"]), f"#OUT {outputs}"]
    text = "".join(f"{line}\n" for line in [*headers, *copies])
    task = rng.choice(["rpc", "rpc", "rpe"])
    return Case(kind, tamed(rng, task, text.encode(), order), text.encode())


def long_file(rng, kind, turn):
    length = LONGEST_FILE + rng.choice([-1, 0, 1, 1, 2, 1000])
    filled = REFRESH + rng.choice([b"#", b" "]) * (length - len(REFRESH))
    return any_task(rng, kind, filled[:-1] + rng.choice([b"\n", b"#", b" "]))


def tamed(rng, task, file, order):
    """Words of a task on a file, so that a second reading of it takes no long time."""
    most = rng.choice([300] * 17 + [2500] * 2 + [15_000])
    size = rng.choice([0, 1, 2, 2, 3, 3, 3, 4, 5, 6])
    wires = rng.choice(["", "", "plain", "copies"])
    if task not in command_lines.EVENTS:
        size, wires = None, ""
    work = work_of(task, order, size, wires, file)
    while work > most and (order if size is None else size) > 0:
        order, size = (order - 1, None) if size is None else (order, size - 1)
        work = work_of(task, order, size, wires, file)
    chosen = [("--size", str(size))] if size is not None and (size != 3 or rng.random() < 0.5) else []
    chosen += [("--wires", wires)] if wires else []
    if work > 20 * most:
        chosen.append(("--budget", str(rng.choice([1, work - 1]))))
    elif rng.random() < 0.15:
        chosen.append(("--budget", str(max(1, work + rng.choice([-1, -1, 0, 1])))))
    groups = command_lines.options(rng, chosen) + command_lines.free_options(rng)
    argument = f"{order:0{rng.choice([1, 1, 1, 2, 10])}d}"
    return [word.encode() for word in command_lines.mixed(rng, [task, argument], groups)]


def work_of(task, order, size, wires, file):
    """The sets that a check goes through; 0 where it is refused."""
    check = second_words.Check(task, order, order if size is None else size, 0, wires or "copies", False)
    try:
        work = answer.prepared(check, file)
    except Refused:
        return 0
    return work.questions * work.tuples


MAKERS = {
    "notion": notion, "events": events, "wrong file": wrong_file, "changed bytes": changed_bytes,
    "changed lines": changed_lines, "words": words, "limits": limits, "no reading": no_reading,
    "no writing": no_writing, "demonstration": demonstration, "many events": many_events, "long file": long_file,
}  # fmt: skip

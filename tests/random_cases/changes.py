"""Changes of single rules in the second reading. Random cases have to show each of them, so that a program with such a
fault would be noticed."""
import importlib
import multiprocessing
import shutil
import signal
import sys
import tempfile
from pathlib import Path

from . import cases

READING = Path(__file__).resolve().parent.parent / "second_reading"
SECONDS = 10  # for one case, which a changed rule may make long

# Modules of the second reading, with a text that stands in it once and what stands in its place.
CHANGES = (
    ("grammar", "value != PROFILE", "value > 2"),
    ("grammar", "MOST_OUTPUTS = 16, 4, 128, 2", "MOST_OUTPUTS = 17, 4, 128, 2"),
    ("grammar", "MOST_OUTPUTS = 16, 4, 128, 2", "MOST_OUTPUTS = 15, 4, 128, 2"),
    ("grammar", "MOST_OUTPUTS = 16, 4, 128, 2", "MOST_OUTPUTS = 16, 5, 128, 2"),
    ("grammar", "MOST_OUTPUTS = 16, 4, 128, 2", "MOST_OUTPUTS = 16, 3, 128, 2"),
    ("grammar", "MOST_OUTPUTS = 16, 4, 128, 2", "MOST_OUTPUTS = 16, 4, 129, 2"),
    ("grammar", "MOST_OUTPUTS = 16, 4, 128, 2", "MOST_OUTPUTS = 16, 4, 127, 2"),
    ("grammar", "MOST_OUTPUTS = 16, 4, 128, 2", "MOST_OUTPUTS = 16, 4, 128, 3"),
    ("grammar", "MOST_OPEN = 64", "MOST_OPEN = 65"),
    ("grammar", "MOST_OPEN = 64", "MOST_OPEN = 63"),
    ("grammar", "MOST_VARIABLES = 511", "MOST_VARIABLES = 512"),
    ("grammar", "MOST_VARIABLES = 511", "MOST_VARIABLES = 510"),
    ("grammar", '(rb"[ \\t]*#(PROFILE', '(rb"#(PROFILE'),
    ("grammar", "(?=[ \\t#]|\\Z)", "(?=[ \\t]|\\Z)"),
    ("grammar", "\\x20-\\x7e", "\\x20-\\x7f"),
    ("grammar", "[^\\t\\x20", "[^\\x20"),
    ("grammar", '(\\.[0-9]+)*")', '(\\.[0-9]+)?")'),
    ("grammar", 'STEM = re.compile(r"[A-Za-z_]', 'STEM = re.compile(r"[A-Za-z]'),
    ("grammar", 'NUMBER = re.compile(r"[0-9]+")', 'NUMBER = re.compile(r"[1-9][0-9]*")'),
    ("grammar", '"^": "sum"', '"^": "product"'),
    ("grammar", '"&": "product"', '"&": "sum"'),
    ("grammar", 'line[:-1] if line.endswith(b"\\r") else line', 'line.rstrip(b"\\r")'),
    ("grammar", 'text[1:].split(b"#")[0]', "text[1:]"),
    ("grammar", "if gadget or (one", "if (one"),
    ("grammar", 'line.header in ("IN", "OUT") and', 'line.header in ("IN", "OUT", "RANDOMS") and'),
    ("grammar", 'for header in ("SHARES", "IN", "OUT"):', 'for header in ("OUT", "IN", "SHARES"):'),
    ("grammar", 'for header in ("IN", "RANDOMS", "OUT"):', 'for header in ("OUT", "RANDOMS", "IN"):'),
    ("grammar", "for name in [left, *inner])", "for name in [left])"),
    ("grammar", "for name in [left, *inner])", "for name in inner)"),
    ("grammar", "range(1, len(operations))", "range(2, len(operations) + 1)"),
    ("grammar", "top[2])))\n            waiting += [top[1], top[2]]",
     "top[2])))\n            waiting += [top[2], top[1]]"),
    ("grammar", '(token == "(") - (token == ")")', '(token == "(")'),
    ("grammar", "value == 0 or ", ""),
    ("grammar", "> MOST_VARIABLES", ">= MOST_VARIABLES"),
    ("grammar", "    for output in range(len(gadget.outputs)):\n        for index in range(gadget.shares):",
     "    for index in range(gadget.shares):\n        for output in range(len(gadget.outputs)):"),
    ("gadget", "MOST_MONOMIALS = 256", "MOST_MONOMIALS = 255"),
    ("gadget", "MOST_MONOMIALS = 256", "MOST_MONOMIALS = 257"),
    ("gadget", "MOST_DEGREE = 2", "MOST_DEGREE = 3"),
    ("gadget", "MOST_DEGREE = 2", "MOST_DEGREE = 1"),
    ("gadget", "monomial.bit_count() > 1", "monomial.bit_count() > 2"),
    ("gadget", "found ^= {monomial | other}", "found |= {monomial | other}"),
    ("gadget", "polynomials[0] ^ polynomials[1]", "polynomials[0] | polynomials[1]"),
    ("simulation", "cancelled |= row", "cancelled = row"),
    ("simulation", "row ^= leading[top]", "row = 0"),
    ("simulation", "mask & other != other", "mask & other == 0"),
    ("simulation", "(len(chosen), chosen)", "chosen"),
    ("notions", '"ni": order', '"ni": order + 1'),
    ("notions", '"ni": order', '"ni": len(probed)'),
    ("notions", '"tni": len(probed)', '"tni": order'),
    ("notions", '"sni": internal', '"sni": len(probed)'),
    ("notions", "further |= indices", "further = indices"),
    ("notions", "further.bit_count() <= internal", "further.bit_count() <= len(probed)"),
    ("notions", "for output in outputs), index)", "for output in outputs), None)"),
    ("notions", "[item for item in wires if item.index is None] + columns(gadget)",
     "columns(gadget) + [item for item in wires if item.index is None]"),
    ("notions", "return all(indices.bit_count() <= most", "return any(indices.bit_count() <= most"),
    ("notions", "len(gadget.outputs) > 1", "len(gadget.outputs) > 2"),
    ("probing", "2 * uses - 1)", "2 * uses)"),
    ("probing", "max(1, ", "max(0, "),
    ("probing", "return 2 * uses if is_output", "return max(0, 2 * uses - 1) if is_output"),
    ("probing", "int(not is_output or uses > 0)", "1"),
    ("probing", "for operand in variable.operands", "for operand in set(variable.operands)"),
    ("probing", 'gadget.shares - (task == "rpe")', "gadget.shares"),
    ("probing", "(3 if len(gadget.inputs) == 2", "(2 if len(gadget.inputs) == 2"),
    ("probing", "MOST_EVENTS = 65_536", "MOST_EVENTS = 63_503"),
    ("probing", "MOST_EVENTS = 65_536", "MOST_EVENTS = 81_796"),
    ("probing", "MOST_INPUTS = 2", "MOST_INPUTS = 3"),
    ("probing", '"any": any(over)', '"any": all(over)'),
    ("probing", '"both": all(over)', '"both": any(over)'),
    ("probing", '"in1": over[-1]', '"in1": over[0]'),
    ("probing", "indices.bit_count() > order", "indices.bit_count() >= order"),
    ("probing", "gadget.shares - 1)", "gadget.shares)"),
    ("probing", "for given in event.sets:", "for given in event.sets[:1]:"),
    ("probing", "[self.items[item].weight for item in chosen]", "[1 for item in chosen]"),
    ("probing", "range(1, total + 1)", "range(total + 1)"),
    ("probing", "product((GIVEN, CHOSEN), repeat", "product((CHOSEN, GIVEN), repeat"),
    ("probing", "return minimal(failing), coefficients", "return failing, coefficients"),
    ("words", '"--size": (0, 6, 3)', '"--size": (0, 6, 2)'),
    ("words", '"--size": (0, 6, 3)', '"--size": (0, 7, 3)'),
    ("words", '"--workers": (1, 64', '"--workers": (0, 64'),
    ("words", '"--workers": (1, 64', '"--workers": (1, 65'),
    ("words", '"--block": (1, 67_108_864', '"--block": (1, 67_108_865'),
    ("words", '"--budget": (1, 67_108_864', '"--budget": (1, 67_108_865'),
    ("words", '"--budget": (1, ', '"--budget": (0, '),
    ("words", "16_777_216", "4096"),
    ("words", '"--words": (4', '"--words": (3'),
    ("words", "[0-9]{1,10}", "[0-9]{1,11}"),
    ("words", 're.compile(r"[0-9]', 're.compile(r"\\d'),
    ("words", "return 2, 5", "return 1, 5"),
    ("words", "return 2, 5", "return 2, 6"),
    ("words", "16 if task in EVENTS else 6", "17 if task in EVENTS else 6"),
    ("words", "16 if task in EVENTS else 6", "16 if task in EVENTS else 7"),
    ("words", ' or "-" in words', ""),
    ("words", '"" in words or ', ""),
    ("words", ' or rest[-1].startswith("-")', ""),
    ("words", "option in given or ", ""),
    ("words", " or (option == FLAG and equals)", ""),
    ("words", 'OPTIONS = (*NUMBERS, "--wires")', 'OPTIONS = ("--wires", *NUMBERS)'),
    ("words", ' or "--wires" in given', ""),
    ("answer", '("sni", shares - 1, shares - 1', '("sni", shares, shares - 1'),
    ("answer", '("sni", shares - 1, shares - 1', '("sni", shares - 1, shares'),
    ("report", "self.found[item] += 1", "self.found[item] = 1"),
    ("report", "self.sizes[len(chosen)] += 1", "self.sizes[-1] += 1"),
    ("report", '"tally size", size, count', '"tally size", count, size'),
    ("answer", "LONGEST_FILE = 1_048_576", "LONGEST_FILE = 1_048_577"),
    ("answer", "LONGEST_FILE = 1_048_576", "LONGEST_FILE = 1_048_575"),
    ("answer", "total > check.budget", "total >= check.budget"),
    ("answer", "work.questions * work.tuples", "work.tuples"),
    ("answer", "max(pair)", "min(pair)"),
    ("answer", "range(check.size + 1)", "range(1, check.size + 1)"),
    ("answer", "sum(item.weight for item in work.items)", "len(work.items)"),
    ("refusals", '"gadget": 4', '"gadget": 3'),
    ("refusals", '"memory": 8', '"memory": 2'),
)  # fmt: skip

# Changes that no case can show, and why.
HIDDEN = (
    # No number of events is 65,536 or the number after it.
    ("probing", "MOST_EVENTS = 65_536", "MOST_EVENTS = 65_537"),
    # By the symmetry of the two inputs the report on the multiplication is the same.
    ("demos", "r{i}{j} + p{i}{j}\", f\"r{j}{i} = u{i}{j} + p{j}{i}",
     "r{i}{j} + p{j}{i}\", f\"r{j}{i} = u{i}{j} + p{i}{j}"),
)  # fmt: skip


def changed_answer(folder, number, change):
    """The function `answer` of the second reading with one change."""
    module, old, new = change
    package = Path(folder) / f"changed_{number}"
    shutil.copytree(READING, package, ignore=shutil.ignore_patterns("__pycache__"))
    file = package / f"{module}.py"
    text = file.read_text(encoding="utf-8")
    assert text.count(old) == 1, f"{module}.py has {old!r} {text.count(old)} times"
    file.write_text(text.replace(old, new), encoding="utf-8")
    return importlib.import_module(f"{package.name}.answer").answer


def first_shown(number):
    """The number of the first case that shows a change, or nothing."""
    answer = changed_answer(known.folder, number, (*CHANGES, *HIDDEN)[number])
    for place, (case, ending) in enumerate(known.runs):
        signal.alarm(SECONDS)
        try:
            same = answer(case.words, case.file, case.readable, case.writable) == ending
        except Exception:  # a changed rule may break the reading in any way
            same = False
        finally:
            signal.alarm(0)
        if not same:
            return place
    return None


class known:
    """What all processes know: a folder, and the cases with how the program ended on each."""

    folder, runs = "", []


def late(*_):
    raise TimeoutError


def look(arguments, run):
    """Prints which change is shown by which case; fails where one isn't shown, or one is that can't be."""
    numbered = [cases.make(arguments.seed, number) for number in range(arguments.count)]
    known.runs = [(case, run(arguments.program, case)) for case in numbered]
    signal.signal(signal.SIGALRM, late)
    wrong = 0
    with tempfile.TemporaryDirectory() as folder:
        known.folder = folder
        sys.path.insert(0, folder)
        with multiprocessing.get_context("fork").Pool(arguments.jobs) as pool:
            shown = pool.map(first_shown, range(len(CHANGES) + len(HIDDEN)), chunksize=1)
    for number, (change, place) in enumerate(zip((*CHANGES, *HIDDEN), shown)):
        module, old, new = change
        print(f"{'not shown' if place is None else f'case {place:5}'}: {module}: {old!r} as {new!r}")
        wrong += (place is None) == (number < len(CHANGES))
    print(f"{len(shown) - wrong} passed" + (f", {wrong} failed" if wrong else ""))
    return int(wrong > 0)

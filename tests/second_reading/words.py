"""The command line: what is asked for, and the first thing that is wrong with the words."""
import re
from typing import NamedTuple

from .notions import NOTIONS
from .probing import EVENTS
from .refusals import Refused

DEMOS = ("demo", "demo-refresh")
# The options with a value, in the order in which their values are looked at: least, greatest and default.
NUMBERS = {
    "--size": (0, 6, 3),
    "--workers": (1, 64, 4),
    "--block": (1, 67_108_864, 4096),
    "--budget": (1, 67_108_864, 16_777_216),
    "--words": (4, 67_108_864, 65_536),
}
WIRES = ("plain", "copies")
OPTIONS = (*NUMBERS, "--wires")
FLAG = "--tallies"
DIGITS = re.compile(r"[0-9]{1,10}")


class Check(NamedTuple):
    """What a command line asks for."""

    task: str
    order: int
    size: int
    budget: int
    wires: str
    tallies: bool


def read(words):
    """The check of a list of words (bytes), the program's name left out."""
    try:
        words = [word.decode() for word in words]
    except UnicodeDecodeError:
        raise Refused("memory", "out of memory") from None
    positional, given = split(words)
    task, argument = positional
    if task not in (*NOTIONS, *EVENTS, *DEMOS):
        raise Refused("words", "unknown task")
    order = number(argument, *range_of(task))
    if order is None:
        raise Refused("words", "bad argument")
    values = {option: value_of(option, given) for option in OPTIONS}
    if task not in EVENTS and ("--size" in given or "--wires" in given):
        raise Refused("words", "--size and --wires are for rpc and rpe")
    if task in DEMOS:
        return Check(task, order, order - 1, values["--budget"], "", FLAG in given)
    size = values["--size"] if task in EVENTS else order
    return Check(task, order, size, values["--budget"], values["--wires"], FLAG in given)


def refuse_form():
    raise Refused("words", "usage: mask TASK ARG [options]")


def split(words):
    """The two words that are no options, and the values of the options."""
    if not words or "" in words or "-" in words:
        refuse_form()
    positional, given, rest = [], {}, words[::-1]
    while rest:
        word = rest.pop()
        if word == "--":
            positional += rest[::-1]
            break
        if word.startswith("-"):
            take_option(word, rest, given)
        else:
            positional.append(word)
    if len(positional) != 2:
        refuse_form()
    return positional, given


def take_option(word, rest, given):
    """Puts an option's value to those given; a separate value is taken from the words that are left."""
    option, equals, value = word.partition("=")
    if option in given or option not in (*OPTIONS, FLAG) or (option == FLAG and equals):
        refuse_form()
    if option != FLAG and not equals:
        if not rest or rest[-1].startswith("-"):
            refuse_form()
        value = rest.pop()
    given[option] = value


def range_of(task):
    """The least and the greatest argument of a task."""
    if task in DEMOS:
        return 2, 5
    return 0, 16 if task in EVENTS else 6


def number(text, least, greatest):
    """The number of one to ten digits, or nothing where it is none or out of range."""
    if DIGITS.fullmatch(text) and least <= int(text) <= greatest:
        return int(text)
    return None


def value_of(option, given):
    """The value of an option, or its default."""
    if option == "--wires":
        value = given.get(option, "copies")
        good = value in WIRES
    else:
        least, greatest, default = NUMBERS[option]
        value = number(given[option], least, greatest) if option in given else default
        good = value is not None
    if not good:
        raise Refused("words", f"bad value of {option}")
    return value

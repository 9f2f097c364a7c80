"""What a run ends with: exit status, standard error and standard output."""
from functools import lru_cache
from math import comb
from typing import NamedTuple

from . import demos, grammar, notions, probing, words
from .gadget import Polynomials
from .refusals import Refused
from .report import Report
from .simulation import Simulation

LONGEST_FILE = 1_048_576


class Ending(NamedTuple):
    """How a run ends."""

    exit_status: int
    error: bytes
    output: bytes


class Work(NamedTuple):
    """A check that isn't refused yet."""

    task: str
    order: int
    size: int
    wires: str
    tallies: bool
    gadget: object
    polynomials: object
    items: list
    tuples: int  # sets of one question
    questions: int


def answer(line, file, readable=True, writable=True):
    """How a run with these words (bytes) and this file ends, where the file can or can't be read, and the report can or
    can't be written."""
    try:
        check = words.read(line)
        text = demo_answer(check) if check.task in words.DEMOS else file_answer(check, file, readable)
        if not writable:
            raise Refused("writing", "write failed")
    except Refused as refused:
        return Ending(refused.exit_status, f"{refused.text}\n".encode(), b"")
    return Ending(int("\nverdict no\n" in text), b"", text.encode())


def file_answer(check, file, readable):
    """The report on a file."""
    if not readable:
        raise Refused("reading", "read failed")
    work = prepared(check, file)
    refuse_budget(check, work)
    return report_of(work)


def demo_answer(check):
    """The report of a demonstration."""
    work = demo_work(check.task, check.order, check.tallies)
    refuse_budget(check, work)
    return demo_report(check.task, check.order, check.tallies)


@lru_cache(maxsize=None)
def demo_work(task, shares, tallies):
    """The check that a demonstration makes."""
    text = demos.multiplication(shares) if task == "demo" else demos.refresh(shares)
    check = words.Check("sni", shares - 1, shares - 1, 0, "", tallies)
    return prepared(check, text.encode())


@lru_cache(maxsize=None)
def demo_report(task, shares, tallies):
    """The report of a demonstration, made once."""
    return report_of(demo_work(task, shares, tallies))


def prepared(check, file):
    """What a check of a file has to go through; refuses the file and the gadget."""
    if len(file) > LONGEST_FILE:
        raise Refused("file", "file too long")
    gadget = grammar.read(file)
    polynomials = Polynomials(gadget)
    if check.task in probing.EVENTS:
        questions = probing.count_events(check.task, check.order, gadget)
        items = probing.wires_of(gadget, check.wires)
    else:
        questions, items = 1, notions.items_of(check.task, gadget)
    tuples = sum(comb(len(items), size) for size in range(check.size + 1))
    return Work(
        check.task, check.order, check.size, check.wires, check.tallies, gadget, polynomials, items, tuples, questions
    )


def refuse_budget(check, work):
    total = work.questions * work.tuples
    if total > check.budget:
        raise Refused("budget", f"over budget: {total}")


def report_of(work):
    """The text of a report."""
    report = Report(work.items)
    report.head(work.task, work.order, work.gadget, work.size, work.tuples)
    simulation = Simulation(work.polynomials)
    if work.task in probing.EVENTS:
        report_events(report, work, simulation)
    else:
        failing = notions.failing_sets(work.task, work.order, work.gadget, work.items, simulation)
        report.fails(failing)
        report.line("verdict", "no" if failing else "yes")
    if work.tallies:
        report.tallies()
    return report.text()


def report_events(report, work, simulation):
    """The wires, each event, and the greatest coefficients."""
    report.line("wires", work.wires, sum(item.weight for item in work.items))
    failures = probing.Failures(work.order, work.size, work.gadget, work.items, simulation)
    greatest = {which: [0] * (work.size + 1) for which in probing.asked(work.task, work.gadget)}
    for event in probing.events(work.task, work.order, work.gadget):
        failing, coefficients = failures.of_event(event)
        report.line("event", event.name)
        report.fails(failing)
        report.line("coefficients", *coefficients)
        greatest[event.which] = [max(pair) for pair in zip(greatest[event.which], coefficients)]
    for which, numbers in greatest.items():
        report.line("greatest", which, *numbers)

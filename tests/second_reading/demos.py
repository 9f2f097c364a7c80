"""The gadgets of the demonstrations."""
from itertools import combinations


def multiplication(shares):
    """The multiplication of Ishai, Sahai and Wagner."""
    every = range(shares)
    lines = [f"#SHARES {shares}", "#IN a b", randoms(shares), "#OUT c"]
    lines += [f"p{i}{j} = a{i} * b{j}" for i in every for j in every]
    for i, j in combinations(every, 2):
        lines += [f"u{i}{j} = r{i}{j} + p{i}{j}", f"r{j}{i} = u{i}{j} + p{j}{i}"]
    for i in every:
        lines += running_sum(i, f"p{i}{i}", [(j, f"r{i}{j}") for j in every if j != i], "c")
    return "".join(line + "\n" for line in lines)


def refresh(shares):
    """The refresh with a random bit for each pair of shares."""
    every = range(shares)
    lines = [f"#SHARES {shares}", "#IN a", randoms(shares), "#OUT d"]
    for i in every:
        added = [(j, f"r{min(i, j)}{max(i, j)}") for j in every if j != i]
        lines += running_sum(i, f"a{i}", added, "d")
    return "".join(line + "\n" for line in lines)


def randoms(shares):
    return " ".join(["#RANDOMS"] + [f"r{i}{j}" for i, j in combinations(range(shares), 2)])


def running_sum(i, first, added, output):
    """The lines of a sum whose last one is an output share."""
    lines, before = [], first
    for j, name in added:
        left = f"{output}{i}" if j == added[-1][0] else f"s{i}{j}"
        lines.append(f"{left} = {before} + {name}")
        before = left
    return lines

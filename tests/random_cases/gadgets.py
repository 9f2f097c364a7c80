"""Gadgets made at random, most of them in the class that `mask` decides, many of them with a flaw."""
from itertools import combinations

INPUT_STEMS = ("a", "b", "c", "x_1", "A", "_", "in")
OUTPUT_STEMS = ("d", "e", "out", "Z_", "c_")
INNER_STEMS = ("t", "u", "v", "w", "tmp", "T_9")


class Draft:
    """A gadget's headers and assignments. An expression is a name, or a sign with two expressions."""

    def __init__(self, shares, inputs, randoms, outputs):
        self.shares, self.inputs, self.randoms, self.outputs = shares, list(inputs), list(randoms), list(outputs)
        self.lines = []

    def shares_of(self, stems):
        return [f"{stem}{index}" for stem in stems for index in range(self.shares)]

    def headers(self):
        """The header lines."""
        lines = [f"#SHARES {self.shares}", " ".join(["#IN", *self.inputs])]
        if self.randoms:
            lines.append(" ".join(["#RANDOMS", *self.randoms]))
        return lines + [" ".join(["#OUT", *self.outputs])]


def plus(*parts):
    """A sum, grouped to the left."""
    total = parts[0]
    for part in parts[1:]:
        total = ("+", total, part)
    return total


def grouped(rng, parts):
    """A sum of parts in random groups."""
    parts = list(parts)
    while len(parts) > 1:
        place = rng.randrange(len(parts) - 1)
        parts[place : place + 2] = [("+", parts[place], parts[place + 1])]
    return parts[0]


def gadget(rng):
    """A gadget of a random kind."""
    kind = rng.choice([free, free, free, refresh, multiplication, multiplication, sharewise, line_by_line])
    draft = kind(rng)
    if rng.random() < 0.4:
        flaw(rng, draft)
    return draft


def free(rng):
    """Random operations, and output shares that are sums of a few of them."""
    shares = rng.choice([1, 2, 2, 2, 3, 3, 4])
    inputs = rng.sample(INPUT_STEMS, rng.choice([1, 1, 1, 2, 2, 3]))
    randoms = [f"r{count}" for count in range(rng.randrange(4))]
    draft = Draft(shares, inputs, randoms, rng.sample(OUTPUT_STEMS, rng.choice([1, 1, 2])))
    linear = draft.shares_of(inputs)
    known = linear + draft.randoms
    for count in range(rng.randrange(5)):
        left = f"{rng.choice(INNER_STEMS)}{count}" + rng.choice(["", "", "", ".7", ".7.01"])
        if rng.random() < 0.4:
            tree = ("*", rng.choice(linear), rng.choice(linear))
        else:
            tree = grouped(rng, rng.choices(known, k=rng.randint(1, 3)))
        draft.lines.append((left, tree))
        known.append(left)
    for output in draft.shares_of(draft.outputs):
        parts = rng.choices(known, k=rng.randint(1, 3))
        if rng.random() < 0.2:
            parts.append(("*", rng.choice(linear), rng.choice(linear)))
        draft.lines.append((output, grouped(rng, parts)))
        known.append(output)
    for count in range(rng.choice([0, 0, 1, 2])):
        draft.lines.append((f"z{count}", grouped(rng, rng.choices(known, k=rng.randint(1, 2)))))
    return draft


def pair_randoms(shares):
    return {pair: f"r{pair[0]}{pair[1]}" for pair in combinations(range(shares), 2)}


def refresh(rng):
    """A refresh with a random bit for each pair of shares, or for neighbours."""
    shares = rng.choice([2, 2, 3, 3, 4])
    randoms = pair_randoms(shares)
    if rng.random() < 0.5:
        randoms = {pair: name for pair, name in randoms.items() if pair[1] == pair[0] + 1 or pair == (0, shares - 1)}
    draft = Draft(shares, ["a"], randoms.values(), ["d"])
    for index in range(shares):
        masks = [name for pair, name in randoms.items() if index in pair]
        draft.lines.append((f"d{index}", plus(f"a{index}", *masks)))
    return draft


def multiplication(rng):
    """A multiplication whose output shares are one line each, the terms in a random order and in random groups."""
    shares = rng.choice([2, 2, 2, 3])
    randoms = pair_randoms(shares)
    draft = Draft(shares, ["a", "b"], randoms.values(), ["c"])
    in_groups = rng.random() < 0.5
    for i in range(shares):
        parts = [("*", f"a{i}", f"b{i}")]
        for j in range(shares):
            if i == j:
                continue
            random_bit = randoms[min(i, j), max(i, j)]
            if i < j:
                parts.append(random_bit)
            else:
                parts.append(plus(random_bit, ("*", f"a{i}", f"b{j}"), ("*", f"a{j}", f"b{i}")))
        draft.lines.append((f"c{i}", grouped(rng, parts) if in_groups else plus(*parts)))
    return draft


def line_by_line(rng):
    """Products of all shares, and output shares that sum them up with random bits, one operation a line."""
    shares = 2
    draft = Draft(shares, ["a", "b"], ["r0", "r1"][: rng.randint(1, 2)], ["c"])
    for i in range(shares):
        for j in range(shares):
            draft.lines.append((f"p{i}{j}", ("*", f"a{i}", f"b{j}")))
    draft.lines.append(("u", plus("r0", "p01")))
    draft.lines.append(("v", plus("u", "p10")))
    draft.lines.append(("c0", plus("p00", rng.choice(["r0", draft.randoms[-1]]))))
    draft.lines.append(("c1", plus("p11", "v")))
    return draft


def sharewise(rng):
    """Sums or copies of inputs, share by share, to one or two outputs."""
    shares = rng.choice([1, 2, 3, 4])
    inputs = INPUT_STEMS[: rng.choice([1, 2, 2, 3, 4])]
    outputs = rng.sample(OUTPUT_STEMS, rng.choice([1, 2]))
    draft = Draft(shares, inputs, ["r"] if rng.random() < 0.5 else [], outputs)
    for output in outputs:
        for index in range(shares):
            parts = [f"{stem}{index}" for stem in inputs] + (["r"] if draft.randoms and index < 2 else [])
            draft.lines.append((f"{output}{index}", plus(*parts)))
    return draft


def flaw(rng, draft):
    """Puts another name in the place of one name of the gadget."""
    place = rng.randrange(len(draft.lines))
    known = draft.shares_of(draft.inputs) + draft.randoms + [left for left, _ in draft.lines[:place]]
    left, tree = draft.lines[place]
    names = names_of(tree)
    draft.lines[place] = (left, replaced(tree, rng.choice(names), rng.choice(known)))


def names_of(tree):
    return [tree] if isinstance(tree, str) else names_of(tree[1]) + names_of(tree[2])


def replaced(tree, name, other):
    if isinstance(tree, str):
        return other if tree == name else tree
    return (tree[0], replaced(tree[1], name, other), replaced(tree[2], name, other))

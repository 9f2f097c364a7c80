"""Texts of gadgets: the same gadget written in many ways, and with one thing wrong."""
SIGNS = {"+": "+^", "*": "*&"}
NO_NAMES = ("3a", "a.b", "a-b", "a0!", "\u00e9", "(a)", "a=")


def written(rng, draft):
    """The lines of a gadget, written plainly or with blanks, comments and parentheses."""
    plain = rng.random() < 0.4
    headers = draft.headers()
    if not plain:
        rng.shuffle(headers)
        if rng.random() < 0.3:
            headers.insert(rng.randrange(len(headers) + 1), rng.choice(["#PROFILE 1", "#PROFILE\t01 # grammar"]))
    lines = headers + [f"{left} = {expression(rng, tree, plain)}" for left, tree in draft.lines]
    return lines if plain else [decorated(rng, line) for line in lines]


def expression(rng, tree, plain):
    """An expression as text."""
    if isinstance(tree, str):
        return tree if plain or rng.random() < 0.9 else f"( {tree})"
    sign, left, right = tree
    left_text, right_text = expression(rng, left, plain), expression(rng, right, plain)
    if not isinstance(left, str) and left[0] != sign and sign == "*":
        left_text = f"({left_text})"
    if not isinstance(right, str) and (sign == "*" or right[0] == "+"):
        right_text = f"({right_text})"
    blank = " " if plain else rng.choice(["", " ", "\t", "  "])
    text = f"{left_text}{blank}{sign if plain else rng.choice(SIGNS[sign])}{blank}{right_text}"
    return text if plain or rng.random() < 0.9 else f"({text})"


def decorated(rng, line):
    """A line, perhaps with blanks, a comment, or comment lines before it."""
    choice = rng.random()
    if choice < 0.1:
        return rng.choice(["", " \t", "#", "#ORDER 1", "# IN a", "#INX", "\t#RANDOM", "#IN=", "#out\x01"]) + "\n" + line
    if choice < 0.2:
        return line + rng.choice([" # why", "#", "#IN a", " ", "\t#\u00e9\x00"])
    if choice < 0.3:
        return rng.choice([" ", "\t", "   "]) + line
    return line


def encoded(rng, lines):
    """The bytes of the lines; the last one may lack its end."""
    end = b"\r\n" if rng.random() < 0.1 else b"\n"
    return end.join(line.encode() for line in lines) + (b"" if rng.random() < 0.1 else end)


# One thing wrong, or nearly so. Each takes a random generator, a draft and its lines, and gives the lines.


def header_place(lines, header):
    """The place of a header line."""
    starts = [line.split("\n")[-1].lstrip(" \t").startswith(f"#{header}") for line in lines]
    return starts.index(True)


def with_header(lines, header, text):
    place = header_place(lines, header)
    return [*lines[:place], text, *lines[place + 1 :]]


def last_header(lines):
    return max(header_place(lines, header) for header in ("SHARES", "IN", "OUT"))


def shares_number(rng, draft, lines):
    numbers = ["0", "00", "16", "17", "1", "9" * 30, "0" * 5000 + "2", "2x", "-1", "+2", "", "2 3", "1.0", "0x2", "02"]
    return with_header(lines, "SHARES", f"#SHARES {rng.choice(numbers)}")


def profile_number(rng, draft, lines):
    number = rng.choice(["0", "2", "2", "1", "001", "x", "", "1 1", "11"])
    return [rng.choice(["#PROFILE ", "#PROFILE\t", "#PROFILE#"]) + number, *lines]


def bad_stem(rng, draft, lines):
    header, stems = rng.choice([("IN", draft.inputs), ("RANDOMS", draft.randoms), ("OUT", draft.outputs)])
    stems = list(stems) + [rng.choice(NO_NAMES)]
    rng.shuffle(stems)
    if header == "RANDOMS" and not draft.randoms:
        return [f"#RANDOMS {' '.join(stems)}", *lines]
    return with_header(lines, header, f"#{header} {' '.join(stems)}")


def many_stems(rng, draft, lines):
    header, count = rng.choice([("IN", 4), ("IN", 5), ("OUT", 2), ("OUT", 3), ("RANDOMS", 128), ("RANDOMS", 129)])
    text = " ".join([f"#{header}"] + [f"q{k}_" for k in range(count)])
    if header == "RANDOMS":
        return [text] + [line for line in lines if "#RANDOMS" not in line]
    return with_header(lines, header, text)


def no_stems(rng, draft, lines):
    header = rng.choice(["IN", "OUT", "RANDOMS"])
    if header == "RANDOMS":
        return ["#RANDOMS"] + [line for line in lines if "#RANDOMS" not in line]
    return with_header(lines, header, f"#{header}" + rng.choice(["", " ", "#a", "=a", "\x0ba", "X a", "\t# a"]))


def header_twice(rng, draft, lines):
    header = rng.choice(["#SHARES 2", "#SHARES 2 3", "#IN q", "#OUT q", "#OUT 3q", "#RANDOMS", "#RANDOMS q"])
    place = last_header(lines) + 1
    return [*lines[:place], header, *([header] if rng.random() < 0.5 else []), *lines[place:]]


def late_header(rng, draft, lines):
    late = ["#PROFILE 1", "#SHARES 2", "#IN q", "#OUT q", "#RANDOMS q", "#INX", "#IN", "#SHARES 0"]
    return [*lines, rng.choice(late)]


def stem_twice(rng, draft, lines):
    inputs, randoms, outputs = list(draft.inputs), list(draft.randoms), list(draft.outputs)
    share = f"{rng.choice(inputs)}{rng.randrange(draft.shares + 1)}"
    change = rng.randrange(6)
    if change == 0:
        inputs.append(rng.choice(inputs))
    elif change == 1:
        outputs = [rng.choice(inputs)]
    elif change == 2:
        randoms.append(share)
    elif change == 3:
        randoms += ["q", "q"]
    elif change == 4:
        outputs = [outputs[0], outputs[0]]
    else:
        randoms.append(f"{rng.choice(outputs)}{rng.randrange(draft.shares + 1)}")
    lines = [line for line in lines if "#RANDOMS" not in line]
    lines = with_header(lines, "IN", f"#IN {' '.join(inputs)}")
    lines = with_header(lines, "OUT", f"#OUT {' '.join(outputs)}")
    return [f"#RANDOMS {' '.join(randoms)}", *lines]


def colliding_shares(rng, draft, lines):
    shares = rng.choice([10, 11])
    copies = [f"d{index} = a{index}" for index in range(shares)]
    stems = rng.choice([("a a1", "d"), ("a", "d d1"), ("a", "d")])
    return [f"#SHARES {shares}", f"#IN {stems[0]}", f"#OUT {stems[1]}", *copies]


def assigned_twice(rng, draft, lines):
    taken = [left for left, _ in draft.lines] + draft.randoms + draft.shares_of(draft.inputs)
    return [*lines, f"{rng.choice(taken)} = {draft.inputs[0]}0"]


def inner_name(rng, draft, lines):
    """Inner names that are assigned by hand, before or after, or used in their own line."""
    a = f"{draft.inputs[0]}0"
    return lines + rng.choice([
        [f"y.1 = {a}", f"y = {a} + {a} + {a}"],
        [f"y = {a} + {a} + {a}", f"y.1 = {a}"],
        [f"y.2 = {a}", f"y = {a} + {a} * {a}"],
        [f"y = {a} + {a} + y.1"],
        [f"y = {a} + {a} + {a}", f"z = y.1 + {a}"],
        [f"y = {a} + {a} + {a}", f"z = y.2 + {a}"],
        [f"y.01 = {a}", f"y = {a} + {a} + {a}"],
        [f"y.1.2 = {a}", f"z = y.1.2 * {a}"],
        [f"y.1.1 = {a}", f"y.1 = {a} * ({a} + {a})"],
        [f"y = {a} + y"],
    ])  # fmt: skip


def unknown_name(rng, draft, lines):
    name = rng.choice(["zz", "a_0", draft.inputs[0], draft.outputs[0], f"{draft.inputs[0]}{draft.shares}"])
    place = rng.randint(last_header(lines) + 1, len(lines))
    return [*lines[:place], f"y = {draft.inputs[0]}0 + {name}", *lines[place:]]


def bad_assignment(rng, draft, lines):
    a = f"{draft.inputs[0]}0"
    line = rng.choice([
        "y =", f"= {a}", f"y == {a}", f"y = {a} {a}", f"y = ({a}", f"y = {a})", f"y = {a} + + {a}", f"y. = {a}",
        f".y = {a}", f"y.x = {a}", "y = 3", f"y = reg({a})", f"y = !{a}", f"y + {a}", f"y = {a} +", f"y = * {a}",
        "y = ()", "y", f"(y) = {a}", f"y = {a} = {a}", f"3 = {a}", f"y = {a}.", f"y = {a} - {a}", "y = 1", f"y = {a};",
        f"y = {a}+({a}*{a}))+({a}", f"y.1.2 = {a}", f"y={a}", f"y = (({a}))&(({a})^{a})",
    ])  # fmt: skip
    place = rng.randint(last_header(lines) + 1, len(lines))
    return [*lines[:place], line, *lines[place:]]


def no_text(rng, draft, lines):
    place = rng.randrange(len(lines))
    line = lines[place]
    cut = rng.randrange(len(line) + 1)
    byte = rng.choice(["\x00", "\r", "\x7f", "\u00e9", "\x0b", "\x1f", "~"])
    return [*lines[:place], line[:cut] + byte + line[cut:], *lines[place + 1 :]]


def line_end(rng, draft, lines):
    """Carriage returns, of which one at the end of a line is none of it."""
    place = rng.randrange(len(lines))
    end = rng.choice(["\r", "\r\r", "\r\r", " \r", "\r ", "#\r\r"])
    return [*lines[:place], lines[place] + end, *lines[place + 1 :], ""]


def nested(rng, draft, lines):
    """Parentheses about as many as are allowed."""
    a = f"{draft.inputs[0]}0"
    deep = rng.choice([63, 64, 65, 66])
    line = rng.choice([
        "y = " + "(" * deep + a + ")" * deep,
        "y = " + ")" * 3 + "(" * (deep + 3),
        "(" * deep + " = " + a,
        "y = " + f"({a})+" * 70 + "(" * deep + a + ")" * deep,
        "y = zz" + "(" * deep,
    ])  # fmt: skip
    return [*lines, line]


def many_variables(rng, draft, lines):
    """About as many variables as are allowed."""
    count = len(draft.inputs) * draft.shares + len(draft.randoms)
    names = draft.shares_of(draft.outputs)
    more = 511 - count - len(names) + rng.choice([-1, 0, 0, 1, 1, 2])
    headers, a = draft.headers(), f"{draft.inputs[0]}0"
    copies = [f"{name} = {a}" for name in names]
    if rng.random() < 0.5:
        return headers + copies + ["y = " + " + ".join([a] * (more + 1))]
    return headers + copies + [f"y{k} = {a}" for k in range(more)]


def random_product(rng, draft, lines):
    if not draft.randoms:
        return [*lines, f"y = {draft.inputs[0]}0 * {draft.inputs[0]}0"]
    a, r = f"{draft.inputs[0]}0", rng.choice(draft.randoms)
    return [*lines, "y = " + rng.choice([
        f"{r} * {a}", f"{r} * {r}", f"({r} + {a}) * ({a} + {r})", f"({r} + {a}) * {a}", f"{a} + {r} * ({r} + {r})",
    ])]  # fmt: skip


def high_degree(rng, draft, lines):
    names = draft.shares_of(draft.inputs)
    return [*lines, f"y = {' * '.join(rng.choices(names, k=rng.choice([2, 3, 3, 4])))}"]


def many_monomials(rng, draft, lines):
    """A product of about as many monomials as are allowed."""
    a, b = (" + ".join(f"{stem}{index}" for index in range(16)) for stem in "ab")
    more = rng.choice([[], ["u = t + c0"], ["u = t + r", "v = u + c1"], ["u = t * c0"], ["u = t + a0 * b0"]])
    copies = [f"d{index} = c{index}" for index in range(16)]
    return ["#SHARES 16", "#IN a b c", "#RANDOMS r", "#OUT d", f"t = ({a}) * ({b})", *more, *copies]


def missing_output(rng, draft, lines):
    names = draft.shares_of(draft.outputs)
    gone = set(rng.sample(names, rng.randint(1, len(names))))
    return draft.headers() + [f"{name} = {draft.inputs[0]}0" for name in names if name not in gone]


WRONG = (
    shares_number, profile_number, bad_stem, many_stems, no_stems, header_twice, late_header, stem_twice,
    colliding_shares, assigned_twice, inner_name, unknown_name, bad_assignment, no_text, line_end, nested,
    random_product, high_degree, missing_output, many_variables, many_stems,
)  # fmt: skip
AT_LIMITS = (many_variables, many_monomials, nested, many_stems, colliding_shares)


def drop_line(rng, lines):
    place = rng.randrange(len(lines))
    return lines[:place] + lines[place + 1 :]


def repeat_line(rng, lines):
    return [*lines, rng.choice(lines)] if rng.random() < 0.5 else [*lines[:1], *lines]


def exchange_lines(rng, lines):
    lines = list(lines)
    first, second = rng.randrange(len(lines)), rng.randrange(len(lines))
    lines[first], lines[second] = lines[second], lines[first]
    return lines


LINE_CHANGES = (drop_line, repeat_line, exchange_lines)
COMMON = b"#=+^*&().ad01 \t\r\n_r\x00\xc8!-~"


def change_byte(rng, file):
    """One byte put in, taken out or replaced, or the file cut."""
    place = rng.randrange(len(file) or 1)
    byte = bytes([rng.choice(COMMON)]) if rng.random() < 0.8 else rng.randbytes(1)
    return rng.choice([file[:place] + byte + file[place:], file[:place] + file[place + 1 :],
                       file[:place] + byte + file[place + 1 :], file[:place]])  # fmt: skip

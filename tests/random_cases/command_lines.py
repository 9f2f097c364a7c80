"""Command lines made at random."""
NOTIONS = ("ni", "tni", "sni", "pini")
EVENTS = ("rpc", "rpe")
# Values that change no byte of a report.
FREE = {
    "--workers": ("1", "2", "3", "8", "64", "0000000004"),
    "--block": ("1", "2", "3", "7", "4096", "67108864"),
    "--words": ("4", "5", "65536", "67108864"),
}
# Values at and past the limits, and texts that are no number.
ODD = {
    "--size": ("0", "6", "7", "00000000003", "0000000002", "-1", "", "3 "),
    "--workers": ("0", "1", "64", "65", "", "+2", "00000000001", "-4", "4294967297"),
    "--block": ("0", "1", "67108864", "67108865", "", "1_0", "9999999999", "0x10"),
    "--budget": ("0", "1", "67108864", "67108865", "", "18446744073709551617", "9999999999"),
    "--words": ("3", "4", "67108864", "67108865", "", "4.0", "four"),
    "--wires": ("plain", "copies", "", "Plain", "copy", "copies ", "plain,copies"),
}
ARGUMENTS = {
    "notion": ("0", "6", "7", "01", "0000000001", "00000000001", "+1", "", "1.0", "x", "\u0661", "-1", "9" * 40),
    "event": ("0", "16", "17", "002", "9999999999", "2x", "\u00b2", "-0"),
    "demo": ("1", "2", "6", "02", "0", "x", "2 "),
}

NO_TASKS = ("", "-", "NI", "xni", "--", "demo_refresh", "mask", "\u00e9", "gni", "function", "pini\n")
AT_LIMITS = {"notion": ("0", "6", "7"), "event": ("16", "17"), "demo": ("1", "2", "6")}


def options(rng, chosen):
    """Options and their values as words, in either form."""
    found = []
    for option, value in chosen:
        joined = value.startswith("-") or rng.random() < 0.5
        found.append([f"{option}={value}"] if joined else [option, value])
    return found


def free_options(rng):
    """Some options that change no byte, and perhaps the flag."""
    names = [option for option in FREE if rng.random() < 0.25]
    found = options(rng, [(option, rng.choice(FREE[option])) for option in names])
    return found + ([["--tallies"]] if rng.random() < 0.3 else [])


def mixed(rng, positional, chosen):
    """The words in a random order; the positional ones keep theirs, and may follow a word `--`."""
    groups = list(chosen)
    rng.shuffle(groups)
    places = sorted(rng.randrange(len(groups) + 1) for _ in positional)
    for place, word in reversed(list(zip(places, positional))):
        groups.insert(place, [word])
    words = [word for group in groups for word in group]
    if rng.random() < 0.08:
        words = words_after_dashes(rng, positional, chosen)
    return words


def words_after_dashes(rng, positional, chosen):
    """Options, and after `--` one positional word, both, or none."""
    kept = rng.randrange(len(positional) + 1)
    return [*positional[:kept], *(word for group in chosen for word in group), "--", *positional[kept:]]


def odd_words(rng):
    """Words of which one thing is wrong, or nearly so; the file is small."""
    kind = rng.choice(["notion", "notion", "event", "demo"])
    task = rng.choice({"notion": NOTIONS, "event": EVENTS, "demo": ("demo", "demo-refresh")}[kind])
    argument = rng.choice(["1", "2"] if kind != "demo" else ["2", "3"])
    return rng.choice(CHANGES)(rng, kind, task, argument)


def odd_argument(rng, kind, task, argument):
    arguments = rng.choice([ARGUMENTS, AT_LIMITS])[kind]
    return mixed(rng, [task, rng.choice(arguments)], free_options(rng))


def odd_value(rng, kind, task, argument):
    option = rng.choice(list(ODD))
    return mixed(rng, [task, argument], options(rng, [(option, rng.choice(ODD[option]))]))


def odd_values(rng, kind, task, argument):
    names = rng.sample(list(ODD), 2)
    return mixed(rng, [task, argument], options(rng, [(option, rng.choice(ODD[option])) for option in names]))


def odd_task(rng, kind, task, argument):
    return mixed(rng, [rng.choice([*NO_TASKS, task[:-1], task + " "]), argument], free_options(rng))


def not_used(rng, kind, task, argument):
    chosen = rng.choice([("--size", "2"), ("--wires", "plain"), ("--size", "9"), ("--wires", "copies")])
    return mixed(rng, [task, argument], options(rng, [chosen]) + free_options(rng))


def odd_shape(rng, kind, task, argument):
    """Words of a shape that is refused, and some that only look so."""
    option = rng.choice(list(FREE))
    value = rng.choice(FREE[option])
    return list(rng.choice([
        [], [task], [task, argument, "3"], [task, argument, option, value, option, value], [task, argument, option],
        [task, argument, option, "-1"], [task, argument, option, "--tallies"], [task, argument, "--tallies=yes"],
        [task, argument, "--tallies="], [task, argument, "--tallies", "--tallies"], ["--help"], ["-h"],
        [task, argument, "--help"], [task, argument, "-V"], [task, argument, "--version"], [task, argument, ""],
        [task, argument, "-"], [task, "-", argument], ["", task, argument], [task, argument, option, ""],
        [task, argument, option[:-1], value], [task, argument, option.upper(), value], [task, argument, "-w", "2"],
        [task, argument, option + "s=" + value], [task, argument, option + "=", value], [task, argument, "--", option],
        [task, "--", argument, option, value], ["--", task, argument, "--"], ["--", "--", task], [task, argument, "--"],
        ["--", task, argument], [option, value, "--", task, argument], [task, argument, option, "--", value],
        [task, "--", "--"], [task, argument, "---"], [task, argument, "--="], [task, argument, "--=2"],
        [task, argument, f"{option}=={value}"], [task, "--", "-1"], ["--", "-h", argument], [task, argument, "--", ""],
        [task, argument, "--", "-"], [task, "--", "-"], ["--", "-", argument], ["--", task, ""], ["help"],
        ["help", task], [task, argument, f"{option}={value}", f"{option}={value}"], [argument, task], [task, task],
        ["-" + task, argument], [task, argument, "@file"], [task, argument, "--tallies", "2"],
    ]))  # fmt: skip


def odd_bytes(rng, kind, task, argument):
    """A word that is no UTF-8."""
    bad = rng.choice([b"\xff", b"\xc3", b"ni\x80", b"--size=\xed\xa0\x80", b"\xf8\x88\x80\x80\x80", b"-\xff"])
    words = [word.encode() for word in mixed(rng, [task, argument], free_options(rng))]
    return [*words, bad] if rng.random() < 0.5 else [bad, *words]


CHANGES = (odd_argument, odd_value, odd_value, odd_values, odd_shape, odd_shape, odd_task, not_used, odd_bytes)

"""How a check ends without a report."""

EXITS = {"words": 2, "file": 3, "gadget": 4, "budget": 5, "reading": 6, "writing": 7, "memory": 8}


class Refused(Exception):
    """A check is refused: for what (a key of EXITS), and with which text on standard error."""

    def __init__(self, cause, text):
        super().__init__(text)
        self.exit_status = EXITS[cause]
        self.text = "mask: " + text


def refuse_line(number, offence):
    raise Refused("file", f"line {number}: {offence}")


def refuse_many(what):
    raise Refused("file", f"too many {what}")

"""The text of a report."""


class Report:
    """The lines so far, and what the tallies count: fail lines by their size, and by each of their items."""

    def __init__(self, items):
        self.items = items
        self.lines = []
        self.sizes = [0] * 7
        self.found = [0] * 511

    def line(self, *words):
        self.lines.append(" ".join(str(word) for word in words))

    def head(self, task, order, gadget, size, tuples):
        self.line("check", task, order)
        numbers = {
            "shares": gadget.shares,
            "inputs": len(gadget.inputs),
            "outputs": len(gadget.outputs),
            "randoms": len(gadget.randoms),
            "variables": len(gadget.variables),
        }
        self.line("gadget", *(word for pair in numbers.items() for word in pair))
        self.line("space items", len(self.items), "size", size, "tuples", tuples)

    def fails(self, failing):
        for chosen in failing:
            self.line("fail", len(chosen), *(self.items[item].name for item in chosen))
            self.sizes[len(chosen)] += 1
            for item in chosen:
                self.found[item] += 1

    def tallies(self):
        for size, count in enumerate(self.sizes):
            if count:
                self.line("tally size", size, count)
        for item, count in enumerate(self.found):
            if count:
                self.line("tally item", self.items[item].name, count)

    def text(self):
        return "".join(line + "\n" for line in self.lines)

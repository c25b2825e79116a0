"""Holding answers against one another, and counting what was compared.

An answer is a line: `value LENGTH COUNT WORDS TEXT`, `refused NUMBER DETAIL`, or `died`. Drivers of a reader
that must answer exactly as expected use Tally with exact=True. A difference is told as soon as it is known.
"""

import fcntl

NAMES = {
    0: "value", 1: "ShortRoom", 2: "TooLong", 3: "EndOfInput", 4: "UnsupportedOpcode",
    5: "UnsupportedProtocol", 6: "StackUnderflow", 7: "MissingMemo", 8: "InvalidLiteral",
    9: "IntegerTooLarge", 10: "Invalid",
    11: "TrailingData", 12: "StackFull", 13: "MarksFull", 14: "MemoFull", 15: "NodesFull", 16: "LinksFull",
    17: "TooDeep", 18: "TooManyValues", 19: "TextFull", 20: "FloatOutside", 21: "BadTable",
}
ADDED = {2} | set(range(12, 21))    # refusals that the Rust doesn't have
MOST = 20                           # differences kept for a record


def tell(line):
    """A line on standard output, at once and in one piece whichever process tells it: a run that is stopped keeps what it saw."""
    with open(__file__) as one_at_a_time:
        fcntl.flock(one_at_a_time, fcntl.LOCK_EX)
        print(line, flush=True)


def number(answer):
    """An answer's number, 0 for a value; None for anything that isn't an answer."""
    fields = answer.split(" ")
    if fields[0] == "value" and len(fields) == 5:
        return 0
    if fields[0] == "refused" and len(fields) == 3 and fields[1].isdigit() and int(fields[1]) in NAMES:
        return int(fields[1])
    return None


def agrees(expect, answer, exact=False):
    """Whether an answer may stand beside the expected one; the Rust may say anything for an added refusal."""
    n = number(expect)
    if n is None:
        return False
    if n in ADDED and not exact:
        return True
    return expect == answer


class Tally:
    """Counts by kind and expected number, and the differences, each told when it is added."""

    def __init__(self, exact=False):
        self.exact = exact
        self.cases = 0
        self.differences = []       # a line each, the first MOST of them
        self.different = 0
        self.counts = {}            # (kind, number) to cases

    def add(self, kind, data, expect, answer):
        self.cases += 1
        key = (kind, number(expect))
        self.counts[key] = self.counts.get(key, 0) + 1
        if not agrees(expect, answer, self.exact):
            self.different += 1
            line = "%s\t%s\texpected %s\tgot %s" % (kind, data.hex() or "-", short(expect), short(answer))
            tell("difference\t" + line)
            if len(self.differences) < MOST:
                self.differences.append(line)

    def merge(self, other):
        """Add what another has counted."""
        self.cases += other.cases
        self.different += other.different
        self.differences = (self.differences + other.differences)[:MOST]
        for key, count in other.counts.items():
            self.counts[key] = self.counts.get(key, 0) + count

    def table(self):
        """Lines: the kinds across, expected numbers down."""
        kinds = sorted({kind for kind, _ in self.counts})
        lines = ["%-22s" % "expected" + "".join("%9s" % kind for kind in kinds) + "%9s" % "all"]
        for n in list(NAMES) + [None]:
            row = [self.counts.get((kind, n), 0) for kind in kinds]
            if sum(row):
                label = "no answer" if n is None else "%2d %s" % (n, NAMES[n])
                lines.append("%-22s" % label + "".join("%9d" % count for count in row + [sum(row)]))
        return lines


def short(text):
    return text if len(text) <= 300 else text[:300] + ".."

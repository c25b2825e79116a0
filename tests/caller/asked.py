"""What a run of tests/calls asks of the library, and what is due by the Rust and RULES, part A (tests/oracle): pickles with all
that follows from them, the slices of a reading at their lengths, and tables that a reading seldom or never gives."""
import itertools

import tables
import wire
from ask import TRACE, ask
from draw import Draw
from table import orders, written
from tally import Tally

STREAM = 99                     # of the draws here, beside those of the kinds of cases
SHORT, BROKEN = 1 / 8, 1 / 8    # how often a slice is too short, a table broken
TWICE, TAIL = 1 / 4, 300        # how often a pickle stands behind itself; else at most so many random bytes do
LONGEST = 65536
OUTSIDE = b"cR\x81bpg"         # GLOBAL, REDUCE, NEWOBJ, BUILD, text PUT and GET: not for plain data (Ask 7)


def told(line):
    """Number, detail and length of an answer line of the oracle; None if it has no answer."""
    fields = line.split(" ")
    if fields[0] == "value":
        return 0, 0, int(fields[1])
    if fields[0] == "refused":
        return int(fields[1]), int(fields[2]), 0
    return None


def both_readings(pickles):
    """The lines due for each pickle: of the prefix and of the whole reading."""
    return list(zip(ask(TRACE, "expect", pickles), ask(TRACE, "expectwhole", pickles)))


def first_outside(pickle, trace):
    """The place of the first opcode that the Rust executes, or refuses, and that is not for plain data; None if there is none."""
    steps = trace.rpartition("| steps")[2] if "| steps" in trace else ""
    places = (int(step.split(":", 1)[0]) for step in steps.split())
    return next((at for at in places if at < len(pickle) and pickle[at] in OUTSIDE), None)


def plain_readings(pickles, full):
    """The lines due for each pickle in the profile for plain data, by those of the full readings. Where there is an opcode outside, the
    pickle that ends before it tells whether the full reader comes to it: that is 3, where an opcode should stand, and all else of this
    pickle is an added refusal on the way."""
    places = [first_outside(pickle, trace) for pickle, trace in zip(pickles, ask(TRACE, "trace", pickles))]
    ends = ask(TRACE, "expect", [pickle[:at] for pickle, at in zip(pickles, places) if at is not None])
    due = []
    for pickle, at, lines in zip(pickles, places, full):
        end = ends.pop(0) if at is not None else None
        if end is None or len(pickle) > LONGEST:
            due.append(lines)
        else:
            due.append(("refused 26 %d" % pickle[at] if end == "refused 3 0" else end,) * 2)
    return due


class Value:
    """A value's table, also as the oracle writes and takes it."""

    def __init__(self, line):
        self.asked = " ".join(line.split(" ")[3:])
        self.words, self.text = tables.of_answer(line)

    def line(self, length):
        """The answer of a reading that takes this value from so many bytes."""
        return "value %d %d %s" % (length, len(self.words) // 4, self.asked)


class Asked:
    """Cases one after another, their requests, and what came of them. A case's tag is its place."""

    def __init__(self, seed, number):
        self.draw = Draw(seed, STREAM, number)
        self.cases, self.requests, self.wrong, self.counts = [], [], {}, {}

    def begin(self, kind, data, line):
        """A new case, with the line that is due first of all."""
        self.tag = len(self.cases)
        self.cases.append((kind, data, line))

    def seed(self):
        return self.draw.below(1 << 48)

    def count(self, what):
        self.counts[what] = self.counts.get(what, 0) + 1

    def differs(self, tag, what):
        self.wrong.setdefault(tag, what)

    def give(self, words, text, count=None, lent=None):
        self.requests.append(wire.value(self.tag, self.seed(), words, text, count, lent))

    def give_value(self, value):
        """Sometimes in a table as long as a reading's."""
        self.give(value.words, value.text, lent=self.draw.pick([len(value.words), wire.TABLE]))

    def ask_reading(self, call, pickle, answer, *slice):
        self.requests.append(wire.reading(call, self.tag, self.seed(), pickle, answer, *slice))

    def ask_outputs(self, words, text, image):
        """Write and list of the current value, which the Rust writes as this image."""
        if tables.unwritable(words, text):
            self.requests.append(wire.unwritable(self.tag, self.seed()))
            self.count("values with a name that cannot be read back, 25 to to_bytes")
        else:
            self.requests.append(wire.output(wire.WRITE, self.tag, self.seed(), image))
        self.requests.append(wire.output(wire.LIST, self.tag, self.seed(), tables.listing(words, text)))

    def ask_order(self, sign, first, second):
        self.requests.append(wire.comparison(self.tag, self.seed(), sign, first, second))
        self.count("comparisons with order %d" % sign)

    def ask_bad(self):
        self.requests += wire.bad(self.tag, self.seed())
        self.count("tables that are not well formed")

    def outcome(self):
        """The tally of the cases, and counts of what was done."""
        differences, done = wire.answered(self.requests)
        for tag, what in differences:
            self.differs(tag, what)
        for call in (wire.PREFIX, wire.WHOLE, wire.PLAIN_PREFIX, wire.PLAIN_WHOLE, wire.WRITE, wire.LIST, wire.COMPARE):
            self.counts["requests of " + wire.CALLS[call]] = done[call]
        tally = Tally(exact=True)
        for tag, (kind, data, line) in enumerate(self.cases):
            tally.add(kind, data, line, self.wrong.get(tag, line))
        return tally, self.counts


class Pickles(Asked):
    """(kind, pickle) cases: both readings, of all and of plain data; of a value all the calls."""

    def __init__(self, seed, number, cases):
        super().__init__(seed, number)
        pickles = [pickle for _, pickle in cases]
        lines = both_readings(pickles)
        plain = plain_readings(pickles, lines)
        values = [Value(prefix) if prefix.startswith("value ") else None for prefix, _ in lines]
        found = [v for v in values if v]
        images = written([v.asked for v in found])
        before = found[-1:] + found[:-1]
        forth = orders([(v.asked, w.asked) for v, w in zip(found, before)])
        back = orders([(w.asked, v.asked) for v, w in zip(found, before)])
        follows = zip(before, images, both_readings(images), forth, back)
        for (kind, pickle), (prefix, whole), of_plain, value in zip(cases, lines, plain, values):
            self.begin(kind, pickle, prefix)
            self.ask_pickle(pickle, prefix, whole, of_plain, value, *(next(follows) if value else []))

    def ask_pickle(self, pickle, prefix, whole, of_plain, value, before=None, image=None, again=None, forth=None, back=None):
        if value:
            self.give_value(before)
            self.give_value(value)
        self.ask_due(wire.PREFIX, pickle, prefix, value)
        self.ask_due(wire.WHOLE, pickle, whole, value)
        self.ask_due(wire.PLAIN_PREFIX, pickle, of_plain[0], value)
        self.ask_due(wire.PLAIN_WHOLE, pickle, of_plain[1], value)
        if of_plain[0].startswith("refused 26 "):
            self.count("pickles outside the profile" + (", of those that the full reader accepts" if value else ""))
        if whole != prefix:
            self.count("pickles with bytes left, 11 to the whole reading")
        if self.draw.chance(SHORT):
            self.ask_short(pickle)
        if value:
            self.ask_outputs(value.words, value.text, image)
            self.ask_order(0, wire.CURRENT, wire.CURRENT)
            self.ask_order(forth, wire.CURRENT, wire.PREVIOUS)
            self.ask_order(back, wire.PREVIOUS, wire.CURRENT)
            if not tables.unwritable(value.words, value.text):
                self.ask_back(value, image, *again)
            if self.draw.chance(BROKEN):
                self.give_value(value)
                self.give(tables.broken_at(value.words, self.draw), value.text)
                self.ask_bad()

    def ask_due(self, call, pickle, line, value):
        """A reading due to answer the line; a value must be the current one."""
        answer = told(line)
        if answer and (answer[0] != 0 or (value and line == value.line(answer[2]))):
            self.ask_reading(call, pickle, answer)
        else:
            self.differs(self.tag, "%s: the oracle says %s" % (wire.CALLS[call], line[:300]))

    def ask_short(self, pickle):
        """One slice too short: by one, by some, or empty."""
        which = self.draw.below(len(wire.STATED))
        shorter = self.draw.pick([1, 1, 1 + self.draw.below(wire.STATED[which]), wire.STATED[which]])
        self.ask_reading(self.draw.pick([wire.PREFIX, wire.WHOLE, wire.PLAIN_PREFIX, wire.PLAIN_WHOLE]), pickle, (1, 0, 0), which, -shorter)
        self.count("readings with a slice too short")

    def ask_back(self, value, image, prefix, whole):
        """What was written is read back as the same value. Where the rules say otherwise, the Rust says what is due."""
        if prefix == whole == value.line(len(image)):
            self.count("values read back the same")
        elif len(image) > LONGEST:
            self.count("values whose pickle is longer than may be read back")
        else:
            return self.differs(self.tag, "written as %s, which the Rust reads back as %s" % (image.hex()[:300], prefix[:300]))
        if prefix.startswith("value ") and prefix != value.line(len(image)):
            value = Value(prefix)
            self.give_value(value)
        self.ask_due(wire.PREFIX, image, prefix, value)
        self.ask_due(wire.WHOLE, image, whole, value)
        self.ask_followed(image)

    def ask_followed(self, image):
        """Ask 6: with other bytes behind it the pickle of the current value is read back as that value, and they are left; unless all
        is too long."""
        followed = image + (image if self.draw.chance(TWICE) else self.draw.bytes(1 + self.draw.below(TAIL)))
        if len(followed) > LONGEST:
            self.ask_reading(wire.PREFIX, followed, (2, 0, 0))
            self.count("values whose pickle is too long with bytes behind it")
        else:
            self.ask_reading(wire.PREFIX, followed, (0, 0, len(image)))
            self.ask_reading(wire.WHOLE, followed, (11, 0, 0))
            self.count("values read back with bytes behind")


class Slices(Asked):
    """Each slice of a reading one element short, as stated, one longer, and empty, for a pickle that is read, one that is refused, and
    one that is too long; all three plain data."""

    def __init__(self, seed):
        super().__init__(seed, 0)
        pickles = [b"](K\1U\1ae.", b"\x80\x03", b"N." + b"x" * 65535]
        for pickle, (prefix, whole) in zip(pickles, both_readings(pickles)):
            for which, stated in enumerate(wire.STATED):
                for longer in (-1, 0, 1, -stated):
                    self.begin("slice", pickle, "refused 1 0" if longer < 0 else prefix)
                    if prefix.startswith("value "):
                        self.give_value(Value(prefix))
                    for call, line in ((wire.PREFIX, prefix), (wire.WHOLE, whole), (wire.PLAIN_PREFIX, prefix), (wire.PLAIN_WHOLE, whole)):
                        self.ask_reading(call, pickle, (1, 0, 0) if longer < 0 else told(line), which, longer)


class Tables(Asked):
    """Tables that a reading seldom or never gives: written, listed, and each compared with each; such as have newlines and CRs in their
    names, written and listed; and such as are not well formed."""

    def __init__(self, seed):
        super().__init__(seed, 1)
        samples = [tables.table(value) for value in tables.samples()]
        asked = [tables.asked(table) for table in samples]
        signs = iter(orders(list(itertools.product(asked, asked))))
        for (words, text), line, image in zip(samples, asked, written(asked)):
            self.begin("table", image, "value %d %d %s" % (len(image), len(words) // 4, line))
            for other in samples:
                self.give(words, text)
                self.give(*other)
                self.ask_order(next(signs), wire.PREVIOUS, wire.CURRENT)
            self.give(words, text)
            self.ask_outputs(words, text, image)
        lines = [tables.table(value) for value in tables.named_in_lines()]
        for (words, text), image in zip(lines, written(map(tables.asked, lines))):
            self.begin("table", image, "value %d %d %s" % (len(image), len(words) // 4, tables.asked((words, text))))
            self.give(words, text)
            self.ask_outputs(words, text, image)
        for what, words, count, text in tables.broken():
            self.begin("table", what.encode(), "refused 21 1")
            self.give(*samples[self.draw.below(len(samples))])
            self.give(words, text, count, len(words))
            self.ask_bad()


def sample_images():
    """What the Rust writes of those tables."""
    return written([tables.asked(tables.table(value)) for value in tables.samples() + tables.named_in_lines()])

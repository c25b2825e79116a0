"""RULES, Ask 3, written from the rule's words: whether a value, (kind, payload) as tables.py has it, is a sheet, and its score. Then values
to score: sheets, sheets with one thing wrong, at the edges of what is allowed, with further keys of every kind."""
from tables import BOOL, BYTES, DICT, FLOAT, FROZENSET, GLOBAL, INT, LIST, NONE, OBJECT, SET, STRING, TUPLE

NO_SHEET = (24, 0, 0, 0)


def number(value):
    """An I64's number; None of another kind."""
    kind, bits = value
    return None if kind != INT else bits - (bits >> 63 << 64)


def within(value, low, high):
    n = number(value)
    return n is not None and low <= n <= high


def entries(contents):
    return list(zip(contents[0::2], contents[1::2]))


def field(contents, name, kind):
    """What is under the Bytes key, if it is of this kind."""
    for key, value in entries(contents):
        if key == (BYTES, name) and value[0] == kind:
            return value
    return None


def score(value):
    """Number, detail, score and items that are due."""
    kind, contents = value
    if kind != DICT:
        return NO_SHEET
    wanted = ((b"answers", DICT), (b"reverse", SET), (b"max", INT), (b"flipped", BOOL))
    answers, reverse, top, flipped = (field(contents, name, kind) for name, kind in wanted)
    if None in (answers, reverse, top, flipped) or not within(top, 1, 100):
        return NO_SHEET
    top, given = number(top), {}
    for item, answer in entries(answers[1]):
        if not within(item, 1, 200) or not within(answer, 0, top):
            return NO_SHEET
        given[number(item)] = number(answer)
    turned = {number(item) for item in reverse[1]}
    if not turned <= set(given):
        return NO_SHEET
    if flipped[1]:
        return 0, 0, sum(given.values()), len(given)
    return 0, 0, sum(top - answer if item in turned else answer for item, answer in given.items()), len(given)


# ---- values to score

def integer(n):
    return INT, n % (1 << 64)


ODD = [(NONE, None), (BOOL, 0), (BOOL, 1), integer(-1), integer(1), integer(1 << 40), (FLOAT, 0x3FF << 52), (BYTES, b"1"), (STRING, b"1"),
       (LIST, []), (TUPLE, [integer(1)]), (SET, [integer(1)]), (FROZENSET, []), (DICT, []), (GLOBAL, (b"m", b"n")),
       (OBJECT, (b"m", b"n", 1, [(TUPLE, [])]))]


def place(value):
    """Where a key or an item stands among others, of which none but integers and text differ within a kind."""
    kind, payload = value
    return kind, payload - (payload >> 63 << 64) if kind == INT else payload if kind in (BOOL, BYTES, STRING) else 0


def dict_of(pairs):
    """In order; of keys in one place the last."""
    kept = {place(key): (key, value) for key, value in pairs}
    return DICT, [x for at in sorted(kept) for x in kept[at]]


def set_of(items):
    kept = {place(item): item for item in items}
    return SET, [kept[at] for at in sorted(kept)]


NAMES = [(BYTES, name) for name in (b"answers", b"reverse", b"max", b"flipped")]


def sheet(answers, reverse, top, flipped, names=NAMES, more=()):
    """The four fields under these names, and further pairs."""
    return dict_of([*more, *zip(names, (answers, reverse, top, flipped))])


def edges():
    """A good sheet with one thing at its edge or wrong, marked and not marked."""
    for mark in ((BOOL, 0), (BOOL, 1)):
        good = dict_of([(integer(1), integer(3)), (integer(2), integer(0)), (integer(200), integer(4))]), set_of([integer(2)]), integer(4), mark
        yield sheet(*good)
        yield sheet(dict_of([(integer(n), integer(100)) for n in range(1, 201)]), set_of([integer(n) for n in range(1, 201, 7)]), integer(100), mark)
        for n in (-1 << 63, -1, 0, 1, 2, 200, 201, 1 << 32, (1 << 63) - 1):
            yield sheet(dict_of([(integer(n), integer(1))]), set_of([]), integer(4), mark)
            yield sheet(dict_of([(integer(n), integer(1))]), set_of([integer(n)]), integer(4), mark)
            yield sheet(good[0], set_of([integer(n)]), integer(4), mark)
            yield sheet(dict_of([]), set_of([integer(n)]), integer(4), mark)
        for top in (1, 2, 99, 100):
            for answer in (-1 << 63, -1, 0, 1, top - 1, top, top + 1, 1 << 32):
                yield sheet(dict_of([(integer(7), integer(answer))]), set_of([integer(7)]), integer(top), mark)
                yield sheet(dict_of([(integer(7), integer(answer))]), set_of([]), integer(top), mark)
        for top in (-1 << 63, -1, 0, 1, 2, 99, 100, 101, 1 << 32):
            yield sheet(dict_of([]), set_of([]), integer(top), mark)
            yield sheet(dict_of([(integer(1), integer(0))]), set_of([integer(1)]), integer(top), mark)
        for odd in ODD:
            yield odd
            for i in range(4):
                yield sheet(*good[:i], odd, *good[i + 1:])
            yield sheet(dict_of([(odd, integer(1))]), set_of([]), integer(4), mark)
            yield sheet(dict_of([(odd, integer(1))]), set_of([odd]), integer(4), mark)
            yield sheet(dict_of([(integer(1), odd)]), set_of([integer(1)]), integer(4), mark)
            yield sheet(good[0], set_of([odd, integer(2)]), integer(4), mark)
            yield sheet(*good, more=[(odd, odd)])
            yield sheet(*good, more=[((BYTES, b"comment"), odd), ((STRING, b"max"), odd)])
        for i, (_, name) in enumerate(NAMES):
            for other in ((STRING, name), (BYTES, name + b" "), (BYTES, name[:-1]), (BYTES, b"")):
                yield sheet(*good, names=NAMES[:i] + [other] + NAMES[i + 1:])
            yield sheet(*good, more=[((STRING, name), (NONE, None))])
        for kind in (LIST, TUPLE, FROZENSET, DICT):
            yield sheet(good[0], (kind, [integer(1), integer(2)]), integer(4), mark)
            yield sheet((kind, good[0][1]), good[1], integer(4), mark) if kind in (LIST, TUPLE) else sheet((kind, []), set_of([]), integer(4), mark)
        yield from ((kind, [sheet(*good)]) for kind in (LIST, TUPLE))


EDGES = list(edges())


def value(d):
    """A sheet, or nearly one."""
    top = d.pick([1, 2, 3, 4, 5, 10, 99, 100])
    items = {d.pick([1, 2, 199, 200, d.between(1, 200), d.between(1, 200)]) for _ in range(d.pick([0, 1, 2, 5, 20, 200]))}
    answers = [[integer(n), integer(d.pick([0, top, d.between(0, top)]))] for n in items]
    reverse = [integer(n) for n in items if d.chance(0.3)]
    flipped, limit, kinds, names = (BOOL, d.below(2)), integer(top), [DICT, SET], NAMES[:]
    wrong = d.pick(["no"] * 8 + ["item", "answer", "max", "flipped", "reverse", "unanswered", "set", "answers", "name", "string", "max range",
                                 "root", "odd item", "odd answer"])
    some = d.below(len(answers)) if answers else None
    if wrong == "item" and answers:
        answers[some][0] = integer(d.pick([0, 1, 200, 201, -1, 1 << 63]))
    elif wrong == "answer" and answers:
        answers[some][1] = integer(d.pick([-1, 0, top, top + 1, 1 << 63]))
    elif wrong == "odd item" and answers:
        answers[some][0] = d.pick(ODD)
    elif wrong == "odd answer" and answers:
        answers[some][1] = d.pick(ODD)
    elif wrong == "max":
        limit = d.pick(ODD)
    elif wrong == "max range":
        limit = integer(d.pick([0, 1, 100, 101, -1, top - 1]))
    elif wrong == "flipped":
        flipped = d.pick(ODD)
    elif wrong == "reverse":
        reverse.append(d.pick(ODD))
    elif wrong == "unanswered":
        reverse.append(integer(d.pick([0, 1, 200, 201, d.between(1, 200), -1])))
    elif wrong == "set":
        kinds[1] = d.pick([FROZENSET, LIST, TUPLE])
    elif wrong == "answers":
        kinds[0] = d.pick([LIST, TUPLE])
    elif wrong == "name":
        names[d.below(4)] = (BYTES, d.pick([b"", b"answer", b"answers ", b"max", b"reverse"]))
    elif wrong == "string":
        at = d.below(4)
        names[at] = (STRING, names[at][1])
    more = [(d.pick(ODD + [(BYTES, b"comment"), (STRING, b"max")]), d.pick(ODD)) for _ in range(d.pick([0, 0, 1, 4]))]
    made = sheet((kinds[0], dict_of(answers)[1]), (kinds[1], set_of(reverse)[1]), limit, flipped, names, more)
    if wrong == "root":
        return d.pick(ODD + [(LIST, [made]), (TUPLE, [made, made]), (SET, [])])
    return made

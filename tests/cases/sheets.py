"""Questionnaire sheets as the tablets write them: one, or several that share records through the memo."""

from python2 import Long, Pickler, Set

COMMENTS = [b"", b"none", b"better in the morning", b"it's worse", b'says "ok"', b"line\nbreak\ttab",
            b"caf\xc3\xa9", b"back\\slash \\x09", b"\x00\xff", "unicode", "caf\xe9 \u20ac",
            "\u65e5\u672c \U0001f600", "a\\b\nc"]
OTHERS = [b"comment", b"tablet", b"visit", b"version", b"patient", b"weight", b"history", b"extra"]

# The sample of samples/: two sheets that share the record which says that their reverse-scored item has been flipped.
RECORD = {b"flipped": True, b"reverse": Set([2])}
SAMPLE = [{b"answers": {1: 3, 2: 0}, b"max": 4, b"record": RECORD},
          {b"answers": {1: 2, 2: 1}, b"max": 4, b"record": RECORD}]


# Two sheets that share one record, their answers and reversed items, through the memo: one was flipped before, the other was not. The one
# that is scored holds the other, where the record stands first, and has it at a later place itself.
ANSWERS, REVERSED = {1: 3, 2: 0}, Set([2])


def scored(flipped):
    """The sheet with this mark."""
    both = {mark: {b"answers": ANSWERS, b"flipped": mark, b"max": 4, b"reverse": REVERSED} for mark in (False, True)}
    return {b"before": both[not flipped], **both[flipped]}


def answers(d, items, top):
    """Item numbers to answers, now and then out of range or of another kind."""
    table = {}
    for number in items:
        answer = d.between(0, top)
        if d.chance(0.002):
            answer = d.pick([top + 1, -1, None, True, 1.5, Long(3), b"3"])
        table[number] = answer
    return table


def other(d):
    x = d.random()
    if x < 0.5:
        return d.pick(COMMENTS)
    if x < 0.6:
        return d.pick(COMMENTS[1:8]) * d.between(1, 40)
    if x < 0.7:
        return d.pick([0.5, 72.5, -0.0, 1e22, 3.0])
    if x < 0.8:
        return d.pick([Long(5), Long(2 ** 40), 2 ** 33, -1, 70000, None, True])
    if x < 0.9:
        return (d.between(2000, 2026), d.between(1, 12), d.between(1, 28))
    return [d.between(0, 10) for _ in range(d.below(30))]


def sheet(d, most):
    """One sheet of up to this many items."""
    count = d.between(most // 3 + 1, most)
    first = d.between(1, 201 - count) if count <= 200 else 1
    items = list(range(first, first + count))
    if d.chance(0.3):
        items = d.shuffled(items)
    top = d.pick([1, 3, 4, 5, 10, 10, 100])
    record = answers(d, items, top)
    reverse = Set([n for n in items if d.chance(0.3)])
    if d.chance(0.05):
        reverse = d.pick([Set([], b"frozenset"), [1, 2], Set([201]), Set(items, b"frozenset"),
                          Set(items + items)])
    fields = [(b"answers", record), (b"reverse", reverse), (b"max", top), (b"flipped", d.chance(0.5))]
    if d.chance(0.7):
        fields += [(d.pick(OTHERS), other(d)) for _ in range(d.below(5))]
    if d.chance(0.03):
        fields.pop(d.below(4))
    return dict(d.shuffled(fields) if d.chance(0.5) else fields)


def several(d, count, most):
    """Sheets that share parts: the record of flipping, the reversed items, the answers, or a whole sheet."""
    sheets = [sheet(d, most) for _ in range(count)]
    first = sheets[0]
    shared = {b"flipped": first.get(b"flipped"), b"reverse": first.get(b"reverse"), b"by": d.pick(COMMENTS)}
    how = d.below(5)
    for one in sheets[1:]:
        if how == 0:
            one[b"reverse"] = first.get(b"reverse")
        elif how == 1:
            one[b"answers"] = first.get(b"answers")
            one[b"max"] = first.get(b"max")
    if how >= 2:
        for one in sheets:
            one[b"record"] = shared
    if how == 3:
        sheets.append(d.pick(sheets))
    if how == 4:
        shared[b"sheets"] = tuple(sheets[1:3]) if d.chance(0.3) else []
        for one in sheets[:2]:
            one[b"previous"] = shared[b"sheets"]
    x = d.random()
    if x < 0.6:
        return sheets
    if x < 0.8:
        return {b"record": shared, b"sheets": sheets}
    return tuple(sheets)


def sheet_case(d, n):
    """Some 130 bytes (the smallest) to 33 KB, at the three protocols, numbered as in pickle or cPickle."""
    x = d.random()
    if x < 0.1:
        value = {b"answers": {1: d.below(5)}, b"reverse": Set([1]), b"max": 4, b"flipped": d.chance(0.5)}
    elif x < 0.5:
        value = sheet(d, d.pick([20, 60, 200]))
        if d.chance(0.3):
            value[b"drawing"] = d.pick([b"x", b"\x89\n", b"strip "]) * d.between(500, 5000)
    else:
        value = several(d, d.between(2, 7), d.pick([8, 20, 60, 120]))
    return Pickler(d.below(3), d.below(2)).dumps(value)

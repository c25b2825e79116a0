"""Lists and dicts of 999, 1,000 and 1,001 items in one or several batches, and tuples of 0 to 4."""

SIZES = [999, 1000, 1001]
FEW = [0, 1, 2, 3, 4]


def small_int(i):
    return b"K%c" % i if i < 256 else b"M" + i.to_bytes(2, "little")


def cuts(size, batch):
    return [(at, min(at + batch, size)) for at in range(0, size, batch)]


def list_of(size, batch, item):
    """Batches by APPENDS; a batch of one by APPEND, as Python writes it."""
    text = b"]"
    for low, high in cuts(size, batch):
        items = b"".join(item(i) for i in range(low, high))
        text += items + b"a" if high - low == 1 else b"(" + items + b"e"
    return text


def dict_of(size, batch, key, value):
    text = b"}"
    for low, high in cuts(size, batch):
        items = b"".join(key(i) + value(i) for i in range(low, high))
        text += items + b"s" if high - low == 1 else b"(" + items + b"u"
    return text


def tuple_of(size):
    return [b")", b"N\x85", b"NN\x86", b"NNN\x87"][size] if size < 4 else b"(" + b"N" * size + b"t"


def none(i):
    return b"N"


def descending(i):
    return small_int(2000 - i)


def text_key(i):
    return b"U\x04%04d" % i


def all_batches():
    """The fixed list, as functions without argument."""
    makers = []
    for size in SIZES:
        for batch in (1000, 100, 1, 2000, 999):
            for item in (none, small_int, descending):
                makers.append(lambda size=size, batch=batch, item=item: list_of(size, batch, item))
            for key in (small_int, descending, text_key, none):
                makers.append(lambda size=size, batch=batch, key=key: dict_of(size, batch, key, none))
    for size in FEW:
        makers.append(lambda size=size: tuple_of(size))
        makers.append(lambda size=size: b"(" + b"N" * size + b"t")
        makers.append(lambda size=size: b"(" + b"N" * size + b"l")
        makers.append(lambda size=size: list_of(size, 1000, small_int))
        makers.append(lambda size=size: dict_of(size, 1000, small_int, none))
        makers.append(lambda size=size: b"c__builtin__\nset\n" + list_of(size, 1000, descending) + b"\x85R")
        makers.append(lambda size=size: b"cm\nC\n" + tuple_of(size) + b"R")
    for size in SIZES:
        makers.append(lambda size=size: b"c__builtin__\nset\n" + list_of(size, 1000, descending) + b"\x85R")
        makers.append(lambda size=size: b"c__builtin__\nfrozenset\n(" + b"".join(map(small_int, range(size)))
                      + b"t\x85R")
    return makers


MAKERS = all_batches()


def batch_case(d, n):
    """The fixed list in order, then random sizes and batches."""
    if n < len(MAKERS):
        return b"\x80\x02" + MAKERS[n]() + b"."
    size = d.pick(SIZES) if d.chance(0.5) else d.small(1100)
    batch = d.pick([1, 2, 3, 10, 255, 500, 999, 1000, 1001])
    if d.chance(0.5):
        return list_of(size, batch, d.pick([none, small_int, descending])) + b"."
    key, value = d.pick([small_int, descending, text_key, none]), d.pick([none, small_int])
    return dict_of(size, batch, key, value) + b"."

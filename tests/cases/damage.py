"""Damage to a case: truncated, a byte changed, added or removed, pieces swapped, two joined."""

from opcodes import ALL, starts


def cut_places(d, data):
    """Two places, ascending, at opcodes' borders or anywhere."""
    if d.chance(0.6):
        places = starts(data) + [len(data)]
        a, b = d.pick(places), d.pick(places)
    else:
        a, b = d.below(len(data) + 1), d.below(len(data) + 1)
    return min(a, b), max(a, b)


def truncated(d, data):
    return data[:d.below(len(data))]


def changed(d, data):
    i = d.below(len(data))
    byte = d.pick(ALL) if d.chance(0.5) else d.below(256)
    if d.chance(0.2):
        byte = data[i] ^ 1 << d.below(8)
    return data[:i] + bytes([byte]) + data[i + 1:]


def inserted(d, data):
    i = cut_places(d, data)[0]
    extra = bytes([d.pick(ALL)]) if d.chance(0.7) else d.bytes(1 + d.small(3))
    return data[:i] + extra + data[i:]


def removed(d, data):
    a, b = cut_places(d, data)
    return data[:a] + data[min(b, a + 1 + d.small(8)):]


def swapped(d, data):
    a, b = cut_places(d, data)
    c = d.between(b, len(data))
    return data[:a] + data[b:c] + data[a:b] + data[c:]


def repeated(d, data):
    a, b = cut_places(d, data)
    return data[:b] + data[a:]


def joined(d, data, other):
    """Two cases, the first one with or without its STOP."""
    return (data[:-1] if d.chance(0.7) else data) + other


def damaged(d, data, other):
    """One to three damages to data; other is a second case, to join."""
    for _ in range(1 + d.small(2)):
        if not data:
            return other
        k = d.below(8)
        if k == 7:
            data = joined(d, data, other)
        else:
            data = [truncated, changed, changed, inserted, removed, swapped, repeated][k](d, data)
    return data

"""What CPython 3's own pickle writes, at protocols 0 to 2, of random plain values and of a few classes.

Larger sets come through a class that gives set a list, as the order of a real set is not ours to fix.
"""

import pickle

from literals import ENDS


CHARACTERS = ["a", "b", "\xe9", "\u20ac", "\U0001f600", "\\", "\n", "\r", "'", " ", "\x00", "\ufffd"]


class Plain:
    """State in __dict__."""


class Slotted:
    """State in slots, as a pair of None and a dict."""

    __slots__ = ("left", "right")


class Called:
    """Pickled as a call with arguments."""

    def __init__(self, *arguments):
        self.arguments = arguments

    def __reduce__(self):
        return Called, self.arguments


class Kept:
    """As Called, with a state beside the arguments."""

    def __init__(self, *arguments):
        self.arguments = arguments

    def __reduce__(self):
        return Kept, (1, 2), {"arguments": self.arguments}


class GivenSet:
    """A set, by the list it is made from."""

    def __init__(self, kind, items):
        self.parts = (kind, (items,))

    def __reduce__(self):
        return self.parts


class Numbers(list):
    """A list with a class of its own."""


def leaf(d):
    k = d.below(12)
    if k < 3:
        return d.between(-3, 300)
    if k == 3:
        return d.pick(ENDS)
    if k == 4:
        return int.from_bytes(d.bytes(d.between(1, 9)), "little") - d.pick([0, 2 ** 31])
    if k == 5:
        return d.pick([0.0, -0.0, 1.5, 0.1, 1e22, 1e23, 1e300, -2.5e-7, float("inf"), float("nan")])
    if k == 6:
        return d.pick([None, True, False])
    if k < 9:
        return "".join(d.pick(CHARACTERS) for _ in range(d.small(9)))
    if k == 9:
        return b"".join(d.pick([b"a", b"\xff", b"\x00", b"\n", b"'"]) for _ in range(d.small(6)))
    if k == 10:
        return d.pick([Plain, Slotted, Called, set, frozenset, list, len, ValueError])
    return d.pick([(), [], {}, set(), GivenSet(frozenset, []), frozenset([5]), {7}, bytearray(b"ab")])


def filled(value, **fields):
    for name in fields:
        setattr(value, name, fields[name])
    return value


def key(d):
    x = d.random()
    if x < 0.3:
        return d.between(0, 9)
    if x < 0.6:
        return d.pick(["a", "b", "caf\xe9", ""])
    return d.pick([None, True, 1.0, b"k", (1, 2), (), frozenset([3]), -1, 2 ** 40, Plain, ((1,), "x")])


def value(d, depth, seen):
    """A random value; seen holds earlier ones, to be shared or put into themselves."""
    if depth == 0 or d.chance(0.3):
        return leaf(d)
    if seen and d.chance(0.2):
        return d.pick(seen)
    made = container(d, depth - 1, seen)
    seen.append(made)
    # Not Numbers: one that contains itself would be pickled without end.
    if type(made) is list and d.chance(0.05):
        made.append(d.pick(seen))
    return made


def container(d, depth, seen):
    k = d.below(11)
    parts = [value(d, depth, seen) for _ in range(d.below(4))]
    if k < 3:
        return parts
    if k < 5:
        return tuple(parts)
    if k < 7:
        return {key(d): part for part in parts}
    if k == 7:
        return GivenSet(d.pick([set, frozenset]), [leaf_key(d) for _ in range(d.below(5))])
    if k == 8:
        return d.pick([filled(Plain(), a=parts, b=1), filled(Slotted(), left=parts), Plain()])
    if k == 9:
        return d.pick([Called, Kept])(*parts)
    return Numbers(parts)


def leaf_key(d):
    return d.pick([d.between(0, 9), d.between(0, 9), "a", 1.5, None, (1, 2), b"x"])


def python_case(d, n):
    made = value(d, d.between(1, 4), [])
    try:
        return pickle.dumps(made, d.below(3))
    except TypeError:
        # Slots without a state method can only be pickled at protocol 2.
        return pickle.dumps(made, 2)

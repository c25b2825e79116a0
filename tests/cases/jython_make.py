"""Writes jython.txt: what Jython 2.7's pickle and cPickle write of some values, at protocols 0, 1 and 2.

Made once, with Debian's package jython (2.7.3), by

    jython jython_make.py > jython.txt

so that Jython isn't needed to run the cases. This file is Python 2.
"""

import binascii
import cPickle
import imp
import pickle
import sys


class New(object):
    """A new-style class with state."""

    def __init__(self, **fields):
        self.__dict__.update(fields)


class Old:
    """An old-style class, pickled with INST or OBJ, which the Rust refuses."""

    def __init__(self, **fields):
        self.__dict__.update(fields)


class Slotted(object):
    __slots__ = ("left", "right")


class Called(object):
    def __init__(self, *arguments):
        self.arguments = arguments

    def __reduce__(self):
        return Called, self.arguments, {"late": [self.arguments]}


# A name that the pickles can carry wherever they are made.
for made in (New, Old, Slotted, Called):
    made.__module__ = "clinic"
module = imp.new_module("clinic")
module.New, module.Old, module.Slotted, module.Called = New, Old, Slotted, Called
sys.modules["clinic"] = module


def sheet(count, flipped, reverse, record=None):
    answers = dict((i, i % 5) for i in range(1, count + 1))
    made = {"answers": answers, "reverse": reverse, "max": 4, "flipped": flipped}
    if record is not None:
        made["record"] = record
    return made


def shared_sheets(count):
    """Several sheets with one record of flipping."""
    record = {"flipped": True, "reverse": set([1, 3])}
    return [sheet(6, True, record["reverse"], record) for _ in range(count)]


def own_list():
    made = [1]
    made.append(made)
    return made


def pair_of_lists():
    left, right = [], []
    left.append(right)
    right.append(left)
    return (left, right)


def own_tuple():
    inner = []
    made = (inner,)
    inner.append(made)
    return made


def own_object():
    made = New(a=1)
    made.me = made
    return made


def own_dict():
    made = {}
    made["me"] = made
    return made


def shared_list():
    made = [1, 2]
    return [made, made, (made, {"a": made})]


def slotted():
    made = Slotted()
    made.left = 1
    return made


def long_values():
    ends = [0, 1, -1, 255, 256, -128, -129, 2 ** 31 - 1, 2 ** 31, -2 ** 31, 2 ** 63 - 1, -2 ** 63]
    return [long(n) for n in ends]


def values():
    """(name, value) in a fixed order."""
    return [
        ("none", None), ("true", True), ("false", False), ("bools", [True, False, 1, 0]),
        ("int0", 0), ("int255", 255), ("int256", 256), ("int65536", 65536), ("int-1", -1), ("intmax",
        2 ** 31 - 1), ("intmin", -2 ** 31), ("big", 2 ** 31), ("longs", long_values()), ("long0", 0L),
        ("long300", 300L), ("toolong", 2 ** 63), ("huge", 10 ** 30),
        ("float", 1.5), ("tenth", 0.1), ("minuszero", -0.0), ("large", 1e300), ("inf", float("inf")),
        ("nan", float("nan")), ("floats", [0.5, 100.0, 1e22, -2.25]),
        ("str", "abc"), ("empty", ""), ("escapes", "a\n\t\r\\'\"\x00\x7f\xff"), ("quote", "it's"), ("both",
        "'\""), ("longstr", "x" * 300),
        ("unicode", u"abc"), ("uempty", u""), ("latin", u"caf\xe9"), ("euro", u"\u20ac"), ("face",
        u"\U0001f600"), ("uback", u"a\\b\nc\r"), ("uesc", u"\\u0041"),
        ("list", [1, 2, 3]), ("lists", [[], [[]], [[], []]]), ("shared", shared_list()), ("ownlist",
        own_list()), ("pair", pair_of_lists()), ("tuple0", ()), ("tuple1", (1,)), ("tuple2", (1, 2)),
        ("tuple3", (1, 2, 3)), ("tuple4", (1, 2, 3, 4)), ("owntuple", own_tuple()), ("dict", {"a": 1}),
        ("dict0", {}), ("owndict", own_dict()), ("keys", {(1, 2): u"x", None: 1.5}),
        ("set", set([1, 2, 3])), ("set0", set()), ("frozen", frozenset([5])), ("frozen0", frozenset()),
        ("setofsets", set([frozenset([1]), frozenset()])), ("strset", set(["a", u"b"])),
        ("class", New), ("oldclass", Old), ("type", dict), ("function", len), ("settype", set),
        ("new", New(a=1, b=[2])), ("newempty", New()), ("old", Old(a=1)), ("ownobject", own_object()),
        ("twice", [New(a=1)] * 2), ("slotted", slotted()), ("called", Called(1, "two")), ("called0",
        Called()), ("complex", 1 + 2j), ("error", ValueError("bad", 3)),
        ("sheet", sheet(3, True, set([1]))), ("sheet10", sheet(10, False, set([2, 4]))),
        ("sheets", shared_sheets(3)), ("same", [sheet(2, True, set([1]))] * 3),
        ("comment", {"comment": u"caf\xe9 \u20ac", "text": "it's \\x09"}),
        ("list999", [None] * 999), ("list1000", [None] * 1000), ("list1001", [None] * 1001),
        ("dict1001", dict((i, None) for i in range(1001))),
    ]


def main():
    written = set()
    for module_name, writer in (("pickle", pickle), ("cPickle", cPickle)):
        for protocol in (0, 1, 2):
            for name, value in values():
                try:
                    data = writer.dumps(value, protocol)
                except Exception as error:
                    sys.stderr.write("%s %d %s: %s\n" % (module_name, protocol, name, error))
                    continue
                # Once is enough for what both write alike.
                if data not in written:
                    written.add(data)
                    print "%s.%d.%s\t%s" % (module_name, protocol, name, binascii.hexlify(data))


main()

"""What the tests share: the repository's stored pickles and its own way to make tables, and the way back from Python's values."""

import os
import re
import struct
import sys

HERE = os.path.dirname(os.path.abspath(__file__))
ROOT = os.path.join(HERE, "..", "..", "..")
sys.path[:0] = [os.path.join(HERE, ".."), os.path.join(ROOT, "tests", "cases")]

import kinds  # noqa: E402
import qelemvir  # noqa: E402
import scores  # noqa: E402
import stored  # noqa: E402
import tables  # noqa: E402
from draw import Draw  # noqa: E402


def table(described):
    """The library's table of a value as tables.py describes it."""
    return qelemvir.Table(*tables.table(described))


def described(value):
    """A Python value as tables.py describes it. By its exact type: True is no int here. The items of a set are put in the library's
    order; the entries of a dict must stand in it."""
    kind = type(value)
    if value is None:
        return tables.NONE, None
    if kind is bool:
        return tables.BOOL, int(value)
    if kind is int:
        return tables.INT, value % (1 << 64)
    if kind is float:
        return tables.FLOAT, struct.unpack("<Q", struct.pack("<d", value))[0]
    if kind is bytes:
        return tables.BYTES, value
    if kind is str:
        return tables.STRING, value.encode("utf-8")
    if kind is list:
        return tables.LIST, [described(item) for item in value]
    if kind is tuple:
        return tables.TUPLE, [described(item) for item in value]
    if kind in (set, frozenset):
        return tables.SET if kind is set else tables.FROZENSET, sorted(map(described, value), key=table)
    if kind is dict:
        return tables.DICT, [described(part) for entry in value.items() for part in entry]
    names = value.module.encode("utf-8"), value.name.encode("utf-8")
    if kind is qelemvir.Global:
        return tables.GLOBAL, names
    if kind is qelemvir.Object:
        held = [described(value.args)] + ([described(value.state)] if value.has_state else [])
        return tables.OBJECT, names + (int(value.new), held)
    raise TypeError(kind)


def stored_values():
    """(pickle, table due, bytes that the prefix reading takes) of the stored pickles that are read."""
    for _, pickle, due, _ in stored.read():
        if due.startswith("value "):
            yield pickle, tables.of_answer(due), int(due.split(" ")[1])


def stored_refusals():
    """(pickle, number, detail) of the stored pickles that are refused."""
    for _, pickle, due, _ in stored.read():
        if due.startswith("refused "):
            yield pickle, int(due.split(" ")[1]), int(due.split(" ")[2])


def numbered_refusals():
    """Number to name, from the arms of `number_of` in the source of crate refusal."""
    with open(os.path.join(ROOT, "crates", "refusal", "src", "lib.rt"), encoding="utf-8") as file:
        body = re.search(r"^fn number_of\(.*?\n\}", file.read(), re.DOTALL | re.MULTILINE).group(0)
    return {int(number): name for name, number in re.findall(r"Refusal::(\w+)(?:\(\w+\))? => \((\d+), ", body)}

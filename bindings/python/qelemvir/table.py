"""A value as the library has it: a table of records of four words, and the text of all of them."""

import ctypes
import struct
from array import array
from typing import Any, NamedTuple

from . import library
from .refused import Refused
from .values import build

KINDS = ["none", "bool", "int", "float", "bytes", "string", "list", "tuple", "set", "frozenset", "dict", "global", "object"]
OUTPUT_FULL = 22


class Record(NamedTuple):
    """One record of a table. `depth` is 0 for the root; `kind` is a name of KINDS. `content`: the value itself for none, bool, int,
    float, bytes and string; how many items or entries follow for list, tuple, set, frozenset and dict; (module, name) for global,
    and (module, name, new, has_state) for object, whose arguments follow as a tuple and then its state if it has one."""

    depth: int
    kind: str
    content: Any


class Table:
    """A well-formed table: what was read, or words and text of the caller's making, Refused with BadTable if they break a rule.
    Tables are ordered as the library compares them, a total order, and are equal exactly when words and text are the same."""

    __slots__ = ("_words", "_text")

    def __init__(self, words, text):
        words = array("Q", words)
        self._words = (ctypes.c_uint64 * len(words)).from_buffer_copy(words)
        self._text = bytes(memoryview(text))
        try:
            self._written(library.list_table, 0)
        except Refused as why:
            # An output of no bytes is too short for every listing, and is found so after the table was found good.
            if why.number != OUTPUT_FULL:
                raise

    @property
    def words(self):
        return tuple(self._words)

    @property
    def text(self):
        return self._text

    @property
    def count(self):
        """How many records the words make. A last one that is cut off counts, so that the library refuses it."""
        return (len(self._words) + 3) // 4

    def _lent(self):
        return self._words, len(self._words), self.count, self._text, len(self._text)

    def _written(self, call, longest):
        output = (ctypes.c_uint8 * longest)()
        answer = library.accepted(call(*self._lent(), output, longest))
        return ctypes.string_at(output, answer.length)

    def to_bytes(self):
        """The value as a pickle of protocol 2. Refused with UnwritableName where a module or a name in it would not come back."""
        return self._written(library.to_bytes, library.LONGEST_PICKLE)

    def list(self):
        """The listing, a line a record: of texts and names a backslash as two, a byte outside 20 to 7E hex as `\\x` and two
        digits. Two tables with the same listing are the same value."""
        return self._written(library.list_table, library.LONGEST_LISTING).decode("ascii")

    def score(self):
        """The score of the sheet that the value is, and how many items were answered. Refused with SheetShape if it is none."""
        scored = library.accepted(library.score(*self._lent()))
        return scored.score, scored.items

    def records(self):
        """The records in the table's order, which is preorder."""
        words, ends = self.words, []
        for number in range(self.count):
            while ends and ends[-1] == number:
                ends.pop()
            record, size = self._record(len(ends), *words[4 * number:4 * number + 4])
            yield record
            if size > 1:
                ends.append(number + size)

    def _record(self, depth, head, a, b, c):
        """The record of these words, and how many records it takes with all that it holds."""
        kind = KINDS[head % 16]
        if kind == "none":
            return Record(depth, kind, None), 1
        if kind == "bool":
            return Record(depth, kind, a == 1), 1
        if kind == "int":
            return Record(depth, kind, a - (a >> 63 << 64)), 1
        if kind == "float":
            return Record(depth, kind, struct.unpack("<d", struct.pack("<Q", a))[0]), 1
        if kind == "bytes":
            return Record(depth, kind, self._text[a:a + b]), 1
        if kind == "string":
            return Record(depth, kind, self._text[a:a + b].decode("utf-8")), 1
        if kind == "global":
            return Record(depth, kind, self._names(a, b)), 1
        if kind == "object":
            return Record(depth, kind, self._names(a, b) + (head & 16 != 0, head & 32 != 0)), c
        return Record(depth, kind, a), b

    def _names(self, place, lengths):
        middle = place + (lengths >> 32)
        end = middle + (lengths & 0xFFFFFFFF)
        return self._text[place:middle].decode("utf-8"), self._text[middle:end].decode("utf-8")

    def value(self):
        """The value as Python's own. Unholdable where Python cannot hold it without loss."""
        return build(self.records())

    def _sign(self, other):
        return library.accepted(library.compare(*self._lent(), *other._lent())).sign

    def __eq__(self, other):
        return self._sign(other) == 0 if isinstance(other, Table) else NotImplemented

    def __lt__(self, other):
        return self._sign(other) < 0 if isinstance(other, Table) else NotImplemented

    def __le__(self, other):
        return self._sign(other) <= 0 if isinstance(other, Table) else NotImplemented

    def __gt__(self, other):
        return self._sign(other) > 0 if isinstance(other, Table) else NotImplemented

    def __ge__(self, other):
        return self._sign(other) >= 0 if isinstance(other, Table) else NotImplemented

    def __hash__(self):
        return hash((bytes(self._words), self._text))

    def __repr__(self):
        return "<Table of %d records and %d bytes of text>" % (self.count, len(self._text))


class Sheet(NamedTuple):
    """What was made of a sheet: 0, 0, its bytes and the records of its value; or the number and the detail of its refusal, 0 and 0."""

    number: int
    detail: int
    length: int
    count: int

    @property
    def refused(self):
        """Why it is refused, or None."""
        return Refused(self.number, self.detail) if self.number else None


def read_many(sheets, plain=False):
    """A night's sheets, each the bytes of one, read as `read` reads it by itself: what was made of each, and the table of the last one that
    was read, or None."""
    if plain:
        return one_by_one(sheets)
    fours, last = library.batch(sheets)
    return [Sheet(*four) for four in fours], Table(*last) if last else None


def one_by_one(sheets):
    """`read_many` of plain data only, for which the library has no batch."""
    made, last = [], None
    for data in sheets:
        try:
            words, text, length = library.reading(library.plain_from_bytes, data)
        except Refused as why:
            made.append(Sheet(why.number, why.detail, 0, 0))
        else:
            last = Table(words, text)
            made.append(Sheet(0, 0, length, last.count))
    return made, last


def read(data, plain=False):
    """The table of the value that the bytes are, with none left over. `plain`: of plain data only, else OutsideProfile."""
    words, text, _ = library.reading(library.plain_from_bytes if plain else library.from_bytes, data)
    return Table(words, text)


def read_prefix(data, plain=False):
    """The table of the value at the start of the bytes, and how many of them it took. `plain` as for read."""
    words, text, length = library.reading(library.plain_from_bytes_prefix if plain else library.from_bytes_prefix, data)
    return Table(words, text), length

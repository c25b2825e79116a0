"""A small pickler that writes as Python 2's pickle and cPickle do, at protocols 0, 1 and 2.

Text here is Python 3's: bytes stand for Python 2's str, str for unicode, Long for long, Set for set.
"""

import struct

from opcodes import u32


class Long(int):
    """A number that Python 2 would hold as a long."""


class Set:
    """A set with the order of its items given, since Python 2's order is its own."""

    def __init__(self, items, name=b"set"):
        self.items = list(items)
        self.name = name


def quoted(text):
    """repr of a Python 2 str."""
    quote = b'"' if b"'" in text and b'"' not in text else b"'"
    out = [quote]
    for byte in text:
        char = bytes([byte])
        if char == quote or char == b"\\":
            out.append(b"\\" + char)
        elif char in b"\t\n\r":
            out.append({b"\t": b"\\t", b"\n": b"\\n", b"\r": b"\\r"}[char])
        elif byte < 0x20 or byte >= 0x7F:
            out.append(b"\\x%02x" % byte)
        else:
            out.append(char)
    return b"".join(out) + quote


def raw_unicode(text):
    """raw-unicode-escape as pickle.py writes it: backslash and newline escaped first."""
    out = []
    for char in text:
        code = ord(char)
        if char in "\\\n":
            out.append(b"\\u%04x" % code)
        elif code < 256:
            out.append(bytes([code]))
        elif code < 0x10000:
            out.append(b"\\u%04x" % code)
        else:
            out.append(b"\\U%08x" % code)
    return b"".join(out)


class Pickler:
    """One pickle. Memo numbers start at 0 as in pickle.py, or at 1 as in cPickle."""

    def __init__(self, protocol, first=0):
        self.protocol = protocol
        self.first = first
        self.memo = {}      # id to number
        self.kept = []      # so that no id is used again
        self.out = []

    def dumps(self, value):
        if self.protocol == 2:
            self.out.append(b"\x80\x02")
        self.save(value)
        return b"".join(self.out) + b"."

    def put(self, value):
        n = len(self.memo) + self.first
        self.memo[id(value)] = n
        self.kept.append(value)
        if self.protocol == 0:
            self.out.append(b"p%d\n" % n)
        else:
            self.out.append(b"q%c" % n if n < 256 else b"r" + u32(n))

    def get(self, n):
        if self.protocol == 0:
            self.out.append(b"g%d\n" % n)
        else:
            self.out.append(b"h%c" % n if n < 256 else b"j" + u32(n))

    def save(self, value):
        if id(value) in self.memo:
            return self.get(self.memo[id(value)])
        if value is None:
            self.out.append(b"N")
        elif isinstance(value, bool):
            self.save_bool(value)
        elif isinstance(value, Long):
            self.save_long(value)
        elif isinstance(value, int):
            self.save_int(value)
        elif isinstance(value, float):
            self.out.append(b"F" + repr(value).encode() + b"\n" if self.protocol == 0
                            else b"G" + struct.pack(">d", value))
        elif isinstance(value, bytes):
            self.save_bytes(value)
        elif isinstance(value, str):
            self.save_text(value)
        else:
            self.save_container(value)

    def save_bool(self, value):
        if self.protocol == 2:
            self.out.append(b"\x88" if value else b"\x89")
        else:
            self.out.append(b"I01\n" if value else b"I00\n")

    def save_int(self, value):
        if self.protocol > 0 and 0 <= value < 256:
            self.out.append(b"K%c" % value)
        elif self.protocol > 0 and 0 <= value < 65536:
            self.out.append(b"M" + value.to_bytes(2, "little"))
        elif self.protocol > 0 and -2 ** 31 <= value < 2 ** 31:
            self.out.append(b"J" + value.to_bytes(4, "little", signed=True))
        else:
            self.out.append(b"I%d\n" % value)

    def save_long(self, value):
        if self.protocol < 2:
            self.out.append(b"L%dL\n" % value)
            return
        size = 0 if value == 0 else (value if value >= 0 else ~value).bit_length() // 8 + 1
        self.out.append(b"\x8a%c" % size + int(value).to_bytes(size, "little", signed=True))

    def save_bytes(self, value):
        if self.protocol == 0:
            self.out.append(b"S" + quoted(value) + b"\n")
        else:
            self.out.append((b"U%c" % len(value) if len(value) < 256 else b"T" + u32(len(value))) + value)
        self.put(value)

    def save_text(self, value):
        if self.protocol == 0:
            self.out.append(b"V" + raw_unicode(value) + b"\n")
        else:
            data = value.encode("utf-8")
            self.out.append(b"X" + u32(len(data)) + data)
        self.put(value)

    def save_container(self, value):
        if isinstance(value, list):
            self.out.append(b"]" if self.protocol else b"(l")
            self.put(value)
            self.batches([[item] for item in value], b"a", b"e")
        elif isinstance(value, dict):
            self.out.append(b"}" if self.protocol else b"(d")
            self.put(value)
            self.batches(list(value.items()), b"s", b"u")
        elif isinstance(value, tuple):
            self.save_tuple(value)
        else:
            self.save_set(value)

    def batches(self, groups, one, many):
        """Items, or keys with values: one by one at protocol 0, else in batches of 1,000."""
        size = 1000 if self.protocol else 1
        for at in range(0, len(groups), size):
            part = groups[at:at + size]
            if len(part) > 1:
                self.out.append(b"(")
            for group in part:
                for item in group:
                    self.save(item)
            self.out.append(many if len(part) > 1 else one)

    def save_tuple(self, value):
        if not value:
            self.out.append(b")" if self.protocol else b"(t")
            return
        few = self.protocol == 2 and len(value) <= 3
        if not few:
            self.out.append(b"(")
        for item in value:
            self.save(item)
        self.out.append(b"\x85\x86\x87"[len(value) - 1:len(value)] if few else b"t")
        self.put(value)

    def save_set(self, value):
        """A call of set with a list, the class itself put in the memo too."""
        if value.name in self.memo:
            self.get(self.memo[value.name])
        else:
            self.out.append(b"c__builtin__\n" + value.name + b"\n")
            self.put(value.name)
            self.memo[value.name] = self.memo.pop(id(value.name))
        self.save((value.items,))
        self.out.append(b"R")
        self.put(value)

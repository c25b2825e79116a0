"""One literal and STOP, for the leaves of the reader by themselves. What follows the literal is STOP or nothing."""

from literals import (FLOATS, decimal, long_bytes, name_line, number, padding, string_line, unicode_line, whole)
from opcodes import u32
from shorts import STRINGS, string

ENDINGS = [b"\n", b"\n", b"\n", b"\r\n", b"\r\r\n", b"", b"\r"]
# Every line of up to two bytes after these, every text of up to two bytes after BINUNICODE, then three-byte texts over the
# bytes at which Table 3-7 changes.
SWEPT = [b"I", b"L", b"F", b"S", b"V", b"p", b"g", b"c"]
CORNERS = [0x00, 0x41, 0x7F, 0x80, 0x8F, 0x90, 0x9F, 0xA0, 0xBF, 0xC0, 0xC1, 0xC2, 0xDF, 0xE0, 0xE1, 0xEC, 0xED, 0xEE, 0xEF,
           0xF0, 0xF1, 0xF3, 0xF4, 0xF5, 0xFF]
THREES = len(CORNERS) ** 3
SWEEP = STRINGS * (len(SWEPT) + 1) + THREES


def swept(n):
    """The n-th case of the sweep. A line with a newline in it ends there, and is left out as an empty pickle."""
    group, body = divmod(n, STRINGS)
    if n >= STRINGS * (len(SWEPT) + 1):
        k = n - STRINGS * (len(SWEPT) + 1)
        body = bytes([CORNERS[k // 625], CORNERS[k // 25 % 25], CORNERS[k % 25]])
        return b"X" + u32(3) + body + b"."
    body = string(body)
    if group == len(SWEPT):
        return b"X" + u32(len(body)) + body + b"."
    if b"\n" in body:
        return b""
    return SWEPT[group] + body + (b"\nn" if SWEPT[group] == b"c" else b"") + b"\n."


def lined(d, code, text):
    return code + text + d.pick(ENDINGS)


def sized(d):
    body = d.bytes(d.small(12))
    more = d.pick([0, 0, 0, 0, 1, 255])
    return d.pick([b"U" + bytes([min(len(body) + more, 255)]), b"T" + u32(len(body) + more), b"X" + u32(len(body) + more),
                   b"T" + d.pick([b"\xff\xff\xff\xff", b"\0\0\0\x80"])]) + body


def leaf(d):
    k = d.below(14)
    if k == 0:
        return lined(d, b"I", padding(d) + whole(d) + padding(d))
    if k == 1:
        return lined(d, b"L", padding(d) + whole(d) + d.pick([b"L", b"L", b"", b" L", b"L "]) + padding(d))
    if k in (2, 3):
        return lined(d, b"F", padding(d) + decimal(d) + padding(d))
    if k in (4, 5):
        return lined(d, b"S", string_line(d))
    if k in (6, 7):
        return lined(d, b"V", unicode_line(d))
    if k == 8:
        text = d.pick([whole(d), str(number(d) & 0xFFFFFFFFF).encode(), b"+5", b"-0", b"4294967296"])
        return lined(d, d.pick([b"p", b"g"]), padding(d) + text + padding(d))
    if k in (9, 10):
        body = long_bytes(d)
        return d.pick([b"\x8a" + bytes([len(body)]), b"\x8b" + u32(len(body))]) + body
    if k == 11:
        bits = d.pick(FLOATS) if d.chance(0.7) else int.from_bytes(d.bytes(8), "big")
        return d.pick([b"J" + d.bytes(4), b"K" + d.bytes(1), b"M" + d.bytes(2), b"G" + bits.to_bytes(8, "big")])
    if k == 12:
        return sized(d)
    return b"c" + name_line(d) + d.pick([b"\n", b"\r\n"]) + name_line(d) + d.pick([b"\n", b"\r\n"])


def leaf_case(d, n):
    """Seed 0 is the sweep, in order; other seeds are random literals."""
    if d.seed == 0:
        return swept(n % SWEEP)
    return leaf(d) + b"."

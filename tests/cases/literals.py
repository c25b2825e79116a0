"""Literals with their corners: opcodes, numbers, texts, white space, CRs and missing newlines."""

import struct

from opcodes import u32
from points import LITERALS

SPACES = [chr(c).encode("utf-8") for c in
          [9, 0xB, 0xC, 0xD, 0x20, 0x85, 0xA0, 0x1680] + list(range(0x2000, 0x200B))
          + [0x2028, 0x2029, 0x202F, 0x205F, 0x3000]]
# Looks like white space and isn't, or isn't UTF-8.
NEAR_SPACES = [chr(c).encode("utf-8") for c in
               [0, 8, 0xE, 0x1C, 0x1D, 0x1E, 0x1F, 0x7F, 0x84, 0x86, 0x9F, 0xA1, 0x167F, 0x1681, 0x180E,
                0x1FFF, 0x200B, 0x200C, 0x200D, 0x2027, 0x202A, 0x202E, 0x2030, 0x205E, 0x2060, 0x2FFF,
                0x3001, 0xFEFF]
               ] + [b"\x85", b"\xa0", b"\xc2", b"\xe2\x80", b"\xe3\x80", b"\xff", b"\xc0\xa0",
                    b"\xe0\x82\xa0"]
I64_ENDS = [2 ** 63 - 1, 2 ** 63, 2 ** 63 + 1, -2 ** 63, -2 ** 63 - 1, -2 ** 63 + 1,
            2 ** 64, 2 ** 64 - 1, -2 ** 64]
ENDS = I64_ENDS + [0, 1, -1, 127, 128, -128, -129, 255, 256, 32767, 32768, 65535, 65536, 2 ** 31 - 1, 2 ** 31,
                   -2 ** 31, -2 ** 31 - 1, 2 ** 32 - 1, 2 ** 32, 2 ** 53, 2 ** 53 + 1]


def number(d):
    """A whole number: an end of a range, or random with a random width."""
    if d.chance(0.3):
        return d.pick(ENDS)
    n = int.from_bytes(d.bytes(1 + d.small(9)), "little")
    return -n if d.chance(0.4) else n


def padding(d):
    if d.chance(0.7):
        return b""
    pool = SPACES if d.chance(0.8) else NEAR_SPACES
    return b"".join(d.pick(pool) for _ in range(1 + d.small(2)))


def digits(d, n):
    return b"".join(b"0123456789"[k:k + 1] for k in [d.below(10) for _ in range(n)])


def line_end(d):
    x = d.random()
    if x < 0.8:
        return b"\n"
    if x < 0.9:
        return b"\r\n"
    return d.pick([b"\r\r\n", b"\r", b"", b"\n\r\n", b" \n", b"\x00\n"])


def whole(d):
    """A whole number's text, now and then with a bad or an odd part."""
    x = d.random()
    if x < 0.55:
        return str(number(d)).encode()
    if x < 0.75:
        return d.pick([b"", b"+", b"-"]) + d.pick([b"", b"0", b"00", b"000"]) + digits(d, d.small(21))
    return d.pick([b"", b"00", b"01", b"001", b"000", b"0", b"1", b"-0", b"+0", b"-00", b"+01", b"-01", b"+",
                   b"-", b"+-1", b"--1", b"++1", b"- 1", b"1 1", b"0x1", b"1_0", b"1e3", b"1.0", b"1L",
                   b"1l", b"1LL", b"L", b"LL", b"-L", b"True", b"\xd9\xa1", b"\xef\xbc\x91", b"9" * 19,
                   b"9" * 40, b"0" * 60 + b"7", b"-" + b"0" * 30 + b"9223372036854775808",
                   b"+9223372036854775807"])


def decimal(d):
    """A float's text: mostly of the right form, with w and e around the numbers of the rule."""
    x = d.random()
    if x < 0.25:
        return d.pick([b"inf", b"-inf", b"+INF", b"infinity", b"-Infinity", b"nan", b"+NaN", b"-nan",
                       b"infx", b"in", b"infinit", b"nanx", b"n", b"i", b"infinityy", b"+-inf", b"inf ",
                       b".", b"+.", b"-.e5", b"e5", b".e5", b"1e", b"1e+", b"1e-", b"1e5.", b"1e5e5",
                       b"1..2", b"1.2.3", b"", b"+", b"-", b"1_0", b"0x10", b"1f", b"1d5", b"0", b"-0",
                       b"+0.", b"-.0", b"0e99999999999999999999999", b"-0e-9999", b"1e18446744073709551617",
                       b"1e-18446744073709551617", b"1e4294967297", b"0.1", b"1 e5", b"9007199254740992e22",
                       b"9007199254740992e-22", b"9007199254740993e-22", b"1,5"])
    if x < 0.35:
        return repr(struct.unpack(">d", d.bytes(8))[0]).encode()
    if x < 0.45:
        near = str(2 ** 53 + d.between(-2, 2)).encode()
        return near + d.pick([b"", b".", b"e0", b"e22", b"e-22", b"e23", b"e-23"])
    left, right = digits(d, d.small(17)), digits(d, d.small(17))
    text = d.pick([b"", b"", b"+", b"-"]) + left
    if d.chance(0.7):
        text += b"." + right
    if d.chance(0.5):
        e = d.between(-26, 26) if d.chance(0.8) else d.between(-99999, 99999)
        # Also at the rule's ends after the fraction's digits are taken off.
        if d.chance(0.3):
            e = d.pick([-23, -22, 22, 23]) + len(right)
        text += d.pick([b"e", b"E"]) + d.pick([b"", b"+", b"0"] if e >= 0 else [b""]) + str(e).encode()
    return text


def escapes(d):
    """The inside of a STRING line."""
    parts = []
    for _ in range(d.small(8)):
        x = d.random()
        if x < 0.35:
            parts.append(d.pick([b"a", b"Z", b" ", b"'", b'"', b"0", b"\x00", b"\xe9", b"\r", b"\t",
                                 b"it's", b"u"]))
        elif x < 0.55:
            parts.append(b"\\" + d.pick([b"n", b"t", b"r", b"a", b"b", b"f", b"v", b"\\", b"'", b'"', b"q",
                                         b"N", b"u", b"X", b"8", b"9", b" ", b"\x00", b"\xff", b"\r", b"e"]))
        elif x < 0.75:
            parts.append(b"\\x" + d.pick([b"00", b"7f", b"fF", b"A0", b"+f", b"+F", b"-1", b"++", b"+",
                                          b"g0", b"0g", b"0", b" 1", b"\xc3\xa9", b"\xff0", b"0x", b"0a"]))
        else:
            octal = bytes(48 + d.below(8) for _ in range(d.between(1, 4)))
            parts.append(b"\\" + octal + d.pick([b"", b"", b"8", b"0", b"x"]))
    if d.chance(0.1):
        parts.append(b"\\")
    return b"".join(parts)


def string_line(d):
    x = d.random()
    if x < 0.85:
        quote = d.pick([b"'", b'"'])
        return quote + escapes(d) + quote
    return d.pick([b"", b"'", b'"', b"'\"", b"\"'", b"a", b"aa", b"'a", b"a'", b"'a' ", b" 'a'", b"`a`",
                   b"'a'\r", b"'\\''", b"''", b'""', b"'''", b"'\\'", b"'\\x'", b"'\\x0'", b"'a\"", b"u'a'"])


def unicode_line(d):
    parts = []
    for _ in range(d.small(6)):
        x = d.random()
        if x < 0.4:
            parts.append(d.pick([b"a", b"\\", b"u", b"U", b"\xe9", b"\x80", b"\xff", b"\x00", b"\\n",
                                 b"\\x41", b"\r", b"\\\\", b"\xc3\xa9", b"~", b"\x7f"]))
        elif x < 0.75:
            parts.append(b"\\u" + d.pick([b"0041", b"00e9", b"20AC", b"d7ff", b"d800", b"DBFF", b"dc00",
                                          b"dfff", b"e000", b"fffd", b"ffff", b"0000", b"007f", b"0080",
                                          b"07ff", b"0800", b"+041", b"-041", b"++41", b"004", b"00", b"",
                                          b"004g", b" 041", b"0x41", b"00\xc3\xa9", b"\xff041",
                                          b"d83d\\ude00"]))
        else:
            parts.append(b"\\U" + d.pick([b"00000041", b"0001F600", b"0010ffff", b"00110000", b"ffffffff",
                                          b"0000d800", b"+0000041", b"+ffffff0", b"-0000041", b"0000004",
                                          b"0001f60", b"00010000", b"0000FFFF", b"7fffffff", b"80000000",
                                          b"\xc3\xa9000041"]))
    return b"".join(parts)


def long_bytes(d):
    """Bytes of LONG1 or LONG4 of 0 to 20, around the ends of i64."""
    x = d.random()
    if x < 0.5:
        value = number(d)
        size = min(20, max(0, (value.bit_length() + 8) // 8 + d.pick([0, 0, 0, 1, 2, 5, 11])))
        fits = value.bit_length() < 8 * size or value == 0
        return value.to_bytes(size, "little", signed=True) if fits else b""
    body = d.pick([b"\x00" * 7, b"\xff" * 7, d.bytes(7)]) + d.pick([b"\x00", b"\x7f", b"\x80", b"\xff"])
    tail = d.pick([b"\x00", b"\xff"]) * d.below(13)
    if tail and d.chance(0.3):
        tail = tail[:-1] + d.pick([b"\x00", b"\x01", b"\x7f", b"\x80", b"\xff"])
    if d.chance(0.3):
        return body[:d.below(9)]
    return body + tail


def name_line(d):
    return d.pick([b"", b"m", b"__builtin__", b"set", b"a.b", b"m\r", b"\r", b"\r\r", b"\xe9", b"\xc3\xa9",
                   b"\xed\xa0\x80", b" m ", b"\x00", b"m\x85", b"frozenset", b"\xff\xff", b"copy_reg",
                   b"x" * 40])


FLOATS = [0, 1 << 63, 0x3FF0000000000000, 0x7FF0000000000000, 0xFFF0000000000000, 0x7FF8000000000000,
          0x7FF0000000000001, 0xFFF8000000000000, 0xFFFFFFFFFFFFFFFF, 0x7FF4000000000000, 1, (1 << 63) + 1,
          0x000FFFFFFFFFFFFF, 0x0010000000000000, 0x7FEFFFFFFFFFFFFF, 0xFFF7FFFFFFFFFFFF]


def one_literal(d):
    """One literal with its opcode; sometimes it is bad or breaks off."""
    k = d.below(16)
    if k == 0:
        return b"I" + padding(d) + whole(d) + padding(d) + line_end(d)
    if k == 1:
        final = d.pick([b"L", b"L", b"", b" L", b"L "])
        return b"L" + padding(d) + whole(d) + final + padding(d) + line_end(d)
    if k in (2, 3):
        return b"F" + padding(d) + decimal(d) + padding(d) + line_end(d)
    if k in (4, 5):
        return b"S" + string_line(d) + line_end(d)
    if k in (6, 7):
        return b"V" + unicode_line(d) + line_end(d)
    if k == 8:
        text = padding(d) + d.pick([whole(d), str(d.below(4)).encode(), b"+5", b"007", b"4294967295",
                                    b"4294967296", b"-0", b"", b"0"]) + padding(d)
        return b"Np" + text + line_end(d) + d.pick([b"", b"0", b"g" + text + b"\n", b"h\x05", b"h\x07"])
    if k == 9:
        return b"Nq\x05r\xff\xff\xff\xffp0\ng" + padding(d) + d.pick(
            [b"5", b"+5", b"05", b"-5", b"0", b"4294967295", b"4294967296", b"6", b"", b"+", b"00000000005"]
        ) + padding(d) + line_end(d)
    if k == 10:
        body = long_bytes(d)
        if d.chance(0.5):
            return b"\x8a" + bytes([len(body)]) + body
        return b"\x8b" + u32(len(body)) + body
    if k == 11:
        return d.pick([b"J" + d.bytes(4), b"K" + d.bytes(1), b"M" + d.bytes(2), b"J" + d.pick(
            [b"\xff\xff\xff\x7f", b"\0\0\0\x80", b"\xff\xff\xff\xff", b"\0\0\0\0"]), b"M\xff\xff", b"K\xff"])
    if k == 12:
        bits = d.pick(FLOATS) if d.chance(0.7) else int.from_bytes(d.bytes(8), "big")
        return b"G" + bits.to_bytes(8, "big")
    if k in (13, 14):
        body = d.bytes(d.small(12))
        size = len(body) + (d.pick([-1, 1, 2, 255]) if d.chance(0.15) else 0)
        size = max(0, size)
        if k == 14 and d.chance(0.1):
            size = d.pick([b"\xff\xff\xff\xff", b"\0\0\0\x80", b"\xff\xff\xff\x7f"])
            return d.pick([b"T", b"X"]) + size + body
        return d.pick([b"U" + bytes([min(size, 255)]), b"T" + u32(size), b"X" + u32(size)]) + body
    return b"c" + name_line(d) + line_end(d) + name_line(d) + line_end(d)


def literal_case(d, n):
    """The corners of the open points first, then one to three random literals."""
    if n < len(LITERALS):
        return LITERALS[n]
    if d.chance(0.85):
        return one_literal(d) + b"."
    return one_literal(d) + one_literal(d) + d.pick([b"\x86.", b".", b"\x86\x85."])

"""Good and damaged UTF-8 in BINUNICODE and in names: all lead bytes, truncated, overlong, surrogates."""

from opcodes import u32

# A code point at each end of each length and of the surrogates; the last two and D800.. are ill-formed.
POINTS = [0, 0x41, 0x7F, 0x80, 0xFF, 0x7FF, 0x800, 0xFFF, 0x1000, 0xCFFF, 0xD000, 0xD7FF, 0xD800, 0xDBFF,
          0xDC00, 0xDFFF, 0xE000, 0xFFFD, 0xFFFF, 0x10000, 0x3FFFF, 0x40000, 0xFFFFF, 0x100000, 0x10FFFF,
          0x110000, 0x1FFFFF]
# The borders of the ranges in Unicode's table of well-formed sequences.
SECOND = [0x00, 0x7F, 0x80, 0x8F, 0x90, 0x9F, 0xA0, 0xBF, 0xC0, 0xFF]


def encoded(point, size=0):
    """A code point in its own or in a longer (overlong) form; surrogates and too large ones too."""
    least = 1 if point < 0x80 else 2 if point < 0x800 else 3 if point < 0x10000 else 4
    size = max(size, least)
    if size == 1:
        return bytes([point])
    tail = [0x80 | (point >> 6 * i & 0x3F) for i in range(size - 2, -1, -1)]
    head = (0xF00 >> size & 0xFF) | point >> 6 * (size - 1)
    return bytes([head & 0xFF] + tail)


def piece(d):
    x = d.random()
    if x < 0.3:
        return encoded(d.pick(POINTS))
    if x < 0.45:
        return encoded(d.pick(POINTS), d.between(2, 4))
    if x < 0.65:
        whole = encoded(d.pick(POINTS[5:]))
        return whole[:d.between(1, len(whole))]
    if x < 0.8:
        start = bytes([d.between(0x80, 0xFF), d.pick(SECOND)])
        return start + d.pick([b"", b"\x80", b"\x80\x80", b"\xbf", b"a"])
    if x < 0.9:
        return d.pick([b"a", b"\r", b"z~", b"\x00"])
    return d.bytes(d.between(1, 3))


def lead(n):
    """The n-th of the systematic ones: each lead byte with a border second byte and a tail."""
    byte, rest = n // 20 % 256, n % 20
    return bytes([byte, SECOND[rest // 2]]) + (b"\x80" if rest % 2 else b"\x80\x80a")


def text(d, n):
    if n % 2 == 0:
        return lead(n // 2 + d.below(5120))
    return b"".join(piece(d) for _ in range(1 + d.small(7)))


def utf8_case(d, n):
    body = text(d, n)
    if d.chance(0.7):
        return b"X" + u32(len(body)) + body + b"."
    other = b"".join(piece(d) for _ in range(d.small(3)))
    module, name = (body, other) if d.chance(0.5) else (other, body)
    return b"c" + module + d.pick([b"\n", b"\r\n"]) + name + b"\n" + d.pick([b".", b".", b")R.", b")\x81."])

"""Systematic sweeps: all pickles of 0 to 2 bytes, all lines and texts of 0 to 2 bytes after their opcodes."""

from opcodes import u32

STRINGS = 1 + 256 + 65536
LINES = [b"I", b"L", b"F", b"S", b"V", b"Np", b"Nq\x05g"]
TOTAL = STRINGS * (2 + len(LINES))


def string(n):
    """The n-th byte string of 0 to 2 bytes, the shorter first."""
    if n == 0:
        return b""
    if n <= 256:
        return bytes([n - 1])
    return (n - 257).to_bytes(2, "big")


def by_index(n):
    """Bare pickles first, then BINUNICODE, then a line after each opcode that takes one number or text."""
    group, body = n // STRINGS % (2 + len(LINES)), string(n % STRINGS)
    if group == 0:
        return body
    if group == 1:
        return b"X" + u32(len(body)) + body + b"."
    return LINES[group - 2] + body + b"\n."


def short_case(d, n):
    """Seed 0 goes through them in order; other seeds scatter; TOTAL cases are all of them with any seed."""
    if d.seed == 0:
        return by_index(n % TOTAL)
    # 104729 is prime and no factor of TOTAL, so that this is a permutation.
    return by_index((n * 104729 + d.seed * 7919) % TOTAL)

"""Pickles that bring each opcode to each of the machine's rooms while it is nearly full, full, and too small by one; and
pickles as long as they may be."""
from limits import GLOBAL, SET, links, puts
from opcodes import u32

# What leaves a room with so much in it, and nothing else on the stack or open.
FILL = {
    "stack": (2048, lambda n: b"N" + b"2" * (n - 1)),
    "marks": (256, lambda n: b"(" * n),
    "memo": (1024, lambda n: b"N" + puts(n, lambda i: b"r" + u32(1000 + i)) + b"0"),
    "nodes": (4096, lambda n: (b"(" + b"N" * 1024 + b"1") * (n // 1024) + b"N0" * (n % 1024)),
    "links": (8192, links),
}
ROOMS = ["stack", "marks", "memo", "nodes", "links"]

# An opcode each, behind what it needs.
LITERALS = [b"N", b"\x88", b"\x89", b"I7\n", b"I01\n", b"L7L\n", b"K\7", b"M\7\7", b"J\7\0\0\0", b"\x8a\1\7", b"\x8b\1\0\0\0\7", b"F1.5\n",
            b"G\x3f\xf8\0\0\0\0\0\0", b"S'a'\n", b"S'\\x41b'\n", b"U\1a", b"T\1\0\0\0a", b"Va\n", b"X\1\0\0\0a", GLOBAL]
EMPTY = [b"]", b"}", b")", b"(l", b"(t", b"(d"]
HOLDING = [b"N\x85", b"N2\x86", b"N22\x87", b"(N2l", b"(N2t", b"(N2d", b"]Na", b"](N2e", b"](e", b"}N2s", b"}(N2u", b"}(u", b"](NNNNe", b"}(NNNNu"]
CALLS = [GLOBAL + b")R", GLOBAL + b")\x81", GLOBAL + b"N\x85R", GLOBAL + b")RNb", SET + b")R", SET + b"]\x85R"]
MEMO = [b"Nq\7", b"Np7\n", b"Nr\7\0\0\0", b"Nq\7q\7", b"Nq\7h\7", b"Nq\7g7\n", b"Nq\7j\7\0\0\0"]
OTHERS = [b"(", b"((1", b"N2", b"N0", b"N0N", b"\x80\2", b"(N1", b""]
# Refused for their own reason, which comes before or after the room's.
FAULTS = [b"Ix\n", b"Fx\n", b"Finf\n", b"S'\n", b"\x8a\x09\0\0\0\0\0\0\0\0\1", b"h\x09", b"NNR", GLOBAL + b"NR", b"NNa", b"}(Nu", b"(Nd",
          b"NNNs", b"](N", b"NNb", b"N(0", b"T\xff\xff\xff\xff", b"\xff", b"\x80\3", b"U\7a"]
FRAGMENTS = LITERALS + EMPTY + HOLDING + CALLS + MEMO + OTHERS + FAULTS


def levels(most, used):
    """How much is there before a fragment that needs so much: one less than fits, what fits, one more; and a full room."""
    return sorted({most - used - 1, most - used, most - used + 1, most}) if used else [most]


def room_cases(needs):
    """(name, pickle); `needs` says how much of each room a fragment comes to use, by itself."""
    for fragment, used in zip(FRAGMENTS, needs):
        for room in ROOMS:
            most, fill = FILL[room]
            for level in levels(most, used[room]):
                yield room, fill(level) + fragment + b"."
    for room in ROOMS:
        most, fill = FILL[room]
        for level in (most - 1, most, most + 1):
            yield room, fill(level) + b"."


def long_cases():
    """65,536 bytes and one less, mostly of opcodes that fill no room, with STOP and without."""
    rounds = [(b"", b"\x80\2", b"N."), (b"", b"(1", b"N."), (b"N", b"20", b"."), (b"Nq\0", b"q\0", b"."), (b"Nq\0", b"h\x000", b"."),
              (b"Nq\0", b"r\0\0\0\0", b"."), (b"S'", b"\\x41", b"'\n."), (b"V", b"\\u0041", b"\n."), (b"]q\0", b"h\0a", b".")]
    for before, again, after in rounds:
        for size in (65535, 65536):
            count, rest = divmod(size - len(before) - len(after), len(again))
            yield "long", before + again * count + after + b"x" * rest
            yield "long", (before + again * (count + len(after)))[:size]

"""The 46 opcodes of protocols 0 to 2 that the Rust knows, with the form of what follows each.

Used to find where opcodes start in a pickle: for cutting at their borders and for counting them.
"""

# Form: a number of bytes, or how the bytes after the opcode tell their end.
LINE, LINES, COUNT1, COUNT4 = "line", "lines", "count1", "count4"

FORMS = {
    b"(": 0, b".": 0, b"0": 0, b"1": 0, b"2": 0, b"F": LINE, b"I": LINE, b"J": 4, b"K": 1, b"L": LINE,
    b"M": 2, b"N": 0, b"R": 0, b"S": LINE, b"T": COUNT4, b"U": COUNT1, b"V": LINE, b"X": COUNT4, b"a": 0,
    b"b": 0, b"c": LINES, b"d": 0, b"}": 0, b"e": 0, b"g": LINE, b"h": 1, b"j": 4, b"l": 0, b"]": 0,
    b"p": LINE, b"q": 1, b"r": 4, b"s": 0, b"t": 0, b")": 0, b"u": 0, b"G": 8, b"\x80": 1, b"\x81": 0,
    b"\x85": 0, b"\x86": 0, b"\x87": 0, b"\x88": 0, b"\x89": 0, b"\x8a": COUNT1, b"\x8b": COUNT4,
}
BY_BYTE = {code[0]: form for code, form in FORMS.items()}
ALL = bytes(sorted(BY_BYTE))
# Known to pickletools but not to the Rust, then some that nobody knows.
FOREIGN = b"PQoi\x82\x83\x84BC\x8c\x8d\x8e\x8f\x90\x91\x92\x93\x94\x95\x96\x97\x98\x00\n \xff"


def end_of(data, place):
    """Where the opcode at place ends, or None if it is unknown or breaks off."""
    form = BY_BYTE.get(data[place])
    place += 1
    if form is None:
        return None
    if form == LINE or form == LINES:
        for _ in range(1 if form == LINE else 2):
            place = data.find(b"\n", place) + 1
            if place == 0:
                return None
    elif form == COUNT1:
        if place >= len(data):
            return None
        place += 1 + data[place]
    elif form == COUNT4:
        place += 4 + int.from_bytes(data[place:place + 4], "little")
    else:
        place += form
    return place if place <= len(data) else None


def starts(data):
    """The places of the opcodes up to STOP, as far as they can be told apart."""
    places, place = [], 0
    while place is not None and place < len(data):
        places.append(place)
        if data[place] == 0x2E:
            break
        place = end_of(data, place)
    return places


def u32(n):
    return n.to_bytes(4, "little")

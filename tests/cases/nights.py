"""A night's sheets read at once, as RULES, Ask 1, has it: what is due of the whole night, and what the sheets leave, from what each
gives when it is read by itself as whole data."""
import tables

SHORT_ROOM, BAD_LENGTHS = 1, 23


def number(size, lengths, places, short=False):
    """The night's own number, of a buffer of this size: whether a slice is short or there are fewer than four places a sheet comes first."""
    if short or places < 4 * len(lengths):
        return SHORT_ROOM
    return 0 if sum(lengths) == size else BAD_LENGTHS


def numbers(line):
    """The four numbers of a sheet, from the oracle's answer to it."""
    kind, *fields = line.split(" ")
    if kind == "value":
        return [0, 0, int(fields[0]), int(fields[1])]
    if kind == "refused":
        return [int(fields[0]), int(fields[1]), 0, 0]
    raise ValueError("the oracle says " + line[:300])


def left(lines):
    """The words and the text that the sheets leave at the start of table and text: of the last one that was accepted, behind it what
    earlier ones left."""
    words, text = [], b""
    for line in lines:
        if line.startswith("value "):
            of_this, text_of_this = tables.of_answer(line)
            words = of_this + words[len(of_this):]
            text = text_of_this + text[len(text_of_this):]
    return words, text


def framed(sheets):
    """A night as the program checking reads it."""
    return b"".join(n.to_bytes(4, "little") for n in [len(sheets), *map(len, sheets)]) + b"".join(sheets)

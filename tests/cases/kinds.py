"""The kinds of cases by name, and which case stands at which place of a mixture."""

from batches import batch_case
from damage import damaged
from draw import Draw
from jythons import jython_case
from leaves import leaf_case
from limits import limit_case
from literals import literal_case
from programs import program_case
from pythons import python_case
from sheets import sheet_case
from shorts import short_case
from utf8 import utf8_case

# What gets damaged: mostly what is short and quickly made.
QUICK = [program_case, program_case, program_case, literal_case, utf8_case, python_case]
DAMAGED = QUICK * 4 + [jython_case, jython_case, sheet_case]


def mutated_case(d, n):
    first = d.pick(DAMAGED)(d, d.below(1000))
    return damaged(d, first, d.pick(QUICK)(d, d.below(1000)))


# Name, maker, its share in 100 cases of the mixture, and a line on it. A kind's place here is part of its
# stream, so new kinds go to the end.
KINDS = [
    ("program", program_case, 41, "random programs over all 46 opcodes that mostly run to STOP"),
    ("literal", literal_case, 16, "every literal opcode with its corners"),
    ("utf8", utf8_case, 10, "good and damaged UTF-8 in BINUNICODE and in names"),
    ("mutated", mutated_case, 16, "a case of another kind, damaged"),
    ("limit", limit_case, 1, "each number that stops a reading, one below, at and one above"),
    ("batch", batch_case, 1, "lists and dicts of 999 to 1,001 items, tuples of 0 to 4"),
    ("sheet", sheet_case, 1, "questionnaire sheets as Python 2 writes them"),
    ("python", python_case, 6, "what CPython 3 writes of random values"),
    ("short", short_case, 7, "sweeps of all pickles, lines and texts of up to 2 bytes (seed 0: in order)"),
    ("jython", jython_case, 1, "what Jython 2.7 wrote, from jython.txt, in order"),
    ("leaf", leaf_case, 0, "one literal and STOP, asked for by name (seed 0: all short lines and texts, in order)"),
]
NAMES = [name for name, _, _, _ in KINDS]
NUMBER = {name: i for i, name in enumerate(NAMES)}
MAKER = {name: maker for name, maker, _, _ in KINDS}


def parse(text):
    """Names with commas between them, for a command line."""
    names = text.split(",")
    unknown = [name for name in names if name not in NAMES]
    if unknown:
        raise ValueError("no such kinds: " + ", ".join(unknown))
    return names


def pattern(names):
    """One round of a mixture: kinds by their shares, spread out, with each one's place within its kind."""
    spread = []
    for name, _, share, _ in KINDS:
        if name in names:
            share = 1 if len(names) == 1 else share
            spread += [((2 * i + 1) / (2 * share), NUMBER[name], name, i, share) for i in range(share)]
    return [(name, i, share) for _, _, name, i, share in sorted(spread)]


def case(seed, name, n):
    """The n-th case of a kind."""
    return MAKER[name](Draw(seed, NUMBER[name], n), n)


def cases(seed, count, names, first=0):
    """(kind, pickle) of a mixture, from a place on."""
    rounds = pattern(names)
    for i in range(first, first + count):
        name, place, share = rounds[i % len(rounds)]
        yield name, case(seed, name, i // len(rounds) * share + place)

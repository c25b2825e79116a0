"""What a reading is lent besides the pickle, as rooms.txt states it."""
import os
from collections import namedtuple

ROOT = os.path.join(os.path.dirname(os.path.abspath(__file__)), "..")
OF_ELEMENT = {"u8": 1, "u16": 2, "u32": 4, "u64": 8}    # bytes

Slice = namedtuple("Slice", "name element length meaning")


def read():
    """The slices in the order of a reading's arguments."""
    with open(os.path.join(ROOT, "rooms.txt")) as file:
        fields = [line.split(maxsplit=3) for line in file if not line.startswith("#")]
    return [Slice(name, element, int(length), meaning.strip()) for name, element, length, meaning in fields]


def size(slice):
    return OF_ELEMENT[slice.element] * slice.length


SLICES = read()
ROOMS, OUTPUTS = SLICES[:-2], SLICES[-2:]
TABLE, TEXT = OUTPUTS

"""The proved code as functions of Python, through ctypes. The repository's `tests/rooms` checks the slices of the readings against the
library's source. Nothing checks the declarations of the other calls: a change there must be made here too."""

import ctypes
import os
import threading
from ctypes import POINTER, c_char_p, c_int64, c_size_t, c_uint8, c_uint16, c_uint32, c_uint64

from .refused import Refused

# The rooms that a reading works in, in the order of its arguments: name, element, length. Then the lengths of the two slices that it fills.
# from rooms.txt, by tests/rooms: list
ROOMS = [
    ("nodes", c_uint64, 8192),
    ("owners", c_uint16, 8192),
    ("children", c_uint16, 8192),
    ("stack", c_uint16, 2048),
    ("marks", c_uint16, 256),
    ("keys", c_uint32, 2048),
    ("held", c_uint16, 1024),
    ("unescaped", c_uint8, 65536),
    ("starts", c_uint16, 4098),
    ("sorted", c_uint16, 16384),
    ("measures", c_uint64, 4096),
]
TABLE, TEXT = 8192, 65536
# end of list

# No value is written as a longer pickle, and none has a longer listing.
LONGEST_PICKLE, LONGEST_LISTING = 122883, 370688


class Answer(ctypes.Structure):
    _fields_ = [("number", c_uint64), ("detail", c_uint64), ("length", c_uint64), ("count", c_uint64)]


class Compared(ctypes.Structure):
    _fields_ = [("number", c_uint64), ("detail", c_uint64), ("sign", c_int64)]


class Scored(ctypes.Structure):
    _fields_ = [("number", c_uint64), ("detail", c_uint64), ("score", c_uint64), ("items", c_uint64)]


def load():
    """libqelemvir.so, from the folder QELEMVIR_LIB or else from the repository's target/staticlib."""
    root = os.path.abspath(os.path.join(os.path.dirname(__file__), "..", "..", ".."))
    folder = os.environ.get("QELEMVIR_LIB") or os.path.join(root, "target", "staticlib")
    try:
        return ctypes.CDLL(os.path.join(os.path.abspath(folder), "libqelemvir.so"))
    except OSError as why:
        raise ImportError("%s (bindings/python/build makes it; QELEMVIR_LIB may name its folder)" % why) from None


def declared(name, answer, *slices_and_counts):
    function = getattr(LIBRARY, name)
    function.restype = answer
    function.argtypes = [part for argument in slices_and_counts for part in argument]
    return function


def lent(element):
    """A slice passes as pointer and length."""
    return POINTER(element), c_size_t


LIBRARY = load()
BYTES, WORDS, COUNT, OUTPUT = (c_char_p, c_size_t), lent(c_uint64), (c_size_t,), lent(c_uint8)
READING = [lent(element) for _, element, _ in ROOMS] + [lent(c_uint64), lent(c_uint8)]

from_bytes_prefix = declared("qelemvir_from_bytes_prefix", Answer, BYTES, *READING)
from_bytes = declared("qelemvir_from_bytes", Answer, BYTES, *READING)
from_bytes_batch = declared("qelemvir_from_bytes_batch", Answer, BYTES, WORDS, WORDS, *READING)
plain_from_bytes_prefix = declared("qelemvir_plain_from_bytes_prefix", Answer, BYTES, *READING)
plain_from_bytes = declared("qelemvir_plain_from_bytes", Answer, BYTES, *READING)
compare = declared("qelemvir_compare", Compared, WORDS, COUNT, BYTES, WORDS, COUNT, BYTES)
list_table = declared("qelemvir_list", Answer, WORDS, COUNT, BYTES, OUTPUT)
to_bytes = declared("qelemvir_to_bytes", Answer, WORDS, COUNT, BYTES, OUTPUT)
score = declared("qelemvir_score", Scored, WORDS, COUNT, BYTES)
text_len = declared("qelemvir_text_len", c_size_t, WORDS, COUNT)


class Rooms(threading.local):
    """The rooms of a thread. They are used only while a call runs, and no other Python code of the thread can run
    then; so a reading that begins in the middle of another, in a signal's handler say, finds them free."""

    def __init__(self):
        self.lent = [part for _, element, length in ROOMS for part in ((element * length)(), length)]


rooms = Rooms()


def accepted(answer):
    """The answer, unless it is a refusal."""
    if answer.number != 0:
        raise Refused(answer.number, answer.detail)
    return answer


def reading(call, data):
    """What a reading makes of the bytes: words, text, and how many bytes it took. The outputs are made anew for each."""
    # A copy, since another thread could change a bytearray while the library reads it.
    pickle = bytes(memoryview(data))
    table, text = outputs()
    answer = accepted(call(pickle, len(pickle), *rooms.lent, table, TABLE, text, TEXT))
    return *filled(table, text, answer.count), answer.length


def batch(sheets):
    """What the batch makes of these bytes: the four numbers of each, and words and text of the last that was read, or None."""
    sheets = [bytes(memoryview(data)) for data in sheets]
    night, count = b"".join(sheets), len(sheets)
    lengths, answers = (c_uint64 * count)(*map(len, sheets)), (c_uint64 * (4 * count))()
    table, text = outputs()
    accepted(from_bytes_batch(night, len(night), lengths, count, answers, 4 * count, *rooms.lent, table, TABLE, text, TEXT))
    fours = [tuple(answers[4 * k:4 * k + 4]) for k in range(count)]
    read = [four for four in fours if four[0] == 0]
    return fours, filled(table, text, read[-1][3]) if read else None


def outputs():
    return (c_uint64 * TABLE)(), (c_uint8 * TEXT)()


def filled(table, text, count):
    """Words and text of so many records at the start of the outputs."""
    return table[:4 * count], bytes(text[:text_len(table, TABLE, count)])

"""Requests to the program caller, which makes the library's calls: their form (struct request of caller.c), what comes back."""
import os
import struct
import subprocess
import sys

HERE = os.path.dirname(os.path.abspath(__file__))
sys.path.insert(0, os.path.join(HERE, ".."))
import stated  # noqa: E402

VALUE, PREFIX, WHOLE, WRITE, LIST, COMPARE, LAWS, SCORE, BATCH, PLAIN_PREFIX, PLAIN_WHOLE = range(11)
CALLS = ["value", "from_bytes_prefix", "from_bytes", "to_bytes", "list", "compare", "compare's laws", "score", "from_bytes_batch",
         "plain_from_bytes_prefix", "plain_from_bytes"]
STATED = [slice.length for slice in stated.SLICES]
ANSWERS = len(STATED)       # a batch's answers, as a slice behind those
TABLE = stated.TABLE.length
CURRENT, PREVIOUS = 0, 1    # the value last given, and the one before it
HEAD = struct.Struct("<10Q")


def request(call, tag, seed, answer=(0, 0, 0), which=0, size=0, words=(), data=b""):
    numbers = [call, tag, seed, *answer, which, size, len(words), len(data)]
    return HEAD.pack(*(n % (1 << 64) for n in numbers)) + struct.pack("<%dQ" % len(words), *words) + data + bytes(-len(data) % 8)


def value(tag, seed, words, text, count=None, lent=None):
    """A table for the calls that follow, of as many words as are lent: those given, then noise."""
    count, lent = len(words) // 4 if count is None else count, len(words) if lent is None else lent
    return request(VALUE, tag, seed, which=lent, size=count, words=words, data=text)


def reading(call, tag, seed, pickle, answer, which=len(STATED), longer=0):
    """A reading with number, detail and length due, and the current value where the number is 0. One slice may be lent longer than
    stated by so many elements, or shorter."""
    return request(call, tag, seed, answer, which, longer, data=pickle)


def output(call, tag, seed, due):
    """list or to_bytes of the current value, with outputs of several lengths, and the bytes due."""
    return request(call, tag, seed, data=due)


def unwritable(tag, seed):
    """to_bytes of the current value, which has a name that cannot be read back."""
    return request(WRITE, tag, seed, (25, 0, 0))


def comparison(tag, seed, sign, first, second):
    return request(COMPARE, tag, seed, (0, 0, sign), first, second)


def laws(tag, seed):
    """The laws of compare on the three values last given."""
    return request(LAWS, tag, seed)


def scoring(tag, seed, number, detail, score, items):
    """The score of the current value."""
    return request(SCORE, tag, seed, (number, detail, score), size=items)


def batch(tag, seed, sheets, lengths, number, due=(), which=ANSWERS + 1, longer=0):
    """A batch with its own number due and, where that is 0, the sheets' four numbers each, and in table and text the current value. One slice
    may be lent longer than stated by so many elements, or shorter; the answers' is stated as four places a sheet."""
    return request(BATCH, tag, seed, (number, 0, len(lengths)), which, longer, [*lengths, *due], sheets)


def bad(tag, seed):
    """Every call on the current table, which is not well formed, while the previous one is."""
    yield from (request(call, tag, seed, (21, 1, 0)) for call in (WRITE, LIST))
    for first, second, detail in ((CURRENT, PREVIOUS, 1), (PREVIOUS, CURRENT, 2), (CURRENT, CURRENT, 1)):
        yield request(COMPARE, tag, seed, (21, detail, 0), first, second)


def answered(requests):
    """Make the calls: (tag, what differs) in order, and how many requests there were of each call."""
    done = subprocess.run([os.path.join(HERE, "run")], input=b"".join(requests), stdout=subprocess.PIPE)
    lines = done.stdout.decode().splitlines()
    counts = [0] * len(CALLS)
    if done.returncode == 0:
        counts = [int(n) for n in lines.pop().split(" ")[1:]]
    differences = [(int(tag), what) for tag, what in (line.split("\t", 1) for line in lines)]
    if sum(counts) != len(requests) and not differences:
        raise RuntimeError("caller: status %d, %d of %d requests done" % (done.returncode, sum(counts), len(requests)))
    return differences, counts

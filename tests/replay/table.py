"""What the program replay_table reads and prints: requests in, and for each an answer line (of list and write it
ends with the bytes changed behind its length), with the listing or the pickle after it."""
import os
import subprocess
import sys

ROOT = os.path.join(os.path.dirname(os.path.abspath(__file__)), "..", "..")
sys.path.insert(0, os.path.join(ROOT, "tests", "cases"))
import tables  # noqa: E402
from ask import ORACLE  # noqa: E402

COMPARE, LIST, WRITE, SCORE = 1, 2, 3, 4


def lent(words, text):
    return b"".join(w.to_bytes(8, "big") for w in words) + text


def request(call, words, count, text, words2=(), count2=0, text2=b"", output=0):
    numbers = [call, len(words), count, len(text), len(words2), count2, len(text2), output]
    return b"".join(n.to_bytes(4, "little") for n in numbers) + lent(words, text) + lent(words2, text2)


def compared(sign):
    return b"0\t0\t%d\n" % sign


def scored(due):
    return b"%d\t%d\t%d\t%d\n" % due


def bad(call, detail):
    return b"21\t%d\t0\n" % detail if call == COMPARE else b"21\t%d\t0\t0\t0\n" % detail


def listed(listing, output):
    if output < len(listing):
        return b"22\t0\t0\t0\t0\n"
    return b"0\t0\t%d\t0\t0\n" % len(listing) + listing


def pickled(table, image, output):
    """What the write call is due to answer, by the Rust's pickle of the table."""
    return b"25\t0\t0\t0\t0\n" if tables.unwritable(*table) else listed(image, output)


def written(asked):
    """The Rust's pickle of each table."""
    lines = "".join("write %s\n" % a for a in asked)
    done = subprocess.run([ORACLE], input=lines, capture_output=True, text=True, check=True)
    return [bytes.fromhex(answer.split(" ")[1]) for answer in done.stdout.splitlines()]


def orders(pairs):
    """The Rust's order of each pair of tables: -1, 0 or 1."""
    lines = "".join("compare %s %s\n" % pair for pair in pairs)
    done = subprocess.run([ORACLE], input=lines, capture_output=True, text=True, check=True)
    return [int(answer.split(" ")[1]) for answer in done.stdout.splitlines()]


def program(requests):
    done = subprocess.run([os.path.join(ROOT, "tests", "run"), "replay_table"], input=b"".join(requests),
                          stdout=subprocess.PIPE, check=True)
    return done.stdout

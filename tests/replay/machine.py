"""What the program replay_machine reads and prints, and what the oracle's `trace` makes due: both as an answer, the nodes at STOP,
and the steps, a column for each of their fields."""
import array
import os
import re
import subprocess
import sys

ROOT = os.path.join(os.path.dirname(os.path.abspath(__file__)), "..", "..")
sys.path.insert(0, os.path.join(ROOT, "tests", "cases"))
LONGEST = 65536           # longer pickles never come to the machine
PLACE, STACK, MARKS, MEMO, NODES, LINKS = range(6)      # of a step
MOST = [(LINKS, 8192, 16), (NODES, 4096, 15), (STACK, 2048, 12), (MARKS, 256, 13), (MEMO, 1024, 14)]    # in the order of RULES A4.4
STEP = re.compile(r" (\d+):(\d+),(\d+),(\d+),(\d+),(\d+)(?::(\S+))?")
AFTER = {"17", "18", "19"}      # what is settled after the machine
SINGLE = dict(zip(b"abfnrtv", b"\a\b\f\n\r\t\v"))
HOLD = {6: "list", 7: "tuple", 10: "dict"}


def frames(pickles):
    return b"".join(len(p).to_bytes(4, "little") + p for p in pickles)


def program(pickles):
    """What the proved program prints, a line a pickle."""
    done = subprocess.run([os.path.join(ROOT, "tests", "run"), "replay_machine"], input=frames(pickles), stdout=subprocess.PIPE, check=True)
    return done.stdout.decode().split("\n")[:-1]


# ---- what is due: the limits of RULES A3.1 laid over the Rust's run, as tests/oracle/src/due.rs lays them

def outside(line):
    """Whether a float literal that the Rust has parsed is outside those of RULES A7.5."""
    text = bytes.fromhex(line).decode().strip().lstrip("+-").lower()
    if text in ("inf", "infinity", "nan"):
        return True
    number, _, exponent = text.partition("e")
    before, _, after = number.partition(".")
    w, e = int(before + after), int(exponent or "0") - len(after)
    return w != 0 and (w > 1 << 53 or not -22 <= e <= 22)


def columns(steps):
    """A column of numbers for each field of the steps, and the lines of the FLOATs."""
    if steps.count(":") == steps.count(" "):
        numbers = list(map(int, steps.replace(":", " ").replace(",", " ").split(" ")[1:]))
        return [numbers[k::6] for k in range(6)], ()
    *found, floats = zip(*STEP.findall(steps))
    return [list(map(int, column)) for column in found], floats


def first_limit(steps, floats):
    """The first opcode that the Rust lets through and RULES, part A, does not, and the refusal's number; the step behind it has the
    counts that it leaves."""
    found = [(i, 0, 20) for i, line in enumerate(floats[:-1]) if line and outside(line)]
    for order, (what, most, number) in enumerate(MOST):
        if max(steps[what]) > most:
            found.append((next(i for i, n in enumerate(steps[what]) if n > most) - 1, order + 1, number))
    return min(found, default=None)


def due(trace, expect):
    """What the machine owes, from what `trace` and `expect` say of a pickle."""
    head, *rest = trace.split(" | ")
    steps, floats = columns(rest[-1])
    fields, limit = head.split(" "), first_limit(steps, floats)
    if limit:
        answer, nodes, steps = "refused %d 0" % limit[2], None, [column[:limit[0] + 1] for column in steps]
    elif fields[0] == "stopped":
        answer, nodes = "stopped %s %s" % (fields[1], fields[2]), rest[0].split(" ")[1:]
    else:
        answer, nodes = head, None
    said = expect.split(" ")
    later = said[0] == "value" or said[1] in AFTER
    if later != answer.startswith("stopped") or not later and expect != answer:
        raise RuntimeError("the oracle's expect says %s.., laid over its trace it is %s" % (expect[:60], answer))
    return answer, nodes, steps


# ---- what the program says

def hexed(data):
    return data.hex() or "-"


def string(line):
    """What stands between the quotes, unescaped."""
    text, found, i = line[1:-1], bytearray(), 0
    while i < len(text):
        if text[i:i + 1] != b"\\":
            found.append(text[i])
            i += 1
            continue
        octal = re.match(rb"[0-7]{1,3}", text[i + 1:])
        if octal:
            found.append(int(octal[0], 8) % 256)
            i += 1 + len(octal[0])
        elif text[i + 1:i + 2] == b"x":
            found.append(int(text[i + 2:i + 4], 16))
            i += 4
        else:
            found.append(SINGLE.get(text[i + 1], text[i + 1]))
            i += 2
    return bytes(found)


def unicode(line):
    """As raw-unicode-escape writes it; what is no character is U+FFFD."""
    text, i = "", 0
    while i < len(line):
        size = {b"\\u": 4, b"\\U": 8}.get(line[i:i + 2])
        if size is None:
            text, i = text + chr(line[i]), i + 1
            continue
        code = int(line[i + 2:i + 2 + size], 16)
        text += chr(code) if code < 0xD800 or 0xDFFF < code < 0x110000 else "\ufffd"
        i += 2 + size
    return text.encode()


def repaired(data):
    return data.decode("utf-8", "replace").encode()


def within(bits, word, data):
    at, size = word % (1 << bits), word >> bits
    return data[at:at + size] if at + size <= len(data) else b"past the end"


def cut(text, size):
    return [int(text[i:i + size], 16) for i in range(0, len(text), size)]


def wrong_links(kind, word, places):
    first = word >> 32
    together = list(range(first, first + len(places)))
    return word % (1 << 32) != len(places) or (places != together if kind == 7 else bool(places) and places[0] < first)


def rendered(pickle, words, owners, children):
    """The node table in the form of `trace`."""
    held, links = {}, {}
    for place, (owner, child) in enumerate(zip(owners, children)):
        held.setdefault(owner, []).append(str(child))
        links.setdefault(owner, []).append(place)

    def names(i):
        a, b = words[2 * i], words[2 * i + 1]
        return "%s,%s" % (hexed(repaired(within(24, a // 16, pickle))), hexed(repaired(within(32, b, pickle))))

    def node(i):
        a, b = words[2 * i], words[2 * i + 1]
        kind = a % 16
        # what a node does not use of its words is zero; the halves of a container's second word are how many links it has and where
        # the log had come to when it was made, and a tuple's links stand there together
        spare = 0 if kind == 11 else a // 16 if kind != 12 else 0 if a // 32 % 2 else b >> 32
        if spare or kind == 0 and b or kind == 1 and b > 1 or kind in HOLD and wrong_links(kind, b, links.get(i, [])):
            return "words/%016x,%016x/-" % (a, b)
        if kind == 0:
            return "none/-/-"
        if kind == 1:
            return "bool/%d/-" % b
        if kind in (2, 3):
            return "%s/%016x/-" % (("int", "float")[kind - 2], b)
        if kind in (4, 13):
            part = within(32, b, pickle)
            return "bytes/%s/-" % hexed(part if kind == 4 else string(part))
        if kind in (5, 14):
            part = within(32, b, pickle)
            return "string/%s/-" % hexed(repaired(part) if kind == 5 else unicode(part))
        if kind in HOLD:
            return "%s/-/%s" % (HOLD[kind], ",".join(held.get(i, ["-"])))
        if kind in (8, 9):
            return "set/%d/%d" % (kind - 8, b)
        if kind == 11:
            return "global/%s/-" % names(i)
        parts = [b % (1 << 32)] + ([b >> 32] if a // 32 % 2 else [])
        return "object/%s,%d/%s" % (names(a // 64), a // 16 % 2, ",".join(map(str, parts)))

    return [node(i) for i in range(len(words) // 2)]


def read(pickle, line):
    """A line of the program."""
    steps, *fields = line.split(" ")
    halves = array.array("H", bytes.fromhex(steps))
    if sys.byteorder == "little":
        halves.byteswap()
    top, high, low, links, stack, marks, memo, nodes = (halves[k::8].tolist() for k in range(8))
    counts = [[(a * 65536 + b) * 65536 + c for a, b, c in zip(top, high, low)], stack, marks, memo, nodes, links]
    if fields[0] == "refused":
        return " ".join(fields), None, counts
    _, at, stack, nodes, owners, children = fields
    stack = cut(stack[1:], 4)
    # STOP takes the value from the stack after the machine
    if not stack:
        return "refused 6 0", None, counts
    table = rendered(pickle, cut(nodes[1:], 16), cut(owners[1:], 4), cut(children[1:], 4))
    return "stopped %s %d" % (at, stack[-1]), table, counts


def differs(wanted, got):
    """In what the two differ, in a few words; nothing where they do not."""
    if wanted[0] != got[0]:
        return "%s is due, here %s" % (wanted[0], got[0])
    if wanted[2] != got[2]:
        a, b = list(zip(*wanted[2])), list(zip(*got[2]))
        k = next((k for k in range(min(len(a), len(b))) if a[k] != b[k]), min(len(a), len(b)))
        return "step %d: %s are due, here %s" % (k, a[k:k + 1], b[k:k + 1])
    if wanted[1] != got[1]:
        if len(wanted[1]) != len(got[1]):
            return "%d nodes are due, here %d" % (len(wanted[1]), len(got[1]))
        k = next(k for k, (a, b) in enumerate(zip(wanted[1], got[1])) if a != b)
        return "node %d: %s is due, here %s" % (k, wanted[1][k], got[1][k])
    return None

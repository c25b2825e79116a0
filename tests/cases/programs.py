"""Random programs over all 46 opcodes, led by a model of stack, marks and memo so that most run to STOP.

The model knows each node's kind, so that containers get items, classes get arguments and objects get states.
Lists, dicts and objects are also reached again through the memo: late items, sharing, containing themselves.
"""

from literals import one_literal
from opcodes import FOREIGN, u32

LEAVES = [
    ("n", b"N"), ("n", b"\x88"), ("n", b"\x89"), ("n", b"I00\n"), ("n", b"I01\n"), ("n", b"I7\n"),
    ("n", b"I-3\n"),
    ("n", b"L12L\n"), ("n", b"L1\n"), ("n", b"K\x01"), ("n", b"K\x05"), ("n", b"K\xff"), ("n", b"M\x01\x02"),
    ("n", b"J\xff\xff\xff\xff"), ("n", b"J\x01\0\0\0"), ("n", b"\x8a\x00"), ("n", b"\x8a\x01\x05"),
    ("n", b"\x8a\x08\0\0\0\0\0\0\0\x80"), ("n", b"\x8b\x02\0\0\0\x00\x80"), ("n", b"F1.5\n"), ("n", b"F-0\n"),
    ("n", b"G?\xf0\0\0\0\0\0\0"), ("n", b"G\x7f\xf8\0\0\0\0\0\0"), ("n", b"G\x80\0\0\0\0\0\0\0"),
    ("n", b"S'ab'\n"), ("n", b'S"\\x41\\n"\n'), ("n", b"S''\n"), ("n", b"T\x02\0\0\0ab"), ("n", b"U\x00"),
    ("n", b"U\x02ab"), ("n", b"U\x01z"), ("n", b"Vab\n"), ("n", b"V\\u20ac\xe9\n"), ("n", b"X\x02\0\0\0ab"),
    ("n", b"X\x01\0\0\0\xff"), ("n", b"X\x03\0\0\0\xe2\x82\xac"), ("n", b"X\0\0\0\0"),
    ("l", b"]"), ("l", b"]"), ("l", b"]"), ("t", b")"), ("d", b"}"), ("d", b"}"), ("d", b"}"),
]
CLASSES = [b"c__builtin__\nset\n", b"c__builtin__\nset\n", b"c__builtin__\nset\n",
           b"c__builtin__\nfrozenset\n", b"c__builtin__\nfrozenset\n", b"cm\nC\n", b"cm\nC\n", b"cm\nC\n",
           b"c__builtin__\nlist\n", b"cset\n__builtin__\n", b"c\n\n", b"cbuiltins\nset\n", b"cm\r\nC\r\n",
           b"ccopy_reg\n_reconstructor\n"]
KEYS = [("n", b"K\x01"), ("n", b"I1\n"), ("n", b"I01\n"), ("n", b"\x88"), ("n", b"K\x02"), ("n", b"N"), ("n",
        b"U\x01a"), ("n", b"S'a'\n"), ("n", b"Va\n"), ("n", b"X\x01\0\0\0a"), ("n", b"F1\n"), ("n",
        b"G?\xf0\0\0\0\0\0\0"), ("t", b")"), ("l", b"]"), ("d", b"}"), ("n", b"K\0"), ("n", b"F-0\n"), ("n",
        b"F0\n"), ("C", CLASSES[0]), ("n", b"G\x7f\xf8\0\0\0\0\0\0"), ("n", b"G\xff\xf8\0\0\0\0\0\0"), ("n",
        b"U\x02ab"), ("n", b"U\0")]
SETS = 5    # the first of CLASSES
CLASS_KINDS = ("c", "C")
TUPLES = ("t", "T")
FAULTS = b"(012tldaesubR\x81\x85\x86\x87"
NUMBERS = [0, 1, 2, 3, 4, 5, 6, 7, 255, 256, 70000, 4294967295]


class Program:
    """What the pickle written so far leaves behind."""

    __slots__ = ("d", "r", "out", "kinds", "stack", "marks", "memo", "numbers")

    def __init__(self, d):
        self.d = d
        self.r = d.random
        self.out = []
        # By node: n plain, l list, t tuple of 0 or 1, T longer one, d dict,
        # C set class, c other class, o object, s set.
        self.kinds = []
        self.stack = []
        self.marks = []
        self.memo = {}
        self.numbers = []   # the memo's numbers in order of first use, to draw from

    def make(self, kind, code):
        self.stack.append(len(self.kinds))
        self.kinds.append(kind)
        self.out.append(code)

    def kind(self, depth=1):
        """The kind at a depth from the top, or none."""
        return self.kinds[self.stack[-depth]] if len(self.stack) >= depth else ""


def leaf(p):
    kind, code = LEAVES[int(p.r() * len(LEAVES))]
    p.make(kind, code)


def literal(p):
    """A random literal, which may also be a bad one; the model can't tell, so it's rare."""
    if p.r() < 0.1:
        p.make("n", one_literal(p.d))
    else:
        leaf(p)


def class_leaf(p):
    n = int(p.r() * len(CLASSES))
    p.make("C" if n < SETS else "c", CLASSES[n])


def mark(p):
    if len(p.marks) < 6:
        p.marks.append(len(p.stack))
        p.out.append(b"(")
    else:
        leaf(p)


def pop(p):
    # Not below the newest mark as a rule: a mark above the stack is refused unless something is pushed again.
    if len(p.stack) > 1 and (not p.marks or p.marks[-1] < len(p.stack) or p.r() < 0.2):
        p.stack.pop()
        p.out.append(b"0")
    else:
        leaf(p)


def pop_mark(p):
    if len(p.marks) > 0 and p.marks[-1] <= len(p.stack) and p.marks[-1] > 0 and p.r() < 0.3:
        del p.stack[p.marks.pop():]
        p.out.append(b"1")
    else:
        mark(p)


def dup(p):
    if p.stack:
        p.stack.append(p.stack[-1])
        p.out.append(b"2")
    else:
        leaf(p)


def tuple_few(p):
    n = 1 + int(p.r() * 3)
    if len(p.stack) < n:
        return leaf(p)
    del p.stack[-n:]
    p.make("t" if n == 1 else "T", b"\x85\x86\x87"[n - 1:n])


def gather(p):
    """Whatever uses the newest mark: LIST, TUPLE, DICT, APPENDS, SETITEMS."""
    if not p.marks or p.marks[-1] > len(p.stack):
        return mark(p)
    at = p.marks[-1]
    items = len(p.stack) - at
    below = p.kinds[p.stack[at - 1]] if at > 0 else ""
    x = p.r()
    if below == "l" and x < 0.7:
        code = b"e"
    elif below == "d" and x < 0.7:
        code = b"u"
    else:
        code = p.d.pick((b"l", b"t", b"t", b"d"))
    if code in b"ud" and items % 2:
        leaf(p)
    p.marks.pop()
    del p.stack[at:]
    if code in b"eu":
        p.out.append(code)
    else:
        p.make("T" if code == b"t" and items > 1 else code.decode(), code)


def add(p):
    """APPEND or SETITEM, or items for what lies on top."""
    if p.kind(2) == "l":
        p.stack.pop()
        p.out.append(b"a")
    elif p.kind(3) == "d":
        del p.stack[-2:]
        p.out.append(b"s")
    elif p.kind() == "l":
        item(p)
        p.stack.pop()
        p.out.append(b"a")
    elif p.kind() == "d":
        item(p)
        item(p)
        del p.stack[-2:]
        p.out.append(b"s")
    else:
        leaf(p)


def item(p):
    """One value on top: a leaf, or something met before, which may be what it is put into."""
    if p.numbers and p.r() < 0.6:
        get(p)
    elif p.r() < 0.1 and p.stack:
        dup(p)
    else:
        leaf(p)


def put(p):
    if not p.stack:
        return leaf(p)
    if p.kind() == "n" and p.r() < 0.5:
        # Containers are the more telling things to share.
        p.make(*p.d.pick((("l", b"]"), ("d", b"}"))))
    n = NUMBERS[int(p.r() * p.r() * len(NUMBERS))]
    if n not in p.memo:
        p.numbers.append(n)
    p.memo[n] = p.stack[-1]
    x = p.r()
    if x < 0.5 and n < 256:
        p.out.append(b"q%c" % n)
    elif x < 0.75:
        p.out.append(b"r" + u32(n))
    else:
        p.out.append(b"p%d\n" % n)


def get(p):
    if not p.numbers:
        return put(p)
    n = p.numbers[int(p.r() * len(p.numbers))]
    p.stack.append(p.memo[n])
    x = p.r()
    if x < 0.5 and n < 256:
        p.out.append(b"h%c" % n)
    elif x < 0.75:
        p.out.append(b"j" + u32(n))
    else:
        p.out.append(b"g%d\n" % n)


def arguments(p):
    """A tuple of none, one or two on top."""
    x = p.r()
    if x < 0.2:
        p.make("t", b")")
    elif x < 0.8:
        item(p)
        p.stack.pop()
        p.make("t", b"\x85")
    else:
        item(p)
        item(p)
        del p.stack[-2:]
        p.make("T", b"\x86")


def wrapped(p):
    """One value on top as by item, by itself or within a tuple, a list, or a class's arguments."""
    x = p.r()
    if x < 0.4:
        item(p)
    elif x < 0.6:
        item(p)
        p.stack.pop()
        p.make("t", b"\x85")
    elif x < 0.8:
        class_leaf(p)
        item(p)
        p.stack.pop()
        p.make("t", b"\x85")
        call(p)
    else:
        p.make("l", b"]")
        item(p)
        p.stack.pop()
        p.out.append(b"a")


def kept_arguments(p):
    """The tuple on top stays in the memo as arguments, so that an object may be reached through its own."""
    put(p)
    kept = p.stack[-1]
    number = [n for n in p.numbers if p.memo[n] == kept][0]
    class_leaf(p)
    p.stack.append(kept)
    p.out.append(b"j" + u32(number))


def call(p):
    """REDUCE or NEWOBJ, on what stands there or on a class and arguments made for it."""
    top, below = p.kind(), p.kind(2)
    if top in TUPLES and below in CLASS_KINDS:
        pass
    elif top in CLASS_KINDS:
        arguments(p)
    elif top in TUPLES and p.r() < 0.4:
        kept_arguments(p)
    else:
        class_leaf(p)
        if p.r() < 0.5:
            put(p)
        arguments(p)
    is_set = p.kind() == "t" and p.kind(2) == "C"
    del p.stack[-2:]
    if p.r() < 0.7:
        p.make("s" if is_set else "o", b"R")
    else:
        p.make("o", b"\x81")


def build(p):
    if p.kind(2) == "o":
        p.stack.pop()
        p.out.append(b"b")
    elif p.kind() == "o":
        item(p)
        p.stack.pop()
        p.out.append(b"b")
    else:
        call(p)


def key(p):
    """One value on top from a small pool, so that equal ones meet, or anything."""
    if p.r() < 0.25:
        wrapped(p)
    else:
        p.make(*KEYS[int(p.r() * len(KEYS))])


def full_set(p):
    """A set of some items, its argument perhaps kept in the memo for late ones."""
    p.make("C", CLASSES[int(p.r() * SETS)])
    size = len(p.stack)
    p.out.append(b"(")
    for _ in range(int(p.r() * 6)):
        key(p)
    del p.stack[size:]
    p.make(*p.d.pick((("l", b"l"), ("T", b"t"))))
    if p.r() < 0.3:
        put(p)
    p.stack.pop()
    p.make("t", b"\x85")
    del p.stack[-2:]
    p.make("s", b"R")


def entries(p):
    """A dict whose keys may be equal, by SETITEMS or by SETITEM."""
    p.make("d", b"}")
    if p.r() < 0.3:
        put(p)
    size = len(p.stack)
    many = p.r() < 0.5
    if many:
        p.out.append(b"(")
    for _ in range(int(p.r() * 5)):
        key(p)
        item(p)
        if not many:
            p.out.append(b"s")
            del p.stack[size:]
    if many:
        p.out.append(b"u")
        del p.stack[size:]


def late(p):
    """Something from the memo gets a late item or state and is dropped again."""
    if not p.numbers:
        return put(p)
    size = len(p.stack)
    get(p)
    code = {"l": b"a", "d": b"s", "o": b"b"}.get(p.kind(), b"")
    if code:
        wrapped(p)
    if code == b"s":
        wrapped(p)
    p.out.append(code + b"0")
    del p.stack[size:]


def proto(p):
    p.out.append(b"\x80%c" % int(p.r() * 3))


def fault(p):
    """An opcode that is probably refused: it underflows, has the wrong kind below it, or isn't known."""
    x = p.r()
    if x < 0.6:
        p.out.append(bytes([p.d.pick(FAULTS)]))
    elif x < 0.75:
        p.out.append(bytes([p.d.pick(FOREIGN)]))
    elif x < 0.85:
        p.out.append(bytes([0x80, 3 + p.d.below(253)]))
    elif x < 0.95:
        p.out.append(bytes([0x68, p.d.below(256)]))
    else:
        p.out.append(one_literal(p.d))


WEIGHTS = [(leaf, 14), (literal, 4), (class_leaf, 2), (mark, 9), (pop, 3), (pop_mark, 2), (dup, 4),
           (tuple_few, 8), (gather, 10), (add, 14), (put, 10), (get, 10), (call, 8), (build, 5), (late, 12),
           (full_set, 5), (entries, 5), (proto, 1)]
STEPS = [step for step, weight in WEIGHTS for _ in range(weight)]


def finish(p):
    """Leave one value on top that shows as much as can be of what was made."""
    x = p.r()
    if x < 0.55:
        for n in p.numbers[:int(p.r() * 4)]:
            p.stack.append(p.memo[n])
            p.out.append(b"j" + u32(n))
    if x < 0.85:
        while p.marks and p.marks[-1] <= len(p.stack):
            del p.stack[p.marks.pop():]
            p.make("t", p.d.pick((b"l", b"t")))
        while len(p.stack) > 1 and p.r() < 0.8:
            n = min(3, len(p.stack))
            del p.stack[-n:]
            p.make("t", b"\x85\x86\x87"[n - 1:n])
    if not p.stack:
        leaf(p)
    p.out.append(b".")


def program_case(d, n):
    p = Program(d)
    r = d.random
    if r() < 0.4:
        p.out.append(b"\x80\x02")
    if r() < 0.6:
        mark(p)
    length = 2 + int(r() * r() * 40)
    at = int(r() * length) if r() < 0.15 else -1
    for i in range(length):
        if i == at:
            fault(p)
        STEPS[int(r() * len(STEPS))](p)
    finish(p)
    if r() < 0.05:
        p.out.append(d.bytes(1 + d.below(4)))
    return b"".join(p.out)

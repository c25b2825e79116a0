"""Value tables: from the oracle's answers, made by hand from Python values, and broken one rule at a time. A table is a pair of
a list of 64-bit words and a text; its listing is written here from the rule, record by record."""
import itertools

NONE, BOOL, INT, FLOAT, BYTES, STRING, LIST, TUPLE, SET, FROZENSET, DICT, GLOBAL, OBJECT = range(13)
KINDS = ["none", "bool", "int", "float", "bytes", "string", "list", "tuple", "set", "frozenset", "dict", "global", "object"]
CONTAINERS = {LIST, TUPLE, SET, FROZENSET, DICT}


def of_answer(answer):
    """The table of an answer `value LENGTH COUNT WORDS TEXT`."""
    _, _, _, words, text = answer.split(" ")
    text = b"" if text == "-" else bytes.fromhex(text)
    return [int(words[i:i + 16], 16) for i in range(0, len(words), 16)], text


def asked(table):
    """WORDS TEXT as the oracle reads them."""
    words, text = table
    return ("".join("%016x" % w for w in words) or "-") + " " + (text.hex() or "-")


# A value here is (kind, payload): payload is bits, bytes, a pair of names, or a list of values; an Object's is
# (module, name, new, [arguments as a tuple value] or with a state after it).

def table(value):
    words, text = [], []
    put(value, words, text)
    return words, b"".join(text)


def place(text):
    return sum(map(len, text))


def put(value, words, text):
    kind, payload = value
    at = len(words)
    words += [kind, 0, 0, 0]
    if kind in (BOOL, INT, FLOAT):
        words[at + 1] = payload
    elif kind in (BYTES, STRING):
        words[at + 1:at + 3] = [place(text), len(payload)]
        text.append(payload)
    elif kind in (GLOBAL, OBJECT):
        module, name = payload[0], payload[1]
        words[at + 1:at + 3] = [place(text), len(module) << 32 | len(name)]
        text.append(module + name)
    items = payload if kind in CONTAINERS else payload[3] if kind == OBJECT else []
    for item in items:
        put(item, words, text)
    if kind in CONTAINERS:
        words[at + 1:at + 3] = [len(items) // 2 if kind == DICT else len(items), (len(words) - at) // 4]
    if kind == OBJECT:
        words[at] += 16 * payload[2] + 32 * (len(items) - 1)
        words[at + 3] = (len(words) - at) // 4


def shown(data):
    """A listed text: a backslash as two, any other byte from 20 to 7E hex as itself, the rest as `\\x` and two digits."""
    return "".join("\\\\" if b == 0x5C else chr(b) if 0x20 <= b <= 0x7E else "\\x%02x" % b for b in data)


def listing(words, text):
    """The rule of the list call, line by line, for a well-formed table."""
    lines, ends = [], []
    for i in range(len(words) // 4):
        while ends and ends[-1] == i:
            ends.pop()
        head, a, b, c = words[4 * i:4 * i + 4]
        kind = head % 16
        fields = [str(len(ends)), KINDS[kind]]
        if kind == NONE:
            fields.append("-")
        elif kind == BOOL:
            fields.append(str(a))
        elif kind == INT:
            fields.append(str(a - (1 << 64) if a >> 63 else a))
        elif kind == FLOAT:
            fields.append("%016x" % a)
        elif kind in (BYTES, STRING):
            fields.append(shown(text[a:a + b]))
        elif kind in CONTAINERS:
            fields.append(str(a))
            ends.append(i + b)
        else:
            m, n = b >> 32, b & 0xFFFFFFFF
            fields += [shown(text[a:a + m]), shown(text[a + m:a + m + n])]
            if kind == OBJECT:
                fields += [str(head >> 4 & 1), str(head >> 5 & 1)]
                ends.append(i + c)
        lines.append("\t".join(fields) + "\n")
    return "".join(lines).encode()


def names(words, text):
    """The modules and names of Globals and of Objects' classes."""
    for at in range(0, len(words), 4):
        head, place, lengths = words[at:at + 3]
        if head % 16 in (GLOBAL, OBJECT):
            end = place + (lengths >> 32)
            yield text[place:end]
            yield text[end:end + (lengths & 0xFFFFFFFF)]


def unwritable(words, text):
    """RULES, Ask 5.1: writing refuses a module or a name that contains a newline or ends with CR."""
    return any(b"\n" in name or name.endswith(b"\r") for name in names(words, text))


def tuple_of(*items):
    return (TUPLE, list(items))


def samples():
    """Well-formed tables that a reading seldom makes: every kind, every byte, depth 64, empty containers."""
    none, one, two = (NONE, None), (INT, 1), (INT, 2)
    every = bytes(range(256))
    deep = none
    for _ in range(63):
        deep = tuple_of(deep)
    # Every pair of these differs in what the order of Objects looks at first, next or last.
    objects = [(OBJECT, (b"m", b"C", new, [tuple_of(*args)] + state))
               for args in ([], [one], [two]) for new in (0, 1) for state in ([], [none], [one])]
    named = [(kind, (m, n) + more) for kind, more in ((GLOBAL, ()), (OBJECT, (1, [tuple_of()])))
             for m, n in ((b"a", b"b"), (b"ab", b""), (b"b", b"a"), (b"a", b"c"))]
    texts = [(BYTES, b"b"), (BYTES, b"ab"), (STRING, b"b"), (STRING, b"ab")]
    # What a listing must tell apart: a backslash and what follows it, and the byte that they would name.
    slashes = [(BYTES, b"\\x09"), (BYTES, b"\t"), (STRING, b"\\\\"), (GLOBAL, (b"\\x09", b"\\")), (GLOBAL, (b"\t", b"\\")),
               (OBJECT, (b"\\", b"\\x5c", 0, [tuple_of()]))]
    dicts = [(DICT, [one, two, two, one]), (DICT, [one, one, two, two]), (DICT, [one, two]), (DICT, [two, one])]
    sets = none
    for _ in range(32):
        sets = (FROZENSET, [(SET, [sets])])
    sets = sets[1][0]
    return [none, (BOOL, 0), (BOOL, 1), one, (INT, (1 << 64) - 1), (INT, 1 << 63), (INT, (1 << 63) - 1),
            (FLOAT, 0), (FLOAT, 1 << 63), (FLOAT, 0x7FF8 << 48), (FLOAT, 0xFFF8 << 48), (FLOAT, 0x3FF << 52),
            (BYTES, b""), (BYTES, every), (STRING, b""), (STRING, "é€😀\t\\".encode()), (LIST, []), (TUPLE, []), (SET, []),
            (FROZENSET, []), (DICT, []), (LIST, [one, two]), tuple_of(one), (SET, [one, two]), (FROZENSET, [one]),
            (DICT, [one, none, two, none]), (GLOBAL, (b"m", b"n")), (GLOBAL, (b"", b"")), deep, sets,
            (DICT, [tuple_of(one), (SET, [two])]), (LIST, [none] * 2047), (BYTES, b"x" * 65536)
            ] + objects + named + texts + slashes + dicts


def named_in_lines():
    """Values whose modules and names have newlines and CRs at every place: alone, first, inside, last, doubled, and none."""
    short = [bytes(s) for n in range(3) for s in itertools.product(b"x\n\r", repeat=n)]
    longer = [bytes(s) for s in itertools.product(b"x\n\r", repeat=3)]
    none, one = (NONE, None), (INT, 1)
    globals_ = [(GLOBAL, pair) for name in short + longer for pair in ((name, b"n"), (b"m", name))]
    objects = [(OBJECT, pair + (new, [tuple_of()])) for name in short for pair in ((name, b"n"), (b"m", name)) for new in (0, 1)]
    inside = []
    for name in (b"x\ny", b"x\r", b"x\ry"):
        bad = (GLOBAL, (b"m", name))
        made = (OBJECT, (name, b"n", 0, [tuple_of(bad), (DICT, [one, bad])]))
        deep = bad
        for _ in range(62):
            deep = (LIST, [deep])
        inside += [bad, made, (LIST, [none, bad, one]), (DICT, [bad, one]), (DICT, [one, bad]), (SET, [one, bad]), (FROZENSET, [one, bad]),
                   (OBJECT, (b"m", b"C", 1, [tuple_of(bad)])), (OBJECT, (b"m", b"C", 0, [tuple_of(), bad])),
                   (LIST, [(BYTES, name), (STRING, name), (GLOBAL, (b"m", b"n"))]), (LIST, [(GLOBAL, (b"m", b"n")), (BYTES, name)]),
                   tuple_of((BYTES, b"\r"), deep)]
    return globals_ + objects + inside


def broken():
    """(what, words, count, text): each breaks a rule of well-formedness."""
    none, one = (NONE, None), (INT, 1)
    words, text = table((LIST, [one, (BYTES, b"ab"), (STRING, b"c")]))
    n = len(words) // 4

    def with_word(at, value):
        return words[:at] + [value] + words[at + 1:]

    yield "count 0", words, 0, text
    yield "count above the slice", words, n + 1, text
    yield "count below the value", words, n - 1, text
    yield "count above 2,048", *flat(table((LIST, [none] * 2048)), 2049)
    yield "a size too small", with_word(2, n - 1), n, text
    yield "a size too large", with_word(2, n + 1), n, text
    yield "an item too many", with_word(1, 4), n, text
    yield "an item too few", with_word(1, 2), n, text
    yield "a gap in the text", with_word(13, 3), n, text + b"x"
    yield "texts that overlap", with_word(13, 1), n, text
    yield "text longer than its texts", words, n, text + b"x"
    yield "text shorter than its texts", words, n, text[:-1]
    yield "an unused word", with_word(3, 1), n, text
    yield "an unused word of an int", with_word(6, 1), n, text
    yield "flags on a list", with_word(0, 6 + 16), n, text
    yield "no such kind", with_word(4, 13), n, text
    yield "a kind above 16", with_word(4, 2 + 64), n, text
    yield "bool 2", *flat(table((BOOL, 2)))
    yield "equal keys", *flat(table((DICT, [one, none, one, none])))
    yield "descending keys", *flat(table((DICT, [(INT, 2), none, one, none])))
    yield "equal items", *flat(table((SET, [one, one])))
    yield "descending items", *flat(table((FROZENSET, [one, (INT, (1 << 64) - 1)])))
    yield "a string that is not UTF-8", *flat(table((STRING, b"\xed\xa0\x80")))
    yield "a module that is not UTF-8", *flat(table((GLOBAL, (b"\xff", b"n"))))
    yield "a name that is not UTF-8", *flat(table((GLOBAL, (b"m", b"\xc0\x80"))))
    yield "a character cut between module and name", *flat(table((GLOBAL, (b"\xc3", b"\xa9"))))
    deep = none
    for _ in range(64):
        deep = tuple_of(deep)
    yield "depth 65", *flat(table(deep))
    yield "a dict with a key alone", [10, 1, 2, 0, 0, 0, 0, 0], 2, b""
    yield "two values", [0] * 8, 2, b""
    yield "a slice that ends inside a record", [0] * 3, 1, b""
    yield "the place of an empty text", [6, 2, 3, 0, 4, 0, 1, 0, 4, 0, 0, 0], 3, b"a"
    yield "a global's place", [11, 1, 0, 0], 1, b""
    empty = [7, 0, 1, 0]
    yield "an object's place", [12, 1, 0, 2] + empty, 2, b""
    yield "an object's size", [12, 0, 0, 3] + empty, 2, b""
    yield "an object's module that is not UTF-8", [12, 0, 1 << 32, 2] + empty, 2, b"\xff"
    yield "an object's name that is not UTF-8", [12, 0, 1, 2] + empty, 2, b"\xff"
    yield "bit 64 on an object", [12 + 64, 0, 0, 2] + empty, 2, b""
    yield "bit 32 on a list", [6 + 32, 0, 1, 0], 1, b""
    yield "equal items of a frozenset", [9, 2, 3, 0] + [0] * 8, 3, b""
    for kind in (NONE, BOOL, INT, FLOAT, BYTES, STRING, GLOBAL):
        for word in (1, 2, 3):
            if word == 3 or kind == NONE or (word == 2 and kind in (BOOL, INT, FLOAT)):
                yield "an unused word", [kind] + [int(k == word) for k in (1, 2, 3)], 1, b""
    for kind in CONTAINERS:
        yield "word 3 of a container", [kind, 0, 1, 1], 1, b""
        yield "items that wrap", [kind, (1 << 64) - 1, 1, 0], 1, b""
    yield "entries that wrap", [DICT, 1 << 63, 1, 0], 1, b""
    yield "a length that wraps", [BYTES, 0, (1 << 64) - 1, 0], 1, b""
    yield "a place that wraps", [BYTES, (1 << 64) - 1, 1, 0], 1, b""
    yield "a size that wraps", [LIST, 0, (1 << 64) - 1, 0], 1, b""
    w, t = table((OBJECT, (b"m", b"C", 0, [(LIST, [])])))
    yield "arguments that are no tuple", w, len(w) // 4, t
    w, t = table((OBJECT, (b"m", b"C", 0, [(TUPLE, [])])))
    yield "a state that is not there", [w[0] + 32] + w[1:], len(w) // 4, t
    yield "text above 65,536", *flat(table((BYTES, b"x" * 65537)))
    w, t = table((GLOBAL, (b"m\n", b"n\r")))
    yield "names that cannot be written, and text longer than they", w, 1, t + b"x"


def broken_at(words, d):
    """The words with one changed that the rules cannot allow: a record's last word, or a size."""
    words = list(words)
    at = 4 * d.below(len(words) // 4)
    kind = words[at] % 16
    if kind in CONTAINERS or kind == OBJECT:
        size = at + (2 if kind in CONTAINERS else 3)
        words[size] = (words[size] + d.pick([1, -1])) % (1 << 64)
    else:
        words[at + 3] = 1 + d.below(3)
    return words


def flat(made, count=None):
    return made[0], len(made[0]) // 4 if count is None else count, made[1]

"""Each number of RULES A3.1 that stops a reading, at one below, at and one above, reached in several ways.

A family is a function of the distance from the number: -1, 0 and 1 in the fixed list, varied after it.
"""

from opcodes import u32

SET = b"c__builtin__\nset\n"
GLOBAL = b"cm\nC\n"
FAMILIES = []   # (name, function of the distance)


def family(function):
    FAMILIES.append((function.__name__, function))
    return function


def families(name, makers):
    """One family for each of several ways to the same number."""
    for key, maker in makers:
        FAMILIES.append((name + "_" + key, maker))


# Pickle, 65,536 bytes.

@family
def length_padding(n):
    return b"N." + b"x" * (65534 + n)


families("length", [
    ("binstring", lambda n: b"T" + u32(65530 + n) + b"x" * (65530 + n) + b"."),
    ("binunicode", lambda n: b"X" + u32(65530 + n) + b"x" * (65530 + n) + b"."),
    ("string", lambda n: b"S'" + b"x" * (65531 + n) + b"'\n."),
    ("popped_unicode", lambda n: b"V" + b"\xe9" * (65531 + n) + b"\n0N."),
    ("int", lambda n: b"I" + b"0" * (65532 + n) + b"7\n."),
    ("global", lambda n: b"cm\n" + b"n" * (65531 + n) + b"\n."),
    ("no_stop", lambda n: b"\x80\x02" * 32767 + b"N" * (2 + n)),
])


# Stack, 2,048. A way in is what is pushed last; its own pops come first.

def stack_by(last, needs=0):
    """Fill to 2,047 with DUP, less what the last opcode takes off the stack again, then push."""
    return lambda n: b"N" + b"2" * (2046 + n - needs) + last + b"."


families("stack", [
    ("none", lambda n: b"N" * (2048 + n) + b"."),
    ("dup", stack_by(b"2")),
    ("int", stack_by(b"K\x05")),
    ("list", stack_by(b"]")),
    ("dict", stack_by(b"}")),
    ("tuple", stack_by(b")")),
    ("text", stack_by(b"U\x01a")),
    ("global", stack_by(GLOBAL)),
    ("binget", stack_by(b"q\0h\0")),
    ("get", stack_by(b"p7\ng7\n")),
    ("mark_list", stack_by(b"(l")),
    ("mark_tuple", stack_by(b"(t")),
    ("mark_dict", stack_by(b"(d")),
    ("pop_push", stack_by(b"0N2")),
    ("tuple1", lambda n: b"N" + b"2" * (2047 + n) + b"\x85."),
    ("list_of_all", lambda n: b"(N" + b"2" * (2047 + n) + b"l0N."),
    ("reduce", lambda n: b"N" + b"2" * (2045 + n) + GLOBAL + b")R."),
    ("popped", lambda n: b"N" + b"2" * (2047 + n) + b"0" * 2000 + b"."),
])


# Marks, 256.

families("marks", [
    ("open", lambda n: b"(" * (256 + n) + b"N."),
    ("used", lambda n: b"(" * (256 + n) + b"1" * 200 + b"(" * 200 + b"N."),
    ("nested_lists", lambda n: b"(" * (256 + n) + b"l" * (256 + n) + b"0N."),
])


# Memo, 1,024 different numbers.

def puts(count, code):
    return b"".join(code(i) for i in range(count))


families("memo", [
    ("long_binput", lambda n: b"N" + puts(1024 + n, lambda i: b"r" + u32(i)) + b"."),
    ("put", lambda n: b"N" + puts(1024 + n, lambda i: b"p%d\n" % i) + b"."),
    ("far", lambda n: b"N" + puts(1024 + n, lambda i: b"r" + u32(2 ** 32 - 1 - 4001 * i)) + b"."),
    ("binput_last", lambda n: b"N" + puts(1023 + n, lambda i: b"r" + u32(i + 256)) + b"q\x05."),
    ("again", lambda n: b"N" + puts(1024 + n, lambda i: b"r" + u32(i))
     + b"0]q\x05p1023\nr\0\0\0\0h\x05\x86."),
    ("same_number", lambda n: b"N" + b"q\x05p5\nr\x05\0\0\0" * 400
     + puts(1023 + n, lambda i: b"r" + u32(i + 6)) + b"."),
])


# Nodes, 4,096.

def nodes_by(last, makes=1):
    """Make and drop all but the last ones, so that neither stack nor values are met."""
    return lambda n: b"N0" * (4096 + n - makes) + last + b"."


families("nodes", [
    ("none", nodes_by(b"N")),
    ("list", nodes_by(b"]")),
    ("dict", nodes_by(b"}")),
    ("tuple", nodes_by(b")")),
    ("text", nodes_by(b"S'a'\n")),
    ("float", nodes_by(b"F1.5\n")),
    ("global", nodes_by(GLOBAL)),
    ("mark_list", nodes_by(b"(l")),
    ("tuple3", nodes_by(b"N22\x87", 2)),
    ("object", nodes_by(GLOBAL + b")R", 3)),
    ("newobj", nodes_by(GLOBAL + b")\x81", 3)),
    ("set", nodes_by(SET + b")R", 3)),
    ("shared", nodes_by(b"]q\0h\0h\x00222(t", 2)),
    ("build", nodes_by(GLOBAL + b")RNbNb", 5)),
])


# Links, 8,192: tuples of 1,024 that are dropped again, a rest, then the opcode in question.

def links(count):
    """An opcode run that makes this many links and leaves nothing; some nodes, little stack."""
    run = b"N" + b"2" * 1023
    full, rest = divmod(count, 1024)
    text = (b"(" + run + b"t0") * full
    if rest:
        text += b"(N" + b"2" * (rest - 1) + b"t0"
    return text


def links_by(last, makes):
    return lambda n: links(8192 + n - makes) + last + b"."


families("links", [
    ("list", links_by(b"(NNNl", 3)),
    ("tuple", links_by(b"(NNNNt", 4)),
    ("dict", links_by(b"(NNNNd", 4)),
    ("appends", links_by(b"](NNNe", 3)),
    ("setitems", links_by(b"}(NNNNu", 4)),
    ("append", links_by(b"]Na", 1)),
    ("setitem", links_by(b"}NNs", 2)),
    ("tuple1", links_by(b"N\x85", 1)),
    ("tuple2", links_by(b"NN\x86", 2)),
    ("tuple3", links_by(b"NNN\x87", 3)),
    ("append_many", lambda n: b"]q\0N" + b"q\x010h\0" + b"h\x01a" * (8192 + n) + b"0N."),
    ("setitem_many", lambda n: b"}q\0Nq\x010h\0" + b"h\x012s" * (4095 + (n + 1) // 2) + b"0"
     + links(2 + n - (n + 1) // 2 * 2) + b"N."),
    ("appends_many", lambda n: b"]" + (b"(N" + b"2" * 1023 + b"e") * 8 + b"(" + b"N" * max(n, 0) + b"e0N."),
    ("setitems_same_key", lambda n: b"}" + (b"(N" + b"2" * 1023 + b"u") * 7
     + b"(N" + b"2" * (1023 + 2 * n) + b"u0N."),
    ("dict_many", lambda n: (b"(N" + b"2" * 1023 + b"d0") * 7 + b"(N" + b"2" * (1023 + 2 * n) + b"d0N."),
    ("empty_ones", lambda n: links(8192 + n) + b"])}(l(t(d](e}(u" + GLOBAL + b")RNb."),
])


# Depth, 64. The argument is the whole tree's depth.

def depth_families():
    def pairs(n):
        return b"NN" + b"\x86N" * (n - 2) + b"\x86."

    def keys(n):
        return b"}" * (n - 1) + b"NN" + b"sN" * (n - 2) + b"s."

    def sets(n):
        # A set is two levels with its argument; an odd rest is a tuple around it.
        return SET * (n // 2) + b")R" + b"\x85\x85R" * (n // 2 - 1) + b"\x85" * (n % 2) + b"."

    def set_lists(n):
        return (SET + b"](") * (n // 2) + b"N" * (n % 2) + b"e\x85R" * (n // 2) + b"."

    def arguments(n):
        return GLOBAL * (n // 2) + b")R" + b"\x85R" * (n // 2 - 1) + b"\x85" * (n % 2) + b"."

    def states(n):
        return (GLOBAL + b")R") * (n - 1) + b"b" * (n - 2) + b"."

    def shared(n):
        # A part of depth 30, once at the top and once n - 30 levels down.
        return b")" + b"\x85" * 29 + b"q\0h\0" + b"\x85" * (n - 31) + b"\x86."

    def shared_deep_first(n):
        return b")" + b"\x85" * 29 + b"q\0" + b"\x85" * (n - 31) + b"h\0\x86."

    def in_progress(n):
        return b"]q\0" + b"]" * (n - 2) + b"h\0" + b"a" * (n - 1) + b"."

    def shared_in_progress(n):
        # The finished list holds a None for itself; it comes again further down.
        return b"]q\0h\0a" + b"h\0" + b"\x85" * (n - 3) + b"\x86."

    def long_argument(n):
        return SET + b")" + b"\x85" * (n - 2) + b"\x85R."

    def dropped_argument(n):
        return SET + b"}N)" + b"\x85" * (n - 3) + b"s\x85R."

    def object_none(n):
        # The object within its own arguments is None there: args ([..[obj]..],).
        inner = b"]" * (n - 4) + b"h\x01" + b"a" * (n - 3)
        return GLOBAL + b"]q\0\x85q\x02Rq\x01h\0" + inner + b"00h\x02\x85."

    return [
        ("lists", lambda n: b"]" * n + b"a" * (n - 1) + b"."),
        ("mark_lists", lambda n: b"(" * n + b"l" * n + b"."),
        ("tuples", lambda n: b")" + b"\x85" * (n - 1) + b"."),
        ("tuples_none", lambda n: b"N" + b"\x85" * (n - 1) + b"."),
        ("pairs", pairs),
        ("dict_values", lambda n: b"}K\x01" * (n - 1) + b"N" + b"s" * (n - 1) + b"."),
        ("dict_keys", keys),
        ("sets", sets), ("set_lists", set_lists), ("arguments", arguments), ("states", states),
        ("shared", shared), ("shared_deep_first", shared_deep_first), ("in_progress", in_progress),
        ("shared_in_progress", shared_in_progress), ("long_argument", long_argument),
        ("dropped_argument", dropped_argument), ("object_none", object_none),
        ("set_inside", lambda n: SET + b")R" + b"\x85" * (n - 2) + b"."),
        ("object_inside", lambda n: GLOBAL + b")R" + b"\x85" * (n - 2) + b"."),
        ("global_inside", lambda n: GLOBAL + b"\x85" * (n - 1) + b"."),
    ]


families("depth", [(key, lambda n, maker=maker: maker(64 + n)) for key, maker in depth_families()])


# Values, 2,048. The argument is the whole tree's number of values.

def run(count):
    """This many Nones on the stack as one node."""
    return b"N" + b"2" * (count - 1) if count else b""


def values_families():
    def shared(n):
        # 20 times a list of 99 items, then single values.
        return b"(" + run(99) + b"lq\x000(" + b"h\0" * 20 + run(n - 2001) + b"t."

    def doubled(n):
        # 2^10 - 1 values by doubling, placed twice, then single values.
        return b"N" + b"2\x86" * 9 + b"q\x000(h\0h\0" + run(n - 2047) + b"t."

    def keys(n):
        # In two batches here and below: with its container one batch would be 2,049 on the stack.
        return b"}(" + run(1000) + b"u(" + run((n - 1) // 2 * 2 - 1000) + b"u" + b"\x85" * (1 - n % 2) + b"."

    def set_items(n):
        return SET + b"(" + run(n - 2) + b"l\x85R."

    def kept_set(n):
        # A set of one item by its table, 1,002 values by its argument, at two places.
        return SET + b"(" + run(1000) + b"l\x85Rq\x000(h\0h\0" + run(n - 2005) + b"t."

    def dropped(n):
        return SET + b"}(" + run((n - 2) // 2 * 2) + b"u\x85R" + (b"\x85" if n % 2 else b"") + b"."

    def objects(n):
        return b"(" + b"".join([GLOBAL + b")R" if i == 0 else b"2" for i in range((n - 1) // 2)]) \
            + run((n - 1) % 2) + b"t."

    def empty_sets(n):
        return b"(" + SET + b")R" + b"2" * ((n - 1) // 2 - 1) + run((n - 1) % 2) + b"l."

    def in_progress(n):
        return b"]q\0(h\0" + b"2" * 999 + b"e(h\0" + b"2" * (n - 1002) + b"e."

    def kept_collapsed(n):
        # A dict of one entry by its table, 801 values by its entries, at two places.
        return b"}(" + run(800) + b"uq\x000(h\0h\0" + run(n - 1603) + b"t."

    return [
        ("flat_tuple", lambda n: b"(" + run(n - 1) + b"t."),
        ("flat_list", lambda n: b"](" + run(1000) + b"e(" + run(n - 1001) + b"e."),
        ("ints", lambda n: b"(" + b"".join(b"M" + i.to_bytes(2, "little") for i in range(n - 1)) + b"l."),
        ("shared", shared), ("doubled", doubled), ("keys", keys), ("set_items", set_items),
        ("kept_set", kept_set), ("dropped", dropped), ("objects", objects), ("empty_sets", empty_sets),
        ("in_progress", in_progress), ("kept_collapsed", kept_collapsed),
    ]


families("values", [(key, lambda n, maker=maker: maker(2048 + n)) for key, maker in values_families()])


# Text, 65,536. The argument is the whole tree's text.

def chunk(count, byte=b"x"):
    return b"T" + u32(count) + byte * count


def text_families():
    def shared(n):
        return b"(U\xff" + b"x" * 255 + b"2" * 256 + chunk(n - 257 * 255) + b"t."

    def pair(n):
        return chunk(n // 2) + b"2" + chunk(n % 2) + b"\x87."

    def repaired(n):
        bad = n // 3
        return b"X" + u32(bad + n % 3) + b"\xff" * bad + b"a" * (n % 3) + b"."

    def latin(n):
        return b"V" + b"\xe9" * (n // 2) + b"a" * (n % 2) + b"\n."

    def escaped(n):
        # Escapes shrink: 10,000 characters from 40,000 bytes, five times through the memo, and a rest.
        return b"(S'" + b"\\x41" * 10000 + b"'\n2222" + chunk(n - 50000) + b"t."

    def names(n):
        return b"(cm\n" + b"n" * 999 + b"\n" + b"2" * 64 + chunk(n - 65000) + b"t."

    def bad_names(n):
        # Each module is 300 bytes of U+FFFD from 100 bad ones.
        return b"(c" + b"\xff" * 100 + b"\nC\n" + b"2" * 216 + chunk(n - 217 * 301) + b"t."

    def objects(n):
        return b"(cmodule\n" + b"C" * 994 + b"\n)R" + b"2" * 64 + chunk(n - 65000) + b"t."

    def class_not_counted(n):
        # The Global below the object is no child: only the object's own names count.
        return b"c" + b"m" * 20000 + b"\nC\n)R2" + chunk(n - 2 * 20001) + b"\x87."

    def dropped_argument(n):
        return SET + chunk(n - 65000) + b"\x85R" + b"(U\xfa" + b"x" * 250 + b"2" * 259 + b"t\x86."

    def same_keys(n):
        # Keys that collapse count each time.
        return b"}(U\xff" + b"k" * 255 + b"q\0N" + b"h\0N" * 256 \
            + b"u" + chunk(n - 257 * 255) + b"\x86."

    def set_items(n):
        return SET + b"(" + b"U\xff" + b"k" * 255 + b"2" * 256 + chunk(n - 257 * 255) + b"l\x85R."

    return [("shared", shared), ("pair", pair), ("repaired", repaired), ("latin", latin),
            ("escaped", escaped), ("names", names),
            ("bad_names", bad_names), ("objects", objects), ("class_not_counted", class_not_counted),
            ("dropped_argument", dropped_argument), ("same_keys", same_keys), ("set_items", set_items)]


families("text", [(key, lambda n, maker=maker: maker(65536 + n)) for key, maker in text_families()])


# Two or three due at once: which comes first. The distance moves the later one.

DEEP = b"\x85" * 70
WIDE = b"(" + run(2047) + b"t"


def full_nodes(left):
    return b"N0" * (4096 - left)


families("order", [
    ("links_nodes", lambda n: links(8192 + n - 1) + b"N0" * (4096 - 16 - 1) + b"N\x85."),
    ("links_nodes_both", lambda n: links(8190) + b"N0" * (4096 - 18 + n) + b"N2222\x87\x87."),
    ("nodes_stack", lambda n: full_nodes(1) + b"N" + b"2" * (2047 + n) + b"N."),
    ("stack_mark_list", lambda n: full_nodes(1) + b"N" + b"2" * (2046 + n) + b"(l."),
    ("float_nodes", lambda n: full_nodes(max(-n, 0)) + b"N0" * max(n, 0) + b"Finf\n."),
    ("literal_nodes", lambda n: full_nodes(-n if n < 0 else 0) + b"Ix\n."),
    ("get_stack", lambda n: b"N" + b"2" * (2046 + n) + b"h\x09."),
    ("put_memo", lambda n: b"N" + puts(1024 + min(n, 0), lambda i: b"r" + u32(i)) + b"0q\x09."),
    ("append_kind_links", lambda n: links(8192 + min(n, 0)) + b"}Na."),
    ("setitems_odd_links", lambda n: links(8191 + n if n < 1 else 8192) + b"}(NNNu."),
    ("class_nodes", lambda n: full_nodes(2 + (n < 0)) + b"NNR."),
    ("arguments_nodes", lambda n: full_nodes(2 + (n < 0)) + GLOBAL + b"NR."),
    ("depth_values", lambda n: WIDE + b"N" + b"\x85" * (62 + n) + b"\x86."),
    ("values_depth", lambda n: b"N" + b"\x85" * 70 + b"(" + run(1976 + n) + b"t\x86."),
    ("depth_text", lambda n: chunk(40000) + b"2\x86" + b"\x85" * (62 + n) + b"."),
    ("values_text", lambda n: b"(U\xff" + b"x" * 255 + b"2" * (2046 + n) + b"t."),
    ("text_values", lambda n: b"(U\x20" + b"x" * 32 + b"2" * (2046 + n) + b"t."),
    ("depth_values_text", lambda n: b"(U\xff" + b"x" * 255 + b"2" * (2046 + n) + b"t"
     + b"\x85" * (62 + n) + b"."),
    ("stop_empty_deep", lambda n: b"N" + DEEP + b"0" * (1 + n if n > -2 else 0) + b"."),
    ("trailing_deep", lambda n: b")" + b"\x85" * (63 + n) + b".x"),
    ("trailing_text", lambda n: chunk(32768 + n) + b"2\x86.xyz"),
])


def fixed_list():
    """(name, pickle maker) for each family at one below, at and one above its number."""
    return [("%s %+d" % (name, n), maker, n) for name, maker in FAMILIES for n in (-1, 0, 1)]


FIXED = fixed_list()


def limit_case(d, n):
    """The fixed list in order, then families at random distances with a change before or after."""
    if n < len(FIXED):
        name, maker, distance = FIXED[n]
        return maker(distance)
    maker = d.pick(FAMILIES)[1]
    data = maker(d.pick([-1, 0, 1]))
    x = d.random()
    if x < 0.3:
        return b"\x80\x02" + data
    if x < 0.5:
        return data[:-1] + d.pick([b"0N.", b"\x85.", b"2\x86.", b"q\0h\0\x86.", b"(t.", b"N."])
    if x < 0.7:
        return data + d.bytes(d.between(1, 3))
    return d.pick([b"N0", b"(1", b"]0", b"N\x850", b"Nq\x070"]) * d.between(1, 2) + data

"""Small graphs, all of them: two containers of every kind that contain each other and themselves in every way, and three lists; sets
and classes over every kind of argument. Whatever is kept, copied or None inside itself shows here."""
import itertools

SET, FROZENSET, CLASS = b"c__builtin__\nset\n", b"c__builtin__\nfrozenset\n", b"cm\nC\n"
CELL = 100      # memo number of what holds node i's items is i + CELL, of its arguments i + ARGUMENTS
ARGUMENTS = 200


def get(n):
    return b"h%c" % n


def put(n):
    return b"q%c" % n


def over(before, cell, call):
    """A node made of one argument, whose items come later."""
    return lambda i: before + cell + put(i + CELL) + b"\x85" + put(i + ARGUMENTS) + call + put(i) + b"0"


def bare(cell):
    return lambda i: cell + put(i) + put(i + CELL) + put(i + ARGUMENTS) + b"0"


def append(i, j):
    return get(i + CELL) + get(j) + b"a0"


def set_value(i, j):
    return get(i + CELL) + b"K%c" % j + get(j) + b"s0"


def set_key(i, j):
    return get(i + CELL) + get(j) + b"Ns0"


def build(i, j):
    """The last state stays."""
    return get(i) + get(j) + b"\x85b0"


# How a node is made, and how another comes into it.
KINDS = [
    (bare(b"]"), append),
    (bare(b"}"), set_value),
    (bare(b"}"), set_key),
    (over(b"", b"]", b""), append),             # a list in a tuple
    (over(SET, b"]", b"R"), append),
    (over(FROZENSET, b"}", b"R"), set_key),     # an argument that is dropped
    (over(CLASS, b"]", b"R"), append),
    (over(CLASS, b"]", b"\x81"), append),
    (over(CLASS, b"]", b"R"), build),
]


def graph(nodes, links, roots):
    """Make the nodes, put each into others, and leave a tuple of what the roots name."""
    made = b"".join(make(i) for i, (make, _) in enumerate(nodes))
    made += b"".join(nodes[i][1](i, j) for i, j in links)
    return made + b"(" + b"".join(map(get, roots)) + b"t."


def subsets(links):
    return itertools.chain.from_iterable(itertools.combinations(links, n) for n in range(len(links) + 1))


def pairs():
    roots = [(0, 1), (ARGUMENTS, 0, 1), (1, ARGUMENTS, 0)]
    links = list(subsets([(0, 0), (0, 1), (1, 0), (1, 1)]))
    return (graph(nodes, some, root) for nodes in itertools.product(KINDS, KINDS) for some in links for root in roots)


def triples():
    links = subsets(list(itertools.product(range(3), range(3))))
    return (graph([KINDS[0]] * 3, some, root) for some in links for root in ((0, 1, 2), (2, 1, 0)))


# Values of every kind.
ITEMS = [b"N", b"\x88", b"K\1", b"G?\xf0\0\0\0\0\0\0", b"U\1a", b"X\1\0\0\0a", b"]", b"](K\2K\1K\2e", b")", b"K\2K\1K\2\x87",
         b"}", b"}K\1Ns", SET + b"]K\1a\x85R", FROZENSET + b")R", CLASS, CLASS + b")R", CLASS + b")\x81"]


def arguments():
    """Each class called with no argument, one of every kind, and two; alone, shared, and inside a list that is its argument."""
    for name, call in itertools.product((SET, FROZENSET, CLASS), (b"R", b"\x81")):
        yield name + b")" + call + b"."
        for item in ITEMS:
            yield name + item + b"\x85" + call + b"."
            yield name + item + b"\x85" + call + b"2\x86."
            yield name + item + b"N\x86" + call + b"."
            yield b"]q\0" + name + b"h\0" + item + b"\x86\x85" + call + b"ah\0\x86."
        yield b"]q\0" + name + b"h\0\x85" + call + b"ah\0\x86."


def graphs():
    yield from pairs()
    yield from triples()
    yield from arguments()

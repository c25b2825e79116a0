"""Pickles that Python's own reader takes otherwise than the Rust and this one: what each shows, and the pickle, by the headings of
docs/DIFFERENCES.md. What the readers make of them is theirs to say (tests/differences)."""

SET = b"c__builtin__\nset\n"
NAMESPACE = b"cargparse\nNamespace\n"
DEQUE = b"ccollections\ndeque\n"

LITERALS = [
    ("INST", b"(i__builtin__\nint\n."),
    ("OBJ", b"(c__builtin__\nint\no."),
    ("an unknown escape in STRING", b"S'\\q'\n."),
    ("hex with a plus in STRING", b"S'\\x+f'\n."),
    ("hex with a plus in UNICODE", b"V\\u+041\n."),
    ("UNICODE: a `\\u` after another backslash", b"V\\\\u0041\n."),
    ("UNICODE: surrogates, also as a pair", b"V\\ud83d\\ude00\n."),
    ("UNICODE: a `\\U` above 10FFFF", b"V\\U00110000\n."),
    ("BINUNICODE: a surrogate as UTF-8 would write it", b"X\3\0\0\0\xed\xa0\x80."),
    ("BINUNICODE: other ill-formed UTF-8", b"X\1\0\0\0\xff."),
    ("INT outside i64", b"I9223372036854775808\n."),
    ("LONG outside i64", b"L9223372036854775808L\n."),
    ("LONG1 outside i64", b"\x8a\x09\0\0\0\0\0\0\0\x80\0."),
    ("INT with a base", b"I0x10\n."),
    ("LONG with leading zeros", b"L010L\n."),
    ("INT with an underscore", b"I1_0\n."),
    ("White_Space beyond ASCII around a number", b"I5\xc2\xa0\n."),
    ("a CR before the newline", b"I01\r\n."),
    ("a float literal of 17 digits", b"F0.30000000000000004\n."),
    ("True, 1 and 1.0 as keys", b"}(\x88K\1K\1K\2G?\xf0\0\0\0\0\0\0K\3u."),
    ("a byte text and a Unicode text as keys", b"}(U\1aK\1X\1\0\0\0aK\2u."),
    ("a list as a key", b"}]K\1s."),
]

MACHINE = [
    ("marks are not on the stack: POP never removes one", b"(0N."),
    ("a tuple that contains itself, as Python writes it at protocol 0, with a POP for its mark", b"((lp0\n(g0\ntp1\na00g1\n."),
    ("the same inside a tuple: another value, and no refusal", b"(I5\n((lp0\n(g0\ntp1\na00g1\ntp2\n."),
    ("TUPLE1 takes a value from below a mark", b"N(\x85t."),
    ("a mark that stood above the stack, and does not any more when it is used", b"N(0Nt."),
    ("STOP with an open mark", b"N(."),
]

BUILDING = [
    ("a list that is filled after `set` was called on it", SET + b"]q\0\x85Rh\0K\5a0."),
    ("a set of a dict", SET + b"}K\1K\2s\x85R."),
    ("a set of a set", SET + SET + b"]K\1a\x85R\x85R."),
    ("a set of a text", SET + b"U\1a\x85R."),
    ("a list that contains itself", b"]q\0h\0a."),
    ("a dict that contains itself", b"}q\0K\1h\0s."),
    ("two lists that contain each other", b"]q\0]q\1h\0aah\1\x86."),
    ("an object that stands in its own arguments, and the arguments come first", DEQUE + b"]q\0\x85q\2Rq\1h\0h\1a00h\2h\1\x86."),
    ("the same, and the object comes first", DEQUE + b"]q\0\x85q\2Rq\1h\0h\1a00h\1h\2\x86."),
]

CALLS = [
    ("GLOBAL of a module that is not there", b"cno_such_module\nC\n."),
    ("REDUCE of a function", b"c__builtin__\nlen\nU\3abc\x85R."),
    ("NEWOBJ of a class", b"c__builtin__\nint\nK\5\x85\x81."),
    ("BUILD", NAMESPACE + b")R}U\1aK\1sb."),
    ("a second BUILD", NAMESPACE + b")R}U\1aK\1sb}U\1bK\2sb."),
    ("BUILD on a set", SET + b")RNb."),
    ("NEWOBJ of `set`", SET + b")\x81."),
    ("`set` with two arguments", SET + b"]]\x86R."),
    ("an OrderedDict that is filled by SETITEM", b"ccollections\nOrderedDict\n)RK\1K\2s."),
    ("a defaultdict that is filled by SETITEMS", b"ccollections\ndefaultdict\nc__builtin__\nint\n\x85R(K\1K\2u."),
    ("a deque that is filled by APPEND", DEQUE + b")RK\1a."),
]

TABLES = [LITERALS, MACHINE, BUILDING, CALLS]
PICKLES = [data for table in TABLES for _, data in table]

"""From tables to Python's values: nothing is lost, or the record is named where Python would lose something."""

import io
import pickle
import struct
import unittest

from lost import first_lost
from support import described, kinds, qelemvir, stored, stored_values, table, tables

NONE, TRUE = (tables.NONE, None), (tables.BOOL, 1)
ONE, TWO = (tables.INT, 1), (tables.INT, 2)
HALF, ONE_FLOAT = (tables.FLOAT, 0x3FE << 52), (tables.FLOAT, 0x3FF << 52)
MINUS_ZERO, ZERO = (tables.FLOAT, 1 << 63), (tables.FLOAT, 0)
LIST, DICT, SET = (tables.LIST, []), (tables.DICT, []), (tables.SET, [])


def a_tuple(*items):
    return tables.TUPLE, list(items)


def an_object(args, *state):
    return tables.OBJECT, (b"m", b"C", 0, [a_tuple(*args)] + list(state))


def bits(value):
    return struct.pack("<d", value).hex()


class Kept(unittest.TestCase):
    """The value says all that the table says: the table can be made from it again."""

    def kept(self, made):
        """Whether Python can hold it; if not, the right record is named."""
        lost = first_lost(made)
        try:
            value = made.value()
        except qelemvir.Unholdable as why:
            self.assertEqual(why.record, lost)
            return False
        self.assertIsNone(lost)
        self.assertEqual((list(made.words), made.text), tables.table(described(value)))
        return True

    def test_each_kind(self):
        made = qelemvir.loads(
            b"(NI01\nK\x05G?\xe0\0\0\0\0\0\0U\x01aX\x02\0\0\0\xc3\xa9](K\x01K\x02e)c__builtin__\nset\n]K\x01a\x85R"
            b"c__builtin__\nfrozenset\n]K\x01a\x85R}U\x01kNscm\nn\ncm\nC\nK\x01\x85R}bcm\nC\n)\x81t.")
        self.assertEqual(made, (
            None, True, 5, 0.5, b"a", "é", [1, 2], (), {1}, frozenset({1}), {b"k": None}, qelemvir.Global("m", "n"),
            qelemvir.Object("m", "C", (1,), False, {}, True), qelemvir.Object("m", "C", (), True, None, False)))
        kinds_found = [type(part) for part in made]
        self.assertEqual(kinds_found, [type(None), bool, int, float, bytes, str, list, tuple, set, frozenset, dict, qelemvir.Global,
                                       qelemvir.Object, qelemvir.Object])

    def test_samples(self):
        held = [self.kept(table(sample)) for sample in tables.samples()]
        self.assertGreater(held.count(True), 50)

    def test_stored(self):
        held = []
        for data, _, _ in stored_values():
            with self.subTest(data.hex()):
                held.append(self.kept(qelemvir.read_prefix(data)[0]))
        self.assertGreater(held.count(True), 200)
        self.assertGreater(held.count(False), 5)

    def test_loads_prefix(self):
        for data, _, length in stored_values():
            made, _ = qelemvir.read_prefix(data)
            if first_lost(made) is None:
                value, read = qelemvir.loads_prefix(data)
                self.assertEqual((repr(value), read), (repr(made.value()), length))

    def test_floats_keep_their_bits(self):
        for word in (0, 1 << 63, 1, 0x7FF << 52, 0xFFF << 52, 0x7FF8 << 48, 0xFFF8 << 48, (0x7FF << 52) + 1, (0xFFF << 52) + 12345):
            value = table((tables.FLOAT, word)).value()
            self.assertEqual(bits(value), struct.pack("<Q", word).hex())

    def test_integers(self):
        for value in (0, -1, 2 ** 63 - 1, -2 ** 63):
            self.assertEqual(table((tables.INT, value % 2 ** 64)).value(), value)

    def test_a_state_of_none_is_not_no_state(self):
        without, none = table(an_object([])).value(), table(an_object([], NONE)).value()
        self.assertEqual((without.state, without.has_state, none.state, none.has_state), (None, False, None, True))
        both = table((tables.SET, [an_object([]), an_object([], NONE)]))
        self.assertEqual(both.value(), {without, none})

    def test_each_place_has_its_own(self):
        first, second = qelemvir.loads(b"]q\0h\0\x86.")
        first.append(1)
        self.assertEqual((first, second), ([1], []))

    def test_nans_are_all_kept(self):
        nans = [(tables.FLOAT, 0xFFF8 << 48), (tables.FLOAT, (0x7FF << 52) + 1), (tables.FLOAT, 0x7FF8 << 48)]
        due = [struct.pack("<Q", word).hex() for _, word in nans]
        self.assertEqual(sorted(map(bits, table((tables.SET, nans)).value())), sorted(due))
        entries = table((tables.DICT, [part for n, nan in enumerate(nans) for part in (nan, (tables.INT, n))])).value()
        self.assertEqual([(bits(key), n) for key, n in entries.items()], list(zip(due, range(3))))
        within = table((tables.FROZENSET, [a_tuple(nan) for nan in nans])).value()
        self.assertEqual(sorted(bits(nan) for nan, in within), sorted(due))


class Lost(unittest.TestCase):
    """Where Python would lose something, the record is named."""

    def named(self, described_value, record):
        made = table(described_value)
        with self.assertRaises(qelemvir.Unholdable) as caught:
            made.value()
        self.assertEqual(caught.exception.record, record)
        self.assertEqual(first_lost(made), record)
        self.assertIn("record %d " % record, str(caught.exception))

    def test_what_cannot_be_hashed(self):
        for part in (LIST, DICT, SET, a_tuple(LIST), a_tuple(a_tuple(DICT)), an_object([LIST]), an_object([], DICT)):
            for kind in (tables.SET, tables.FROZENSET):
                self.named((kind, [part]), 1)
            self.named((tables.DICT, [part, NONE]), 1)
            self.named((tables.LIST, [NONE, (tables.DICT, [ONE, NONE, part, NONE])]), 5)

    def test_what_can(self):
        for part in (NONE, TRUE, ONE, HALF, (tables.BYTES, b"a"), (tables.STRING, b"a"), a_tuple(ONE), (tables.FROZENSET, [ONE]),
                     (tables.GLOBAL, (b"m", b"n")), an_object([ONE], NONE)):
            self.assertEqual(len(table((tables.SET, [part])).value()), 1)

    def test_what_python_takes_as_equal(self):
        self.named((tables.SET, [TRUE, ONE]), 2)
        self.named((tables.SET, [TRUE, ONE_FLOAT]), 2)
        self.named((tables.SET, [ONE, TWO, ONE_FLOAT]), 3)
        self.named((tables.FROZENSET, [(tables.BOOL, 0), ZERO]), 2)
        self.named((tables.SET, [MINUS_ZERO, ZERO]), 2)
        self.named((tables.DICT, [TRUE, LIST, ONE, NONE]), 3)
        self.named((tables.DICT, [TRUE, (tables.LIST, [NONE, NONE]), ONE, NONE]), 5)
        self.named((tables.SET, [a_tuple(ONE), a_tuple(ONE_FLOAT)]), 3)
        self.named((tables.SET, [(tables.FROZENSET, [ONE]), (tables.FROZENSET, [ONE_FLOAT])]), 3)
        self.named((tables.SET, [an_object([ONE]), an_object([ONE_FLOAT])]), 4)
        self.named((tables.DICT, [NONE, (tables.SET, [ONE, ONE_FLOAT])]), 4)

    def test_what_it_does_not(self):
        text, kept = (tables.BYTES, b"a"), (tables.STRING, b"a")
        self.assertEqual(table((tables.SET, [text, kept])).value(), {b"a", "a"})
        self.assertEqual(table((tables.SET, [a_tuple(), (tables.FROZENSET, [])])).value(), {(), frozenset()})

    def test_document_01s_keys(self):
        with self.assertRaises(qelemvir.Unholdable) as caught:
            qelemvir.loads(b"}(\x88K\1K\1K\2G?\xf0\0\0\0\0\0\0K\3u.")
        self.assertEqual(caught.exception.record, 3)


class Outside(Exception):
    """The pickle names more than sets."""


class Plain(pickle.Unpickler):
    """Python's own reader, of plain data and sets. Python 2's texts are bytes."""

    def __init__(self, data):
        super().__init__(io.BytesIO(data), encoding="bytes")

    def find_class(self, module, name):
        if module == "__builtin__" and name in ("set", "frozenset"):
            return super().find_class(module, name)
        raise Outside


def contains_itself(value, above=()):
    if type(value) not in (list, tuple, dict):
        return False
    if id(value) in above:
        return True
    parts = list(value.items()) if type(value) is dict else value
    return any(contains_itself(part, above + (id(value),)) for part in parts)


class BesidePython(unittest.TestCase):
    """Values of plain data are those that Python's own reader gives. Left out is what differs in meaning: classes and objects,
    which are names here; structures that contain themselves, where None stands inside; and what the library refuses: integers
    above 64 bits, float literals that it does not read exactly."""

    REFUSED = {8, 9, 20}

    def agree(self, data):
        """Whether there was something to compare."""
        try:
            due = Plain(data).load()
        except Outside:
            return False
        if contains_itself(due):
            return False
        try:
            value = qelemvir.loads(data)
        except qelemvir.Refused as why:
            self.assertIn(why.number, self.REFUSED, data.hex())
            return False
        self.assertEqual(alike_values(value), alike_values(due), data.hex())
        return True

    def test_stored(self):
        compared = [self.agree(data) for kind, data, _, _ in stored.read() if kind in ("python", "sheet")]
        self.assertGreater(sum(compared), 10)

    def test_generated(self):
        for kind, least in (("sheet", 40), ("python", 15)):
            compared = [self.agree(kinds.case(11, kind, n)) for n in range(60)]
            self.assertGreater(sum(compared), least, kind)


def alike_values(value):
    """A form in which only values of the same types and bits are equal; sets and dicts without order."""
    kind = type(value)
    if kind is float:
        return kind, bits(value)
    if kind in (list, tuple):
        return kind, [alike_values(item) for item in value]
    if kind in (set, frozenset):
        return kind, sorted(repr(alike_values(item)) for item in value)
    if kind is dict:
        return kind, sorted(repr((alike_values(key), alike_values(part))) for key, part in value.items())
    return kind, value


if __name__ == "__main__":
    unittest.main()

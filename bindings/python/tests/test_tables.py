"""Tables of the caller's making: what is well formed, the listing, the order, writing."""

import itertools
import unittest

from support import Draw, qelemvir, scores, stored_values, table, tables

NAMED = ("global", "object")


class Made(unittest.TestCase):
    def test_samples_and_their_listing(self):
        for sample in tables.samples():
            words, text = tables.table(sample)
            made = qelemvir.Table(words, text)
            self.assertEqual((list(made.words), made.text), (words, text))
            self.assertEqual(made.list().encode("ascii"), tables.listing(words, text))
            lines = [line.split("\t") for line in made.list().splitlines()]
            self.assertEqual([(str(r.depth), r.kind) for r in made.records()], [(depth, kind) for depth, kind, *_ in lines])

    def test_broken_ones_are_refused(self):
        for what, words, count, text in tables.broken():
            # The call takes a count of its own; here the words are the records.
            if count != len(words) // 4:
                continue
            with self.subTest(what), self.assertRaises(qelemvir.Refused) as caught:
                qelemvir.Table(words, text)
            self.assertEqual((caught.exception.number, caught.exception.detail), (21, 1))

    def test_scores(self):
        for n in range(300):
            value = scores.value(Draw(2, 97, n))
            number, detail, *due = scores.score(value)
            made = qelemvir.Table(*tables.table(value))
            if number == 0:
                self.assertEqual(made.score(), tuple(due))
            else:
                with self.assertRaises(qelemvir.Refused) as caught:
                    made.score()
                self.assertEqual((caught.exception.number, caught.exception.name), (24, "SheetShape"))

    def test_words_that_are_none(self):
        for words in ([-1, 0, 0, 0], [1 << 64, 0, 0, 0]):
            with self.assertRaises(OverflowError):
                qelemvir.Table(words, b"")
        for words in ([0.0] * 4, ["0"] * 4):
            with self.assertRaises(TypeError):
                qelemvir.Table(words, b"")
        for words in ([], [0] * 3, [0] * 5):
            with self.assertRaises(qelemvir.Refused):
                qelemvir.Table(words, b"")

    def test_cannot_be_changed(self):
        made = table((tables.INT, 5))
        for name in ("words", "text", "count", "other"):
            with self.assertRaises(AttributeError):
                setattr(made, name, 0)
        self.assertEqual(repr(made), "<Table of 1 records and 0 bytes of text>")


class Order(unittest.TestCase):
    def test_known(self):
        one = (tables.INT, 1)
        ascending = [table(d) for d in [
            (tables.NONE, None), (tables.BOOL, 0), (tables.BOOL, 1), (tables.INT, 1 << 63), (tables.INT, (1 << 64) - 1), one,
            (tables.FLOAT, 0xFFF8 << 48), (tables.FLOAT, 1 << 63), (tables.FLOAT, 0), (tables.FLOAT, 0x7FF8 << 48),
            (tables.BYTES, b""), (tables.BYTES, b"a"), (tables.BYTES, b"ab"), (tables.STRING, b"a"),
            (tables.LIST, []), (tables.LIST, [one]), (tables.LIST, [one, one]), (tables.TUPLE, []), (tables.SET, [one]),
        ]]
        for (i, a), (k, b) in itertools.product(enumerate(ascending), repeat=2):
            self.assertEqual((a < b, a <= b, a == b, a != b, a >= b, a > b), (i < k, i <= k, i == k, i != k, i >= k, i > k))
        self.assertEqual(sorted(reversed(ascending)), ascending)

    def test_samples(self):
        made = [table(sample) for sample in tables.samples()]
        for a, b in itertools.product(made, repeat=2):
            self.assertEqual(a < b, b > a)
            self.assertEqual(a == b, (a.words, a.text) == (b.words, b.text))
            self.assertTrue(a != b or hash(a) == hash(b))

    def test_with_something_else(self):
        made = table((tables.INT, 5))
        self.assertNotEqual(made, 5)
        with self.assertRaises(TypeError):
            made < 5


class Writing(unittest.TestCase):
    def test_known(self):
        made = qelemvir.read(b"\x80\x02]q\0h\0K\x05a\x86.")
        self.assertEqual(made.to_bytes(), b"\x80\x02]K\x05a]K\x05a\x86.")

    def test_longest(self):
        made = table((tables.BYTES, b"\xff" * 65536))
        self.assertEqual((len(made.to_bytes()), len(made.list())), (65536 + 8, 4 * 65536 + 9))

    def test_reads_back(self):
        """The same value; one with a name that would not come back, as some here have, is not written."""
        refused = 0
        for made in [qelemvir.read_prefix(data)[0] for data, _, _ in stored_values()] + [table(v) for v in tables.named_in_lines()]:
            parts = [part for r in made.records() if r.kind in NAMED for part in r.content[:2]]
            if any("\n" in part or part.endswith("\r") for part in parts):
                refused += 1
                with self.assertRaises(qelemvir.Refused) as caught:
                    made.to_bytes()
                self.assertEqual((caught.exception.name, caught.exception.detail), ("UnwritableName", 0))
            else:
                self.assertEqual(qelemvir.read(made.to_bytes()), made)
        self.assertGreater(refused, 0)


if __name__ == "__main__":
    unittest.main()

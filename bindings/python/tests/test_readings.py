"""Both readings on the stored pickles, what they take as input, and threads."""

import array
import pickle
import sys
import threading
import unittest

from support import numbered_refusals, qelemvir, stored_refusals, stored_values

SHARED = b"\x80\x02]q\0h\0K\x05a\x86."


def refusal(call, data):
    """Number and detail, or None."""
    try:
        call(data)
    except qelemvir.Refused as why:
        return why.number, why.detail
    return None


class Stored(unittest.TestCase):
    def test_values(self):
        for data, (words, text), length in stored_values():
            with self.subTest(data.hex()):
                table, read = qelemvir.read_prefix(data)
                self.assertEqual((list(table.words), table.text, table.count), (words, text, len(words) // 4))
                self.assertEqual(read, length)
                if length == len(data):
                    self.assertEqual(qelemvir.read(data), table)
                else:
                    self.assertEqual(refusal(qelemvir.read, data), (11, 0))

    def test_refusals(self):
        for data, number, detail in stored_refusals():
            with self.subTest(data.hex()):
                for call in (qelemvir.read, qelemvir.read_prefix, qelemvir.loads, qelemvir.loads_prefix):
                    self.assertEqual(refusal(call, data), (number, detail))


class Nights(unittest.TestCase):
    def alone(self, data):
        """The four numbers of a sheet that is read by itself, and its table."""
        try:
            table = qelemvir.read(data)
        except qelemvir.Refused as why:
            return (why.number, why.detail, 0, 0), None
        return (0, 0, len(data), table.count), table

    def test_stored(self):
        pickles = [data for data, _, _ in stored_values()] + [data for data, _, _ in stored_refusals()]
        for night in (pickles, pickles[::-1], pickles[::7], pickles[:1], []):
            due = [self.alone(data) for data in night]
            sheets, last = qelemvir.read_many(night)
            self.assertEqual(sheets, [four for four, _ in due])
            read = [table for _, table in due if table]
            self.assertEqual(last, read[-1] if read else None)

    def test_refusals(self):
        sheets, last = qelemvir.read_many([b"", b"K\x05.", b"\x80\x07.", b"N.N."])
        self.assertEqual([sheet.number for sheet in sheets], [3, 0, 5, 11])
        self.assertEqual((str(sheets[2].refused), sheets[1].refused), (str(qelemvir.Refused(5, 7)), None))
        self.assertEqual(last.value(), 5)

    def test_bytes_of_all_kinds(self):
        sheets, last = qelemvir.read_many(iter((bytearray(SHARED), memoryview(SHARED), array.array("B", SHARED))))
        self.assertEqual((sheets, last.value()), ([(0, 0, 12, 5)] * 3, ([5], [5])))
        for night in ("N.", [b"N.", "N."], [5], None):
            with self.assertRaises(TypeError):
                qelemvir.read_many(night)


class PlainData(unittest.TestCase):
    def test_the_six(self):
        for data, byte in ((b"c", 0x63), (b"NR", 0x52), (b"N\x81", 0x81), (b"Nb", 0x62), (b"Np", 0x70), (b"g", 0x67)):
            for call in (qelemvir.read, qelemvir.read_prefix, qelemvir.loads, qelemvir.loads_prefix):
                self.assertEqual(refusal(lambda data: call(data, plain=True), data), (26, byte))

    def test_stored(self):
        """The same answer as the full reader's, or 26."""
        for data, (words, text), length in stored_values():
            with self.subTest(data.hex()):
                why = refusal(lambda data: qelemvir.read_prefix(data, plain=True), data)
                if why is None:
                    self.assertEqual(qelemvir.read_prefix(data, plain=True), (qelemvir.Table(words, text), length))
                    self.assertFalse({"set", "frozenset", "global", "object"} & {record.kind for record in qelemvir.read_prefix(data)[0].records()})
                else:
                    self.assertEqual(why[0], 26)
                    self.assertIn(why[1], b"cR\x81bpg")

    def test_behind_stop(self):
        self.assertEqual(qelemvir.loads_prefix(b"N.cm\nC\n.", plain=True), (None, 2))

    def test_many(self):
        sheets, last = qelemvir.read_many([b"N.", b"c\n\n.", b"K\x05.", b"NN"], plain=True)
        self.assertEqual(sheets, [(0, 0, 2, 1), (26, 0x63, 0, 0), (0, 0, 3, 1), (3, 0, 0, 0)])
        self.assertEqual(last.value(), 5)


class Inputs(unittest.TestCase):
    def test_bytes_of_all_kinds(self):
        for data in (SHARED, bytearray(SHARED), memoryview(SHARED), memoryview(b"x" + SHARED)[1:], array.array("B", SHARED),
                     memoryview(bytes(b for pair in zip(SHARED, SHARED) for b in pair))[::2]):
            self.assertEqual(qelemvir.loads(data), ([5], [5]))
            self.assertEqual(qelemvir.loads_prefix(data), (([5], [5]), 12))

    def test_nothing_else(self):
        for data in ("N.", 5, [78, 46], None):
            with self.assertRaises(TypeError):
                qelemvir.loads(data)

    def test_prefix_and_whole(self):
        self.assertEqual(qelemvir.loads_prefix(b"K\x05.K\x06."), (5, 3))
        self.assertEqual(refusal(qelemvir.loads, b"K\x05.K\x06."), (11, 0))

    def test_length(self):
        self.assertEqual(qelemvir.loads_prefix(b"N." + b"x" * 65534), (None, 2))
        self.assertEqual(refusal(qelemvir.loads_prefix, b"N." + b"x" * 65535), (2, 0))
        self.assertEqual(refusal(qelemvir.loads, b"N." + b"x" * 65535), (2, 0))

    def test_threads(self):
        data = list(stored_values())[::5]
        due = [qelemvir.read_prefix(pickled)[0].words for pickled, _, _ in data]
        different = []

        def reads():
            for _ in range(5):
                found = [qelemvir.read_prefix(pickled)[0].words for pickled, _, _ in data]
                if found != due:
                    different.append(found)

        threads = [threading.Thread(target=reads) for _ in range(4)]
        for thread in threads:
            thread.start()
        for thread in threads:
            thread.join()
        self.assertEqual(different, [])


class Refusals(unittest.TestCase):
    def test_words(self):
        with self.assertRaises(qelemvir.Refused) as caught:
            qelemvir.loads(b"i")
        why = caught.exception
        self.assertEqual((why.number, why.name, why.detail), (4, "UnsupportedOpcode", 0x69))
        self.assertEqual(str(why), "the opcode with byte 69 is not read (UnsupportedOpcode: number 4, detail 105)")

    def test_each_has_its_own(self):
        details = {10: range(1, 8), 21: (1, 2)}
        known = [qelemvir.Refused(number, detail) for number in numbered_refusals() for detail in details.get(number, (0,))]
        self.assertEqual(len({str(why).split(" (")[0] for why in known}), len(known))
        self.assertEqual(len({why.name for why in known}), len(numbered_refusals()))

    def test_names(self):
        """Those of crate refusal, with its numbers."""
        self.assertEqual({n: qelemvir.Refused(n, 0).name for n in numbered_refusals()}, numbered_refusals())

    def test_later_numbers(self):
        why = qelemvir.Refused(39, 3)
        self.assertEqual((why.name, str(why)), ("Other", "refused (Other: number 39, detail 3)"))
        self.assertEqual(str(qelemvir.Refused(10, 8)), "refused (Invalid: number 10, detail 8)")

    def test_can_be_sent_on(self):
        for why in (qelemvir.Refused(7, 4294967295), qelemvir.Unholdable(3, "is a list")):
            again = pickle.loads(pickle.dumps(why))
            self.assertEqual((type(again), str(again)), (type(why), str(why)))


class Classes(unittest.TestCase):
    def test_nothing_is_imported_or_called(self):
        self.assertNotIn("antigravity", sys.modules)
        value = qelemvir.loads(b"(cantigravity\nfly\ncos\n_exit\n(I3\ntRcno_such_module\nC\n)\x81}bt.")
        self.assertEqual(value, (
            qelemvir.Global("antigravity", "fly"),
            qelemvir.Object("os", "_exit", (3,), False, None, False),
            qelemvir.Object("no_such_module", "C", (), True, {}, True),
        ))
        self.assertNotIn("antigravity", sys.modules)


if __name__ == "__main__":
    unittest.main()

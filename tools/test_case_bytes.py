"""Tests of the worked networks' bytes: `python3 -m unittest test_case_bytes`."""
import unittest

import case_bytes


class Stored(unittest.TestCase):
    """What the repository has: the stored requests, and the module that states their bytes."""

    def setUp(self):
        self.data = case_bytes.STDIN.read_bytes()
        self.text = case_bytes.MODULE.read_text()

    def test_the_module_is_what_the_script_writes(self):
        self.assertEqual(self.text, case_bytes.module(self.data))

    def test_there_are_twenty_requests_and_nothing_else(self):
        found = case_bytes.requests(self.data)
        self.assertEqual(len(found), 20)
        self.assertEqual(sum(9 + len(file) for _, file in found), len(self.data))

    def test_each_file_is_whole_and_has_room(self):
        for name, (room, file) in zip(case_bytes.NAMES, case_bytes.requests(self.data), strict=True):
            with self.subTest(name):
                n, m = case_bytes.number(file, 2), case_bytes.number(file, 6)
                self.assertEqual(len(file), 22 + 18 * (n + m))
                self.assertEqual([len(record) for record in case_bytes.records(file)], [22] + (n + m) * [18])
                self.assertEqual(room, 14 + 16 * n)

    def test_the_module_has_every_byte(self):
        for name, (_, file) in zip(case_bytes.NAMES, case_bytes.requests(self.data), strict=True):
            with self.subTest(name):
                low = name.lower()
                said = self.text.split(f"\nfile_{low} : file_of case_{low}.network\n    ≡ ")[1].split("∷ []")[0]
                self.assertEqual(bytes(int(word) for word in said.split("∷") if word.strip()), file)

    def test_another_byte_makes_another_module(self):
        for place in (9, 20, len(self.data) - 1):
            other = bytearray(self.data)
            other[place] ^= 1
            self.assertNotEqual(self.text, case_bytes.module(bytes(other)))


class Requests(unittest.TestCase):
    def refused(self, data):
        with self.assertRaises(ValueError):
            case_bytes.module(data)

    def test_what_is_no_row_of_requests_is_refused(self):
        data = case_bytes.STDIN.read_bytes()
        self.refused(b"")
        self.refused(data[:-1])
        self.refused(data + b"S")
        self.refused(data + b"Q")
        self.refused(data + data[: 9 + 130])
        self.refused(data[9 + 130 :])
        self.refused(b"S" + bytes(4) + b"\xff\xff\xff\xff" + data)


if __name__ == "__main__":
    unittest.main()

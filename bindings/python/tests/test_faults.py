"""The refusals 1 to 6: every number just outside and just inside its range, as docs/RULES.md 5.6 has it, wrong marks, lengths and counts."""

import random
import struct
import unittest

import page
from support import PROVED, A, D, network, run

# Room for each end of a range to be reached: what stands beside the number that is tried.
BESIDE = {
    "floor": [{"ceiling": 10_000_000}],
    "ceiling": [{"floor": 1}, {"floor": 77}],
    "low": [{"high": 1_000_000}],
    "high": [{"low": -1_000_000}, {"low": 3}],
    "dmin": [{"dmax": 1_000_000}, {"dmax": 6}],
    "dmax": [{"dmin": 0}, {"dmin": 6}],
}
COUNTED = {"n": "registers", "m": "paths"}  # what the front end calls the two counts
PLACES = {"header": [0], "register": [0, 1, 2], "path": [0, 2]}


def numbers_of(made, record, place):
    """The numbers of a record by the names of their fields, with n beside them."""
    if record == "header":
        return {field: getattr(made, field) for field in page.FIELDS["header"]}
    row = (made.registers if record == "register" else made.paths)[place]
    return {"n": made.n, **dict(zip(page.FIELDS[record], row))}


def changed(made, record, place, **numbers):
    """The network with other numbers in one record."""
    if record == "header":
        return made._replace(**numbers)
    rows = list(made.registers if record == "register" else made.paths)
    rows[place] = tuple({**numbers_of(made, record, place), **numbers}[field] for field in page.FIELDS[record])
    return made._replace(**{"registers" if record == "register" else "paths": rows})


def line_of(form, made, record, place):
    """Where the record stands in File.text() or File.csv(), whose tables have a row of titles each."""
    if form == "file":
        return None
    before = {"header": 1, "register": 2, "path": 2 + made.n}[record] + place
    return before if form == "text" else before + {"header": 1, "register": 2, "path": 3}[record]


def forms(made):
    return {"file": made.bytes(), "text": made.text(), "csv": made.csv()}


class Ranges(unittest.TestCase):
    """One number at a time."""

    def cases(self):
        """Record, place, field, and a network in which that field's ends can be reached."""
        for record in page.NUMBER:
            for field in page.FIELDS[record]:
                for place in PLACES[record] if field not in COUNTED else []:
                    for beside in BESIDE.get(field, [{}]):
                        if not (record == "register" and place == 0 and field in ("low", "high")):
                            yield record, place, field, changed(A, record, place, **beside)
        yield "register", 0, "low", A
        yield "register", 0, "high", A

    def test_the_page_has_every_field(self):
        self.assertEqual({record: len(fields) for record, fields in page.FIELDS.items()}, {"header": 5, "register": 4, "path": 4})

    def test_just_inside_is_accepted(self):
        for record, place, field, made in self.cases():
            for value in page.RANGES[record, field].ends(numbers_of(made, record, place), place):
                self.accepted(changed(made, record, place, **{field: value}), (record, place, field, value))

    def accepted(self, made, case):
        self.assertNotIn(PROVED.schedule(made.bytes()).number, range(1, 7), case)
        for form, data in forms(made).items():
            ran = run("check", "--json", data=data)
            self.assertEqual((ran.status, ran.json["faults"], ran.json["input"]["form"]), (0, [], form), case)

    def test_just_outside_is_told(self):
        tried = 0
        for record, place, field, made in self.cases():
            least, greatest = page.RANGES[record, field].ends(numbers_of(made, record, place), place)
            for value in (least - 1, greatest + 1):
                # A dmax just below dmin is a dmin just above dmax, and that is how it is told.
                told = "dmin" if field == "dmax" and value == least - 1 >= 0 else field
                faulty = changed(made, record, place, **{field: value})
                self.refused(faulty, record, place, told, (record, place, field, value))
                tried += 1
        self.assertGreater(tried, 50)

    def refused(self, made, record, place, field, case):
        number = page.NUMBER[record]
        outcome = PROVED.schedule(made.bytes())
        self.assertEqual((outcome.number, outcome.place), (number, place), case)
        beside = numbers_of(made, record, place)
        value = beside[field]
        least, greatest = page.RANGES[record, field].ends(beside, place)
        for form, data in forms(made).items():
            if form == "csv" and field in ("from", "to"):
                self.no_such_name(data, made, place, field, value)
                continue
            fault, words = self.told(data, (number, place), case)
            line = line_of(form, made, record, place)
            due = (number, place, record, field, value, least, greatest, line)
            keys = ("number", "place", "record", "field", "value", "least", "greatest", "line")
            self.assertEqual(tuple(fault[key] for key in keys), due, case)
            title = "network" if record == "header" else f"{record} {place}"
            self.assertTrue(words.startswith(f"line {line}: {title}" if line else title), words)
            span = f"must be {least}" if least == greatest else f"must be from {least} to {greatest}"
            for part in (f" {field} is ", f" {value}", span):
                self.assertIn(part, words)

    def told(self, data, refusal, case):
        """The one fault of a network, as JSON and as its line of text."""
        ran = run("check", "--json", data=data)
        self.assertEqual((ran.status, len(ran.json["faults"]), ran.err), (1, 1, ""), (case, ran))
        self.assertEqual((ran.json["result"]["number"], ran.json["result"]["place"]), refusal, case)
        head, words, count = run("check", data=data).text.splitlines()[:3]
        self.assertEqual((head.split(":")[0], count), (f"refused {refusal[0]} {refusal[1]}", "1 fault"), case)
        return ran.json["faults"][0], words.strip()

    def no_such_name(self, data, made, place, field, value):
        """A table names registers, so that an end out of range is a name that is not there."""
        ran = run("check", "--json", data=data)
        fault = ran.json["faults"][0]
        self.assertEqual((ran.status, ran.json["result"], len(ran.json["faults"])), (1, None, 1))
        due = (None, field, f"n{value}", line_of("csv", made, "path", place))
        self.assertEqual(tuple(fault[key] for key in ("number", "field", "value", "line")), due)
        self.assertIn(f"{field}: 'n{value}' is no register", fault["words"])


class Counts(unittest.TestCase):
    def grown(self, registers, paths):
        return network([(0, 0, 0, 0)] * registers, [(0, 0, 1, 1)] * paths)

    def test_ends(self):
        for field, name in COUNTED.items():
            least, greatest = page.RANGES["header", field].ends({})
            for count in (least - 1, least, greatest, greatest + 1):
                if count >= 0:
                    self.counted(name, count, least, greatest)

    def counted(self, name, count, least, greatest):
        made = self.grown(count, 0) if name == "registers" else self.grown(1, count)
        outcome = PROVED.schedule(made.bytes())
        for data in forms(made).values():
            ran = run("check", "--json", data=data)
            if least <= count <= greatest:
                self.assertEqual((ran.status, outcome.number), (0, 0))
                continue
            told = [fault for fault in ran.json["faults"] if fault["field"] == name]
            self.assertEqual((ran.status, ran.json["result"]["number"], outcome.number, len(told)), (1, 2, 2, 1))
            self.assertEqual((told[0]["value"], told[0]["least"], told[0]["greatest"]), (count, least, greatest))
            self.assertIn(f"{count} {name}, and must have from {least} to {greatest}", run("check", data=data).text)

    def test_counts_that_the_records_do_not_bear_out(self):
        sound = A.bytes()
        for n, m in [(0, 3), (257, 3), (3, 2049), (3, -1), (-1, 3), (2, 3), (3, 4), (4, 2), (2**31 - 1, 2**31 - 1), (-2**31, -2**31)]:
            data = sound[:2] + struct.pack("<2i", n, m) + sound[10:]
            outcome, ran = PROVED.schedule(data), run("check", "--json", data=data)
            self.assertEqual((ran.status, ran.json["result"]["number"], ran.json["result"]["place"]), (1, outcome.number, outcome.place), (n, m))
            outside = {name for field, name, count in (("n", "registers", n), ("m", "paths", m))
                       if not page.RANGES["header", field].ends({})[0] <= count <= page.RANGES["header", field].ends({})[1]}
            self.assertEqual({fault["field"] for fault in ran.json["faults"] if fault["number"] == 2}, outside)

    def test_more_than_any_file_holds(self):
        data = self.grown(300, 2100).bytes()
        ran = run("check", "--json", data=data)
        self.assertEqual((ran.json["result"]["number"], PROVED.schedule(data).number), (2, 2))
        self.assertEqual([fault["value"] for fault in ran.json["faults"]], [300, 2100])


class Bytes(unittest.TestCase):
    """Marks and lengths of a network file."""

    def told(self, data):
        ran, outcome = run("check", "--json", "--form", "file", data=data), PROVED.schedule(data)
        self.assertEqual((ran.status, ran.json["result"]["number"], ran.json["result"]["place"]), (1, outcome.number, outcome.place), data)
        self.assertIn(f"refused {outcome.number} {outcome.place}: ", run("check", "--form", "file", data=data).text)
        return outcome.number, ran.json["faults"]

    def test_short_files(self):
        for length in range(22):
            number, faults = self.told(A.bytes()[:length])
            self.assertEqual((number, faults[0]["field"], faults[0]["value"]), (1, "length", length))
            self.assertIn(f"{length} bytes", faults[0]["words"])

    def test_lengths_that_do_not_fit(self):
        sound = A.bytes()
        for data in [sound[:22], sound[:-1], sound[:-18], sound + b"\0", sound + bytes(18), sound + bytes(100_000)]:
            number, faults = self.told(data)
            fault = faults[0]
            self.assertEqual((number, fault["field"], fault["value"], fault["least"], fault["greatest"]), (3, "length", len(data), 130, 130))
            self.assertIn(f"{len(data)} bytes, and must have 130 for 3 registers and 3 paths", fault["words"])

    def test_marks(self):
        sound = A.bytes()
        for i in range(7):
            record, place = ("header", 0) if i == 0 else ("register", i - 1) if i < 4 else ("path", i - 4)
            at = 22 + 18 * (i - 1) if i else 0
            due = {"header": "NW", "register": "RG", "path": "PT"}[record]
            for wrong in (b"XX", due[::-1].encode(), due.lower().encode(), b"\0" + due[1:].encode(), due[:1].encode() + b"\xff"):
                number, faults = self.told(sound[:at] + wrong + sound[at + 2:])
                fault = faults[0]
                self.assertEqual((number, len(faults)), (1 if record == "header" else page.NUMBER[record], 1))
                self.assertEqual((fault["record"], fault["place"], fault["field"]), (record, place, "mark"))
                shown = wrong.decode("latin-1") if wrong.decode("latin-1").isalpha() and max(wrong) < 128 else f"bytes {wrong[0]} {wrong[1]}"
                self.assertEqual(fault["value"], shown)
                self.assertIn(f"begins with {shown}, and must begin with {due}", fault["words"])


class Several(unittest.TestCase):
    """Many faults in one network: all are told, in the order of RULES 6.2, each with the page's range."""

    def out_of_range(self, made):
        """Every number that is outside what the page allows, beside the other numbers as they are or as they could be at best."""
        found = set()
        for record in page.NUMBER:
            for place in range({"header": 1, "register": made.n, "path": made.m}[record]):
                numbers = numbers_of(made, record, place)
                for field in page.FIELDS[record]:
                    for beside in (numbers, {"n": made.n}):
                        least, greatest = page.RANGES[record, field].ends(beside, place)
                        if not least <= numbers[field] <= greatest:
                            found.add((record, place, field))
        return found

    def damaged(self, chance):
        odd = [-2**31, -1_000_001, -100_001, -1, 0, 1, 2, 5, 100, 10_001, 100_001, 1_000_001, 10_000_001, 2**31 - 1]
        made = A if chance.random() < 0.7 else D
        for _ in range(chance.randint(1, 6)):
            record = chance.choice(list(page.NUMBER))
            field = chance.choice([field for field in page.FIELDS[record] if field not in COUNTED])
            place = 0 if record == "header" else chance.randrange(made.n if record == "register" else made.m)
            made = changed(made, record, place, **{field: chance.choice(odd)})
        return made

    def test_all_are_told_in_order(self):
        chance = random.Random(5)
        numbers = set()
        for _ in range(400):
            made = self.damaged(chance)
            outside, outcome = self.out_of_range(made), PROVED.schedule(made.bytes())
            for form in ("file", "text"):
                data = forms(made)[form]
                faults = run("check", "--json", data=data).json["faults"]
                self.assertEqual(bool(faults), bool(outside), made)
                if faults:
                    self.every(made, faults, outside, outcome)
                    lines = [(f"  line {fault['line']}: " if fault["line"] else "  ") + fault["words"] for fault in faults]
                    count = f"{len(faults)} fault{'s' if len(faults) > 1 else ''}"
                    self.assertEqual(run("check", data=data).text.splitlines()[1:], [*lines, count])
            numbers.add(outcome.number)
        self.assertTrue({4, 5, 6} <= numbers)

    def every(self, made, faults, outside, outcome):
        told = {(fault["record"], fault["place"], fault["field"]) for fault in faults}
        self.assertEqual(len(told), len(faults), made)
        self.assertLessEqual(told, outside, made)
        # Of two numbers that are out of range only beside each other, one is told.
        for record, place, field in outside - told:
            pair = {"dmin": "dmax", "dmax": "dmin", "low": "high", "high": "low", "floor": "ceiling", "ceiling": "floor"}.get(field)
            self.assertIn((record, place, pair), told, made)
        order = [(fault["number"], fault["place"]) for fault in faults]
        self.assertEqual((order, order[0]), (sorted(order), (outcome.number, outcome.place)), made)
        for fault in faults:
            self.pages_range(made, fault, told)

    def pages_range(self, made, fault, told):
        record, place, field = fault["record"], fault["place"], fault["field"]
        numbers = numbers_of(made, record, place)
        self.assertEqual(fault["value"], numbers[field])
        beside = {name: None if (record, place, name) in told and name not in COUNTED else number for name, number in numbers.items()}
        ends = page.RANGES[record, field].ends(beside, place)
        self.assertEqual((fault["least"], fault["greatest"]), ends, (made, fault))
        self.assertIn(f"must be from {ends[0]} to {ends[1]}" if ends[0] != ends[1] else f"must be {ends[0]}", fault["words"])

    def test_marks_among_them(self):
        made = changed(changed(A, "register", 2, setup=100_001), "path", 1, dmax=1_000_001)
        data = bytearray(made.bytes())
        data[22 + 18:22 + 20] = b"XX"  # register 1
        data[22 + 36:22 + 38] = b"XX"  # register 2
        ran = run("check", "--json", data=bytes(data))
        told = [(fault["number"], fault["place"], fault["field"]) for fault in ran.json["faults"]]
        self.assertEqual(told, [(5, 1, "mark"), (5, 2, "setup"), (5, 2, "mark"), (6, 1, "dmax")])
        self.assertEqual(PROVED.schedule(bytes(data))[:2], (5, 1))

    def test_what_does_not_fit_four_bytes_is_no_file(self):
        for big in (2**31, -2**31 - 1, 10**30):
            data = changed(A, "register", 1, hold=big).text()
            ran = run("check", "--json", data=data)
            self.assertEqual((ran.status, ran.json["result"], [fault["value"] for fault in ran.json["faults"]]), (1, None, [big]))
            self.assertIn(f"register 1: hold is {big} ps, and must be from -100000 to 100000", run("check", data=data).text)


if __name__ == "__main__":
    unittest.main()

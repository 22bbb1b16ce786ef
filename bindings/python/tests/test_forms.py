"""Networks as text and as CSV: what is read, what is told as a fault, and which form is which."""

import random
import struct
import unittest

from support import A4, A7, A, D, network, run

OWN = A.csv().decode()
PATHS = "from,to,dmin,dmax\nhost,a,2,9\na,b,2,3\nb,host,2,6\n"
HOSTLESS = "no path names the host: call the ports 'host', or give a table of registers, which the host begins"
OPTIONS = ("--setup", "1", "--hold", "1", "--window=-10,10", "--u", "0", "--ceiling", "100")


def file_of(data, *words):
    """The network file that a text or a table stands for."""
    ran = run("convert", "--to", "file", *words, data=data if isinstance(data, bytes) else data.encode())
    return ran.out if (ran.status, ran.err) == (0, "") else ran.err


def faults(data, *words):
    """The faults of a text or table as the lines of a report, after seeing that JSON tells the same."""
    data = data if isinstance(data, bytes) else data.encode()
    ran, told = run("check", *words, data=data), run("check", "--json", *words, data=data).json
    lines = [line.strip() for line in ran.text.splitlines()[1:1 + len(told["faults"])]]
    assert lines == [f"line {one['line']}: {one['words']}" if one["line"] else one["words"] for one in told["faults"]], (lines, told)
    assert ran.status == 1 and ran.err == "", ran
    return lines


class ToldApart(unittest.TestCase):
    def form(self, data):
        return run("check", "--json", data=data).json["input"]["form"]

    def test_by_content(self):
        for form, data in {"file": A.bytes(), "text": A.text(), "csv": A.csv()}.items():
            for before in (b"", b"\n\n", b"# a comment, of some words; and more\n", b"\xef\xbb\xbf") if form != "file" else (b"",):
                with self.subTest(form, before=before):
                    ran = run("check", "--json", data=before + data)
                    self.assertEqual((ran.status, ran.json["input"]["form"]), (0, form))

    def test_tables_that_begin_otherwise(self):
        for first in ("register\n", "register,setup\n", "register\tsetup\thold\tlow\thigh\n", "register ; setup\n", "u\n0\n",
                      "FROM,To,dmin,DMAX\n", '"from";"to"\n', '"# of units, and others"\nfrom,to\n', "ceiling,,,,\n"):
            self.assertEqual(self.form(first.encode()), "csv", first)

    def test_what_no_text_is_is_refused_with_1(self):
        for data in (b"", bytes(100), b"from,to\0", b"\x1b[0m", b"NW", b"network\0floor"):
            ran = run("check", "--json", data=data)
            self.assertEqual((ran.status, ran.json["input"]["form"], ran.json["result"]["number"]), (1, "file", 1), data)

    def test_what_cannot_be_read_is_told_by_its_line(self):
        told = {b"hello\n": "line 1: 'hello' is none of network, register, path", b"Network floor\n": "line 1: 'Network' is none of",
                b"# only a comment\n": "the text has no network line", b"\n": "the text has no network line", b'"from\n': "line 1: '\"from' is none of"}
        rows = {b"1,2,3\n": "line 1: no table has begun", b"host;a;2;9\n": "line 1: no table has begun"}
        for form, cases in (("text", told), ("csv", rows)):
            for data, words in cases.items():
                ran = run("check", "--json", data=data)
                self.assertEqual((ran.status, ran.json["input"]["form"], ran.json["result"]), (1, form, None), data)
                self.assertIn(words, run("check", data=data).text)

    def test_a_form_that_is_named_is_believed(self):
        for form in ("text", "csv"):
            ran = run("check", "--json", "--form", form, data=A.bytes())
            self.assertEqual((ran.status, ran.json["input"]["form"], ran.json["result"]), (1, form, None))
            self.assertTrue(run("check", "--form", form, data=A.bytes()).text.replace("\n", "").isprintable())
        self.assertEqual(run("check", "--json", "--form", "file", data=A.text()).json["result"]["number"], 1)


class Tables(unittest.TestCase):
    def test_one_network_in_many_tables(self):
        rows = OWN.split("\n")
        padded = "\n".join(line + "," * (4 - line.count(",")) for line in rows)
        swapped = "dmax,from,dmin,to\n9,host,2,a\n3,a,2,b\n6,b,2,host\n"
        for data, words in [
            (OWN, ()), (OWN.replace(",", ";"), ()), (OWN.replace(",", "\t"), ()), (OWN.replace("\n", "\r\n"), ()), (OWN.replace("\n", "\r"), ()),
            ("\ufeff" + OWN, ()), (OWN.replace("n1", '"n1"'), ()), (OWN.replace(",", " , "), ()), (OWN.replace(",n1", ', "n1"'), ()),
            (padded, ()),
            (padded.replace(",", ";"), ()), ("\n\n# a, b\n" + OWN.replace("\n", "\n,,\n# c\n\n"), ()), (OWN.replace("register", "Register"), ()),
            (OWN.replace("n1", '"caf\u00e9, one"'), ()), (OWN.replace("n1", "caf\u00e9").encode("latin-1"), ()),
            (PATHS, OPTIONS), (swapped, OPTIONS), ("u\n0\n" + PATHS, (*OPTIONS[:5], *OPTIONS[7:])), ("register\nhost\na\nb\n" + PATHS, OPTIONS),
            ("register\nhost\na\nb\n" + PATHS.replace(",", ";"), OPTIONS), (PATHS + "register;;\nhost;;\na\nb\n", OPTIONS),
            ("register,hold\nhost,1\na,1\nb,1\n" + PATHS, (*OPTIONS[:2], *OPTIONS[4:])),
        ]:
            with self.subTest(data=data):
                self.assertEqual(file_of(data, *words), A.bytes())

    def test_the_tables_stand_in_any_order(self):
        head, registers, paths = OWN[:OWN.index("register")], OWN[OWN.index("register"):OWN.index("from")], OWN[OWN.index("from"):] + "\n"
        for order in ((paths, registers, head), (registers, head, paths), (paths, head, registers)):
            self.assertEqual(file_of("\n".join(order)), A.bytes())

    def test_the_host_is_first_where_paths_name_it_late(self):
        made = parsed_csv("from,to,dmin,dmax\na,b,2,9\nb,host,2,9\n", *OPTIONS)
        self.assertEqual([one["name"] for one in made["latencies"]], ["host", "a", "b"])

    def test_names_that_differ_by_a_byte_stay_two(self):
        made = parsed_csv(b"from,to,dmin,dmax\ncaf\xe8,caf\xe9,2,9\nhost,host,2,9\n", *OPTIONS)
        self.assertEqual([one["name"] for one in made["latencies"]], ["host", "caf\u00e8", "caf\u00e9"])

    def test_a_line_ends_where_an_editor_ends_it(self):
        data = OWN.replace("register", "# a page\f and \u2028 \x85 more\nregister").replace("n2,1,1", "n2,x,1")
        self.assertEqual(faults(data), ["line 7: setup: 'x' is no number"])

    def test_floor_and_ceiling_are_the_whole_range_where_nothing_gives_them(self):
        self.assertEqual(struct.unpack_from("<2i", file_of(PATHS, *OPTIONS[:7]), 10), (1, 10_000_000))
        self.assertEqual(struct.unpack_from("<2i", file_of(PATHS, *OPTIONS[:7], "--floor", "5"), 10), (5, 10_000_000))

    def test_the_hosts_window_is_never_an_options(self):
        self.assertEqual(struct.unpack_from("<2i", file_of(PATHS, *OPTIONS), 22 + 10), (0, 0))


def parsed_csv(data, *words):
    return run("schedule", "--json", *words, data=data if isinstance(data, bytes) else data.encode()).json


class TableFaults(unittest.TestCase):
    def test_each_is_told_with_its_line(self):
        registers = "register,setup,hold,low,high\nhost,1,1,0,0\na,1,1,-9,9\nb,1,1,-9,9\n"
        due = "from,to,dmin,dmax"
        for data, words, told in [
            (PATHS, (), [f"{title} is given nowhere: neither by a column '{title}' nor by an option"
                         for title in ("setup", "hold", "low", "high", "u")]),
            (registers + PATHS, ("--u", "0", "--hold", "1"), ["line 1: hold is given twice, by this column and by an option"]),
            ("u\n0\n" + PATHS, OPTIONS, ["line 1: u is given twice, by this column and by an option"]),
            (PATHS.replace("dmax", "max"), OPTIONS, ["line 1: 'max' is no column of the path table, whose columns are from, to, dmin, dmax",
                                                     "line 1: the path table has no column 'dmax'"]),
            (PATHS.replace("to,dmin", "to,to,dmin").replace(",2,", ",b,2,"), OPTIONS, ["line 1: the column 'to' stands here twice"]),
            (PATHS + PATHS, OPTIONS, ["line 5: a second path table"]),
            (PATHS.replace("a,b,2,3", "a,b,2"), OPTIONS, ["line 3: 3 cells, where the path table has 4 columns"]),
            (PATHS.replace("a,b,2,3", "a,b,2,3,4"), OPTIONS, ["line 3: 5 cells, where the path table has 4 columns"]),
            (PATHS.replace("a,b,2,3", "a,b,2,"), OPTIONS, ["line 3: dmax is missing"]),
            (PATHS.replace("a,b,2,3", ",b,2,3"), OPTIONS, ["line 3: from is missing"]),
            (PATHS.replace("a,b,2,3", "a,#b,2,3"), OPTIONS, ["the name '#b' begins with #, as a comment does"]),
            (PATHS.replace("a,b,2,3", 'a,"b,2,3'), OPTIONS, ["line 3: no row of a table: unexpected end of data"]),
            (PATHS.replace("a,b,2,3", "a,b,2;5,3"), OPTIONS, ["line 3: dmin: '2;5' is no number"]),
            (registers + PATHS.replace("a,b", "a,c"), ("--u", "0"), ["line 7: to: 'c' is no register of the table"]),
            (registers.replace("b,1", "a,1") + PATHS.replace("b", "a"), ("--u", "0"), ["line 4: a second register 'a'"]),
            (registers.replace("b,1", ",1") + PATHS.replace("b", "a"), ("--u", "0"), ["line 4: a register's name is missing"]),
            ("u\n0\n1\n" + PATHS, (*OPTIONS[:5], *OPTIONS[7:]), ["line 3: a second row of the network table"]),
            ("u,floor\n0,1\n\n", OPTIONS[:5], ["no table of paths: a row of titles is due, as " + due, HOSTLESS]),
            (PATHS.replace("host", "ports"), OPTIONS, [HOSTLESS]),
            ("floor\n" + PATHS, OPTIONS, ["the network table has no row"]),
            ("register,setup\nhost,1\na,1\nb,1\nfloor,50\n" + PATHS, OPTIONS[2:], ["line 5: the name 'floor' is a column's title, and a row of titles begins a table"]),
            (PATHS.replace("host,a", "Host,a"), OPTIONS, ["the first register is the host, and this one, which is called 'Host', is not the first"]),
            (registers.replace("host", "ports").replace("b,1", "host,1") + PATHS.replace("host", "ports").replace("b", "host"), ("--u", "0"),
             ["line 4: the first register is the host, and this one, which is called 'host', is not the first"]),
            (PATHS.replace("a,b,2,3", "a,b,2,\"3,5\""), OPTIONS, ["line 3: dmax: '3,5' is no number: write a decimal point"]),
            ("host,a,2,9\n" + PATHS, ("--form", "csv", *OPTIONS), ["line 1: no table has begun: a row of titles comes first, as " + due]),
            ("", ("--form", "csv", *OPTIONS), ["no table: a row of titles is due, as " + due]),
            (PATHS, (*OPTIONS[:6], "x", *OPTIONS[7:]), ["u: 'x' is no number"]),
        ]:
            with self.subTest(data=data, words=words):
                self.assertEqual(faults(data, *words) if told else run("check", *words, data=data.encode()).status, told or 0)

    def test_rows_that_look_like_others(self):
        self.assertEqual(faults(PATHS.replace("a,b,2,3", "a,b,2,3\n;;;"), *OPTIONS), ["line 4: 1 cells, where the path table has 4 columns"])
        told = faults("register\nhost\nhold\n" + PATHS, *OPTIONS)
        self.assertEqual((told[0], told[2]), ("line 3: a second register table", "line 3: the register table has no column 'register'"))

    def test_faults_of_several_lines_are_all_told_in_order(self):
        data = PATHS.replace("a,b,2,3", 'a,"b,2,3').replace("b,host,2,6", "b,host,x,y") + "c,a,0,1000001\n"
        self.assertEqual([line.split(":")[0] for line in faults(data, *OPTIONS)], ["line 3", "line 4", "line 4", "line 5"])

    def test_options_for_tables_alone(self):
        for words, told in {("--u", "0"): "--u is for", ("--window=-1,1",): "--window is for", ("--floor", "2"): "--floor is for"}.items():
            for data in (A.text(), A.bytes()):
                ran = run("check", *words, data=data)
                self.assertEqual((ran.status, ran.out, told in ran.err), (2, b"", True))
        self.assertEqual(run("check", "--window", "5", data=PATHS.encode()).status, 2)
        self.assertEqual(run("check", "--names", "x", data=A.csv()).status, 2)


class Texts(unittest.TestCase):
    def test_faults(self):
        head = "network floor 1 ceiling 100 u 0\n"
        form = "is not of the form 'register setup SETUP hold HOLD low LOW high HIGH'"
        for data, told in {
            head + "register setup 1 hold 1 low 0\n": [f"line 2: 'register setup 1 hold 1 low 0' {form}"],
            head + "register hold 1 setup 1 low 0 high 0\n": [f"line 2: 'register hold 1 setup 1 low 0 high 0' {form}"],
            head + head: ["line 2: a second network line"],
            head + "\n\nwire 0 0\n": ["line 4: 'wire' is none of network, register, path"],
            head + "path 0 a 1 2\n": ["line 2: to: 'a' is no number, and a register's number is due"],
            head + "path 0 0 1 2\nregister setup 1 hold 1 low 0 high 0\n": ["line 3: a register line after a path line"],
            "register setup 1 hold 1 low 0 high 0\n" + head: ["line 1: a register line before the network line"],
        }.items():
            self.assertEqual([line for line in faults(data) if "registers, and must" not in line and "is register" not in line], told, data)
        self.assertEqual(faults("", "--form", "text"), ["the text has no network line"])

    def test_what_is_read(self):
        own = A.text()
        for data in (own.replace(b"\n", b"\r\n"), own.replace(b" ", b"\t"), b"\n" + own.replace(b"\n", b"  # \xff\n\n"), b"\xef\xbb\xbf" + own):
            self.assertEqual(file_of(data), A.bytes())
        self.assertEqual(file_of(D.text().replace(b"low -10", b"low -1e1")), D.bytes())


class Damaged(unittest.TestCase):
    def test_no_input_makes_it_fall_over(self):
        """Texts and tables with letters changed, dropped and doubled: always an answer or a fault, and the exit status for it."""
        chance = random.Random(9)
        pieces = [b"", b",", b";", b"\t", b'"', b"\n", b"#", b"-", b"9", b"e9", b".", b"register", b"from,to", b"\xff", b"\0", b"nan", b"network "]
        seeds = [A.csv(), A.text(), PATHS.encode(), network([(0, 0, 0, 0)], []).csv(), A4.text(), A7.csv()]
        statuses = set()
        for _ in range(1500):
            data = b"# Here most letters may change and nothing comes of it, so that answers are among what is tried.\n" + chance.choice(seeds)
            for _ in range(chance.randint(1, 4)):
                at = chance.randrange(len(data) + 1)
                data = data[:at] + chance.choice(pieces) + data[at + chance.randint(0, 3):]
            words = ("--form", "csv", *OPTIONS) if chance.random() < 0.4 else ()
            ran = run(chance.choice(("schedule", "slack", "check")), "--json", *words, data=data)
            self.assertEqual(ran.status, (ran.json["result"] or {"status": 1})["status"], data)
            statuses.add(ran.status)
        self.assertEqual(statuses, {0, 1, 3, 4})


if __name__ == "__main__":
    unittest.main()

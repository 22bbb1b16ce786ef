"""Every kind of answer in JSON is of the shape that docs/mileparcel.schema.json has, and a changed one is not."""

import copy
import json
import unittest

import page
from support import A4, A7, NAMED, ROOT, A, D, Folder, network, run

SCHEMA = json.loads((ROOT / "docs" / "mileparcel.schema.json").read_text())
TYPES = {"object": dict, "array": list, "string": str, "integer": int, "null": type(None)}
NOTES = {"$schema", "$defs", "title", "description"}  # they ask nothing of an answer
HOST, M = (0, 0, 0, 0), 10**6
EASY = network([HOST, (0, 0, -M, M), (-100_000, 0, -M, M)], [(1, 2, 0, 0)], 1, 10 * M)
HARD = network([HOST, (0, 0, M, M), (100_000, 100_000, -M, -M)], [(1, 2, M, M)], 1, 10 * M, 10_000)


def is_a(kind, value):
    return isinstance(value, TYPES[kind]) and not (kind == "integer" and isinstance(value, bool))


def of_type(kinds, value):
    return any(is_a(kind, value) for kind in ([kinds] if isinstance(kinds, str) else kinds))


def referred(name, value):
    return valid(SCHEMA["$defs"][name.removeprefix("#/$defs/")], value)


# What each word of a schema asks: of the word's own value, of the answer, and of the whole schema around it.
ASKS = {
    "$ref": lambda name, value, _: referred(name, value),
    "oneOf": lambda parts, value, _: sum(valid(part, value) for part in parts) == 1,
    "const": lambda due, value, _: value == due and type(value) is type(due),
    "enum": lambda due, value, _: any(value == one and type(value) is type(one) for one in due),
    "type": lambda kinds, value, _: of_type(kinds, value),
    "minimum": lambda least, value, _: not is_a("integer", value) or value >= least,
    "maximum": lambda greatest, value, _: not is_a("integer", value) or value <= greatest,
    "minItems": lambda least, value, _: not isinstance(value, list) or len(value) >= least,
    "maxItems": lambda greatest, value, _: not isinstance(value, list) or len(value) <= greatest,
    "items": lambda part, value, _: not isinstance(value, list) or all(valid(part, one) for one in value),
    "required": lambda names, value, _: not isinstance(value, dict) or all(name in value for name in names),
    "properties": lambda parts, value, _: not isinstance(value, dict) or all(valid(parts[key], value[key]) for key in value if key in parts),
    "additionalProperties": lambda allowed, value, around: allowed or not isinstance(value, dict) or set(value) <= set(around["properties"]),
}


def valid(schema, value):
    return all(word in NOTES or ASKS[word](due, value, schema) for word, due in schema.items())


def kinds_of(value):
    """The kinds of answers that a value is one of."""
    return [part["$ref"].removeprefix("#/$defs/") for part in SCHEMA["oneOf"] if valid(part, value)]


def places(value, way=()):
    """The way to each object, array and scalar of an answer. Of an array the first and the last are enough."""
    yield way
    keys = list(value) if isinstance(value, dict) else sorted({0, len(value) - 1}) if isinstance(value, list) and value else []
    for key in keys:
        yield from places(value[key], (*way, key))


def at(value, way):
    for key in way:
        value = value[key]
    return value


class Kinds(Folder):
    def answers(self):
        """Words of a call, what it reads, and the kind of answer that is due."""
        own = ("--period", "9", "--latencies", self.file("latencies", "1 1\n2 -1\n"))
        bare = network([HOST], []).bytes()
        yield from ((("schedule", *words), data, "schedule") for words, data in (
            ((), A.bytes()), ((), NAMED), ((), A._replace(floor=20).text()), ((), bare), (("--period", "50"), A.bytes()),
            (("--worst", "0", "--unit", "ns"), A.bytes()), ((), A._replace(registers=[*A.registers[:2], (1, 1, 2, 10)]).bytes())))
        yield from ((("slack", *words), data, "slack") for words, data in (
            ((), A.bytes()), (own, A.bytes()), (("--no-skew", "--period", "1"), D.bytes()), (("--kind", "low"), bare)))
        for command in ("schedule", "slack"):
            yield from (((command,), data, "unanswered") for data in (A4.bytes(), A7.text()))
            yield (command, "--period", "8"), A.bytes(), "unanswered"
        yield from ((("check",), data, "check") for data in (A.csv(), A7.bytes()))
        for command in ("schedule", "slack", "check"):
            yield from (((command,), data, "faulty") for data in self.faulty())

    def faulty(self):
        """Networks that are refused, and what is none."""
        astray = A._replace(paths=[(0, 9, 2, 9), *A.paths[1:]])
        yield from (b"", b"XY" + A.bytes()[2:], A.bytes()[:-1], A._replace(n=0).bytes(), A.bytes()[:22] + b"\0\0" + A.bytes()[24:])
        yield from (A._replace(u=-1).bytes(), A._replace(floor=0, ceiling=-5).text())
        yield A._replace(registers=[(1, 1, 1, 0), *A.registers[1:]]).csv()
        yield from (astray.bytes(), astray.text(), astray.csv(), A._replace(paths=[(0, 9, 2**40, 9), *A.paths]).text())
        yield from (b"path 0 0 0 0", A.text().replace(b"u 0", b"u x"), b"from,to,dmin,dmax\nhost,a,2,9\n")

    def test_every_answer_is_of_its_kind(self):
        seen = set()
        for words, data, kind in self.answers():
            ran = run(*words, "--json", data=data)
            self.assertEqual((kinds_of(ran.json), ran.json["command"]), ([kind], words[0]), (words, data, ran.text[:300]))
            status = ran.json["result"]["status"] if ran.json["result"] else 1
            self.assertEqual((ran.status, ran.err), (status, ""))
            seen.add((words[0], kind, ran.json["result"] and ran.json["result"]["number"]))
        self.assertTrue({("schedule", "unanswered", 8), ("schedule", "unanswered", 9), ("check", "faulty", None)} <= seen)
        self.assertTrue({("check", "faulty", number) for number in range(1, 7)} <= seen)

    def test_changed_answers_are_of_none(self):
        tried = 0
        for words, data, kind in self.answers():
            whole = run(*words, "--json", data=data).json
            for way in places(whole):
                for changed in self.changes(whole, way):
                    self.assertEqual(kinds_of(changed), [], (words, way))
                    tried += 1
        self.assertGreater(tried, 3000)

    def changes(self, whole, way):
        """The answer with what stands there dropped, of another type, or with something more in it."""
        here = at(whole, way)
        if isinstance(here, dict):
            more = copy.deepcopy(whole)
            at(more, way)["more"] = 0
            yield more
        if way:
            for other in (1.5, True, [0] if not isinstance(here, list) else {}):
                wrong = copy.deepcopy(whole)
                at(wrong, way[:-1])[way[-1]] = other
                yield wrong
        if way and isinstance(way[-1], str):
            less = copy.deepcopy(whole)
            del at(less, way[:-1])[way[-1]]
            yield less


class Bounds(Folder):
    """The ends that the schema has are those of docs/RULES.md, and they are reached."""

    def ends(self, *way):
        part = at(SCHEMA["$defs"], way)
        return part["minimum"], part["maximum"]

    def test_they_are_the_pages(self):
        low, u = page.RANGES["register", "low"].ends({}), page.RANGES["header", "u"].ends({})
        margin, delay, period = (page.RANGES[key].ends({}) for key in (("register", "setup"), ("path", "dmax"), ("header", "floor")))
        setup = delay[0] + margin[0] + u[0], delay[1] + margin[1] + u[1]
        self.assertEqual(self.ends("period"), period)
        self.assertEqual(self.ends("latency", "properties", "latency"), low)
        self.assertEqual(self.ends("bound", "properties", "amount"), (setup[0] - period[1], setup[1] - period[0]))
        need = self.ends("loop", "properties", "need", "oneOf", 1)
        self.assertEqual(need, (period[0] + 1, setup[1] + low[1] - low[0]))
        self.assertEqual(self.ends("schedule", "properties", "gain"), (-2 * M, setup[1] - period[0]))

    def test_the_ends_of_slacks(self):
        table = (ROOT / "docs" / "RULES.md").read_text().split("**15.6**")[1].split("**15.7**")[0]
        rows = [line.strip("|").split("|") for line in table.splitlines() if line.startswith("|")][2:]
        ends = {kind.strip(): [int(cell.replace(",", "")) for cell in cells] for kind, *cells in rows}
        self.assertEqual(list(ends), ["setup", "hold", "low", "high"])
        widest = min(least for least, _ in ends.values()), max(most for _, most in ends.values())
        self.assertEqual(self.ends("slack_of", "properties", "slack"), widest)
        self.assertEqual(self.ends("schedule", "properties", "without_skew", "properties", "worst"), (ends["hold"][0], -1))

    def test_they_are_reached(self):
        for made, period, first, second, slack in ((EASY, 10 * M, -M, M, 12_100_000), (HARD, 1, M, -M, -3_109_999)):
            latencies = self.file("latencies", f"1 {first}\n2 {second}\n")
            told = run("slack", "--json", "--kind", "setup", "--period", period, "--latencies", latencies, data=made.bytes()).json
            self.assertEqual((kinds_of(told), [one["slack"] for one in told["slacks"]]), (["slack"], [slack]))
        for ceiling, kind in ((3_109_999, "unanswered"), (3_110_000, "schedule")):
            told = run("schedule", "--json", data=HARD._replace(ceiling=ceiling).bytes()).json
            self.assertEqual(kinds_of(told), [kind])
            self.assertEqual((told["loop"]["period"], told["loop"]["need"], told["loop"]["sum"]), (3_109_999, 3_110_000, 1))
        self.assertEqual(told["gain"], self.ends("schedule", "properties", "gain")[0])
        self.assertIsNone(run("schedule", "--json", "--period", 10 * M, data=A.bytes()).json["gain"])


class Words(unittest.TestCase):
    def test_the_schema_asks_nothing_that_is_not_tried_here(self):
        def words(part):
            for word, inner in part.items():
                yield word
                inside = inner.values() if word in ("properties", "$defs") else inner if word == "oneOf" else [inner] if word == "items" else []
                for one in inside:
                    yield from words(one)
        self.assertLessEqual(set(words(SCHEMA)), set(ASKS) | NOTES)

    def test_every_object_says_what_it_may_hold(self):
        def objects(part):
            if isinstance(part, dict):
                if part.get("type") == "object":
                    yield part
                for one in part.values():
                    yield from objects(one)
            elif isinstance(part, list):
                for one in part:
                    yield from objects(one)
        found = list(objects(SCHEMA))
        self.assertGreater(len(found), 10)
        for part in found:
            self.assertEqual((part["additionalProperties"], sorted(part["required"])), (False, sorted(part["properties"])))


if __name__ == "__main__":
    unittest.main()

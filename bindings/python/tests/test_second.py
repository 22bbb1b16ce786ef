"""The front end held to the second program, and to sums that this page makes of the file's own numbers, on some thousands of files."""

import shutil
import struct
import subprocess
import unittest

from support import KINDS, ROOT, parsed, run

SECOND = ROOT / "second" / "target" / "release" / "second"
ROOM = 4110
# How many requests of each shape. Those from `pipeline` to `corner` have up to 256 registers and 2,048 paths.
COUNTS = {"tiny": 1400, "toggles": 500, "medium": 120, "damaged": 900, "rooms": 120, "questions": 120, "ends": 100, "pipeline": 1, "dense": 1,
          "tight": 1, "parallel": 1, "selfs": 1, "chain": 1, "ring": 1, "race": 2, "extreme": 1, "limits": 2, "corner": 1}
SMALL = 2000  # bytes of a file that is asked about in every way; of the others each twentieth is
NAMED = "r{}".format


def asked(*words):
    return subprocess.run([str(SECOND), "ask", *map(str, words)], check=True, capture_output=True).stdout


def files(stream):
    """The files of a stream of requests, whose form crates/exam/src/main.rt has."""
    at = 0
    while at < len(stream):
        numbers = 2 if stream[at:at + 1] == b"S" else 6
        length = struct.unpack_from("<i", stream, at + 1 + 4 * (numbers - 1))[0]
        begin = at + 1 + 4 * numbers
        at = begin + length
        yield stream[begin:at]


def answered(requests):
    return subprocess.run([str(SECOND), "answer"], input=b"".join(requests), check=True, capture_output=True).stdout


def solved(every):
    """What the second program says of each file: number, place, period and latencies."""
    out = answered(b"S" + struct.pack("<2i", ROOM, len(data)) + data for data in every)
    for i in range(len(every)):
        answer = out[i * (8 + ROOM):(i + 1) * (8 + ROOM)]
        number, place = struct.unpack_from("<2i", answer)
        period, count = struct.unpack_from("<2i", answer, 10) if number == 0 else (None, 0)
        yield number, place, period, [struct.unpack_from("<i", answer, 22 + 6 * k + 2)[0] for k in range(count)]


def replied(questions):
    """Its slack for each question: file, period, rule, and the latencies at the tail and the head."""
    out = answered(b"Q" + struct.pack("<6i", period, KINDS.index(kind), number, tail, head, len(data)) + data
                   for data, period, (kind, number), tail, head in questions)
    return [struct.unpack_from("<3i", out, 12 * i) for i in range(len(questions))]


def name(register):
    return NAMED(register) if register else "host"


def rounded_up(total, setups):
    return -(-total // setups)


class AgainstTheSecondProgram(unittest.TestCase):
    @classmethod
    def setUpClass(cls):
        if shutil.which("cargo"):
            subprocess.run(["cargo", "build", "--release", "--offline", "--quiet"], cwd=ROOT / "second", check=True)
        elif not SECOND.exists():
            raise unittest.SkipTest("cargo is missing, which builds the second program")
        cls.files = [data for shape, count in COUNTS.items() for data in files(asked(11, count, shape))] + list(files(asked("worked")))
        cls.solved = list(solved(cls.files))

    def whole(self):
        """The files that are asked about in every way, of those that are accepted: with what the second program says."""
        for i, (data, answer) in enumerate(zip(self.files, self.solved)):
            if answer[0] in (0, 8, 9) and (len(data) <= SMALL and i % 3 == 0 or i % 20 == 0):
                yield data, answer

    def test_schedules(self):
        numbers = {}
        for data, (number, place, period, latencies) in zip(self.files, self.solved):
            ran = run("schedule", "--json", "--form", "file", data=data)
            self.assertEqual((ran.status, ran.err), ({0: 0, 8: 3, 9: 4}.get(number, 1), ""))
            told = ran.json
            self.assertEqual((told["result"]["number"], told["result"]["place"], told["result"]["status"]), (number, place, ran.status))
            numbers[number] = numbers.get(number, 0) + 1
            if number in range(1, 7):
                self.faults(told, number, place)
                continue
            made = parsed(data)
            self.loop(made, number, period, told["loop"])
            if number == 0:
                self.assertEqual(told["period"], period)
                self.assertEqual(told["latencies"], [{"register": i, "name": name(i), "latency": x} for i, x in enumerate(latencies)])
                self.without_skew(made, period, told)
        self.assertGreaterEqual(sum(numbers.values()), 3000)
        self.assertEqual(sorted(numbers), [0, 1, 2, 3, 4, 5, 6, 8, 9])

    def faults(self, told, number, place):
        self.assertEqual(min((fault["number"], fault["place"]) for fault in told["faults"]), (number, place))
        self.assertNotIn("loop", told)

    def loop(self, made, number, period, loop):
        """RULES 4.1 to 4.3 and 7.9 to 7.11, by the amounts of RULES 2.2."""
        if number == 0 and period == made.floor:
            self.assertIsNone(loop)
            return
        at = period - 1 if number == 0 else made.ceiling
        arrows = [(rule["kind"], *made.arrow(rule["kind"], rule["number"])) for rule in loop["rules"]]
        tails = [tail for _, tail, _, _ in arrows]
        self.assertEqual([head for _, _, head, _ in arrows], tails[1:] + tails[:1])
        self.assertEqual((len(set(tails)), min(tails)), (len(tails), tails[0]))
        setups = sum(kind == "setup" for kind, *_ in arrows)
        bare = sum(amount for *_, amount in arrows)
        total = bare - setups * at
        self.assertGreater(total, 0)
        need = rounded_up(bare, setups) if setups else None
        self.assertEqual((loop["period"], loop["sum"], loop["need"]), (at, total, need))
        amounts = [amount - (at if kind == "setup" else 0) for kind, _, _, amount in arrows]
        self.assertEqual([(rule["tail"], rule["head"], rule["amount"]) for rule in loop["rules"]],
                         [(name(tail), name(head), amount) for (_, tail, head, _), amount in zip(arrows, amounts)])
        if number == 0:
            self.assertEqual(need, period)
        else:
            self.assertTrue(need > made.ceiling if number == 9 else need is None)

    def without_skew(self, made, period, told):
        zeros = [0] * made.n
        due = max([made.floor, *(made.arrow("setup", p)[2] for p in range(made.m))])
        broken = [slack for slack in (made.slack(*rule, due, zeros) for rule in made.rules() if rule[0] != "setup") if slack < 0]
        self.assertEqual(told["without_skew"], {"period": due, "broken": len(broken), "worst": min(broken, default=None)})
        self.assertEqual(told["gain"], due - period)

    def test_slacks(self):
        questions, slacks = [], []
        for data, (number, _, period, latencies) in self.whole():
            if number:
                continue
            made, told = parsed(data), run("slack", "--json", data=data).json
            own = {rule: made.slack(*rule, period, latencies) for rule in made.rules()}
            self.assertEqual({(one["kind"], one["number"]): one["slack"] for one in told["slacks"]}, own)
            self.assertEqual(len(told["slacks"]), len(own))
            self.assertEqual([one["slack"] for one in told["slacks"]], sorted(own.values()))
            self.assertTrue(min(own.values(), default=0) >= 0)
            for one in told["slacks"][::max(1, len(own) // 8)]:
                tail, head, _ = made.arrow(one["kind"], one["number"])
                self.assertEqual((one["tail"], one["head"]), (name(tail), name(head)))
                questions.append((data, period, (one["kind"], one["number"]), latencies[tail], latencies[head]))
                slacks.append((0, 0, one["slack"]))
        self.assertGreater(len(questions), 1000)
        self.assertEqual(replied(questions), slacks)

    def test_one_period_alone(self):
        asked_about = []
        for data, (number, _, period, _) in list(self.whole())[::2]:
            made = parsed(data)
            near = period if number == 0 else made.ceiling
            asked_about += [(data, made._replace(floor=at, ceiling=at).bytes(), at) for at in (near, near - 1) if at >= 1]
        self.assertGreater(len(asked_about), 300)
        for (data, _, at), (number, _, period, latencies) in zip(asked_about, solved([one for _, one, _ in asked_about])):
            ran = run("schedule", "--json", "--period", at, data=data)
            self.assertEqual((ran.json["result"]["number"], ran.json["asked"]), (number, at))
            if number == 0:
                self.assertEqual((ran.json["period"], [one["latency"] for one in ran.json["latencies"]]), (period, latencies))
            else:
                self.loop(parsed(data)._replace(ceiling=at), number, None, ran.json["loop"])

    def test_there_and_back(self):
        compared = 0
        for data, (number, *_) in self.whole():
            for form in ("csv", "text"):
                there = run("convert", "--to", form, data=data)
                back = run("convert", "--to", "file", data=there.out)
                self.assertEqual((there.status, there.err, back.status, back.err, back.out), (0, "", 0, "", data))
            compared += 1
        self.assertGreater(compared, 500)

    def test_a_network_as_text_or_table_has_the_same_answer(self):
        for data, (number, *_) in list(self.whole())[::7]:
            told = [run("schedule", "--json", data=made) for made in (data, parsed(data).text())]
            self.assertEqual(*({**ran.json, "input": None} for ran in told))
            table, keys = run("schedule", "--json", data=parsed(data).csv()).json, ("result", "period", "gain", "without_skew")
            self.assertEqual([table.get(key) for key in keys], [told[0].json.get(key) for key in keys])


if __name__ == "__main__":
    unittest.main()

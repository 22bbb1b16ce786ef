#!/usr/bin/env python3
"""Tests of the picture: python3 test_svg.py"""

import math
import os
import re
import subprocess
import sys
import unittest
import xml.etree.ElementTree as tree
from collections import Counter
from pathlib import Path

HERE = Path(__file__).resolve().parent
sys.path[:0] = [str(HERE), str(HERE.parent)]

from mileparcel.svg import picture  # noqa: E402
from svg_reader import Picture, box, meant, middle, nearest, overlaps  # noqa: E402

KINDS = ("setup", "hold", "low", "high")
COUNTS = (1, 2, 3, 4, 5, 10, 12, 13, 40, 100, 256)
MARGIN = 12
LONG = "u_core/u_alu/result_reg[{:03}]/CK"
ODD = ["<&>", "\"'", "a&amp;b", "]]>", "\u7247\u96c4", "u  v", "\\esc[3] ", "&#10;"]


def nanoseconds(time):
    return f"{time / 1000:.3f}"


def names_of(count, form="r{}"):
    return ["host"] + [form.format(k) for k in range(1, count)]


def loop_of(names, size=1, kinds=KINDS):
    """A closed chain through the registers, of the kinds in turn, whose amounts add up to 1 or more."""
    amounts = [size * ((37 * k + 11) % 101 - 50) for k in range(len(names))]
    amounts[0] += max(0, 1 - sum(amounts))
    rules = []
    for k, name in enumerate(names):
        ends = {"tail": name, "head": names[(k + 1) % len(names)]}
        rules.append({"kind": kinds[k % len(kinds)], "number": 1792 + k, **ends, "amount": amounts[k]})
    return {"period": 1247, "sum": sum(amounts), "rules": rules}


def spread(count, low, high):
    """Slacks from low to high of all kinds, low first."""
    return [(KINDS[k % 4], low + (high - low) * (3571 * k % 9973) // 9972) for k in range(count)]


EXTREMES = [("setup", -3109999), ("setup", 12100000)]
SLACKS = {
    "one": [("hold", 0)],
    "five": [("setup", 0), ("hold", 3), ("low", 5), ("high", 9), ("setup", 12100000)],
    "equal": [(KINDS[k % 4], 0) for k in range(100)],
    "equal and far": [("low", 12100000)] * 4600,
    "equal and broken": [("high", -7)] * 3,
    "hundred": spread(100, -40, 800),
    "met": [(kind, slack * slack // 2400) for kind, slack in spread(4600, 0, 2400)],
    "broken": spread(100, -400, -3),
    "outliers": spread(4600, -150, 600) + EXTREMES,
    "broken outliers": spread(4600, 0, 500) + [("hold", -2110000)] * 20,
    "almost all equal": [("setup", 0)] * 4500 + [("low", 1 + k % 9) for k in range(60)] + EXTREMES,
    "an outlier at an edge": [("setup", 0), ("setup", 0), ("setup", 0), ("hold", 1), ("low", 10)],
    "extremes": EXTREMES,
    "wide": spread(4600, -3109999, 12100000),
}


def title_of(rule):
    return rule["kind"] + (" path " if rule["kind"] in ("setup", "hold") else " ") + str(rule["number"])


def drawn_ranges(name):
    return sorted({meant(bar.tip)[2:] for bar in Picture(picture("t", None, SLACKS[name])).bars()})


class Case(unittest.TestCase):
    def check_sound(self, drawn):
        """Nothing comes near the edge, no text is on another, on the ring or on a bar, and none stands on its head."""
        left, top, wide, high = map(float, drawn.root.get("viewBox").split())
        self.assertEqual((left, top, wide, high), (0, 0, float(drawn.root.get("width")), float(drawn.root.get("height"))))
        for shape in drawn.shapes:
            x1, y1, x2, y2 = box(shape.points())
            inside = MARGIN <= x1 <= x2 <= wide - MARGIN and MARGIN <= y1 <= y2 <= high - MARGIN
            self.assertTrue(inside, tree.tostring(shape.element))
        nodes = [shape for shape in drawn.of("circle", 1) if shape.tip]
        self.assertEqual(list(overlaps(drawn.of("text") + drawn.of("polygon", 1) + nodes + drawn.bars())), [])
        self.assertGreater(min(shape.matrix[0] for shape in drawn.of("text")), -0.01)


class Ring(Case):
    def check(self, loop, unit, show):
        """Every name, rule and amount stands in the ring once for each arrow, and so do the words; nothing else does."""
        drawn = Picture(picture("t", loop, [], unit, show))
        self.check_sound(drawn)
        rules = loop["rules"]
        signed = [f"{'+' if rule['amount'] > 0 else ''}{show(rule['amount'])} {unit}" for rule in rules]
        due = Counter([*(rule["tail"] for rule in rules), *map(title_of, rules), *signed])
        period, total = f"{show(loop['period'])} {unit}", show(loop["sum"])
        due.update([f"sum +{total} {unit}", "the amounts add up to", f"{total} > 0 at {period},", "so the clock cannot", "have this period"])
        due.update([f"A loop that contradicts itself at {period}", "an arrow from a to b: latency of b >= latency of a + amount"])
        self.assertEqual(drawn.words(1), due)
        tips = [f"{title_of(rule)}: latency of {rule['head']} >= latency of {rule['tail']} {amount}" for rule, amount in zip(rules, signed)]
        self.assertEqual([tip for tip, _ in drawn.arrows()], tips)
        return drawn

    def test_labels(self):
        for count in COUNTS:
            with self.subTest(count):
                self.check(loop_of(names_of(count)), "ps", str)
                self.check(loop_of(names_of(count, LONG), 19999), "ns", nanoseconds)

    def test_names_with_any_characters(self):
        for names in (ODD, 3 * ODD[:1] + names_of(20, "<\u96c4&amp;{}>"), names_of(6, 30 * "\u7247" + "{}"), names_of(4, 200 * "W" + "{}")):
            self.check(loop_of(names), "ps", str)

    def test_what_xml_cannot_hold(self):
        drawn = Picture(picture("x\0\ny", loop_of(["host", "a\0b\x1b\ud800c\uffff\td"]), []))
        self.assertEqual(drawn.words(1)["a\ufffdb\ufffd\ufffdc\ufffd d"], 1)
        self.assertEqual(drawn.words(0)["x\ufffd y"], 1)

    def test_arrows_lead_from_tail_to_head(self):
        """And what stands nearest to a register is its name, and to an arrow's mark its rule."""
        for count in (1, 2, 3, 10, 40):
            loop = loop_of(names_of(count))
            drawn = Picture(picture("t", loop, []))
            nodes = {shape.tip: shape.points() for shape in drawn.of("circle", 1)}
            labels = {shape.element.text: shape.points() for shape in drawn.of("text", 1)}
            names, titles = ({word: labels[word] for word in words} for words in (nodes, map(title_of, loop["rules"])))
            for rule, (_, (line, head, mark)) in zip(loop["rules"], drawn.arrows()):
                ends = re.fullmatch(r"M(\S+) ([^A]+)A.* (\S+) (\S+)", line.element.get("d")).groups()
                x1, y1, x2, y2 = map(float, ends)
                start, end = line.moved([(x1, y1), (x2, y2)])
                self.assertLess(math.dist(end, middle(head)), 6)
                self.assertEqual(nearest(start, nodes), rule["tail"])
                self.assertEqual(nearest(head.points()[0], nodes), rule["head"])
                self.assertEqual(nearest(start, names), rule["tail"])
                self.assertEqual(nearest(middle(mark), titles), title_of(rule))

    def test_kinds_differ_in_colour_dash_and_mark(self):
        for count in (4, 40):
            looks = {}
            for (tip, (line, _, mark)) in Picture(picture("t", loop_of(names_of(count)), [])).arrows():
                x, y = middle(mark)
                outline = tuple((round(a - x), round(b - y)) for a, b in mark.points())
                looks.setdefault(tip.split()[0], []).append((line.element.get("stroke"), line.element.get("stroke-dasharray"), outline))
            self.assertEqual(set(looks), set(KINDS))
            for look in zip(*(each[0] for each in looks.values())):
                self.assertEqual(len(set(look)), 4)

    def test_without_a_setup_rule_no_period_will_do(self):
        words = Picture(picture("t", loop_of(names_of(3), kinds=["hold", "low", "high"]), [])).words(1)
        self.assertEqual((words["1 > 0 at every period,"], words["have any period"]), (1, 1))
        self.assertEqual(words["A loop that contradicts itself at every period"], 1)

    def test_no_loop(self):
        drawn = Picture(picture("t", None, SLACKS["hundred"]))
        self.check_sound(drawn)
        self.assertEqual(drawn.words(1), Counter(["No loop is shown", "the period is at the floor"]))


class Histogram(Case):
    def test_bars_count_every_slack(self):
        for name, slacks in SLACKS.items():
            with self.subTest(name):
                drawn = Picture(picture("t", None, slacks))
                self.check_sound(drawn)
                totals = Counter()
                for bar in drawn.bars():
                    count, kind, low, high = meant(bar.tip)
                    self.assertEqual(count, sum(each == kind and low <= slack <= high for each, slack in slacks), bar.tip)
                    totals[kind] += count
                self.assertEqual(totals, Counter(kind for kind, _ in slacks))

    def test_heights_tell_counts(self):
        for name, slacks in SLACKS.items():
            bars = [(meant(bar.tip), box(bar.points())) for bar in Picture(picture("t", None, slacks)).bars()]
            ratio = max(y2 - y1 for _, (_, y1, _, y2) in bars) / max(count for (count, *_), _ in bars)
            foot = max(y2 for _, (_, _, _, y2) in bars)
            tops = {}
            for (count, _, low, _), (_, y1, _, y2) in bars:
                self.assertAlmostEqual(y2 - y1, max(1, ratio * count), delta=0.2, msg=name)
                self.assertAlmostEqual(y2, tops.get(low, foot), delta=0.2, msg=name)
                tops[low] = y1

    def test_bars_stand_at_their_slacks(self):
        """Counted from the line at 0; those that gather an end stand farther out."""
        for name, slacks in SLACKS.items():
            drawn = Picture(picture("t", None, slacks))
            step = int(re.search(r"each bar is (\d+) ps wide", "\n".join(drawn.words(2)))[1])
            zero = next(middle(shape)[0] for shape in drawn.of("line", 2) if shape.get("stroke-width") == 2)
            for bar in drawn.bars():
                (_, _, low, high), (x1, _, x2, _) = meant(bar.tip), box(bar.points())
                slot = x2 - x1 + 2
                if low == -math.inf:
                    self.assertLess(x2, zero + (high + 1) / step * slot - 15, (name, bar.tip))
                elif high == math.inf:
                    self.assertGreater(x1, zero + low / step * slot + 15, (name, bar.tip))
                else:
                    self.assertAlmostEqual(x1 - 1, zero + low / step * slot, delta=2, msg=(name, bar.tip))

    def test_0_parts_broken_from_met(self):
        for name, slacks in SLACKS.items():
            drawn = Picture(picture("t", None, slacks))
            zero = [middle(shape)[0] for shape in drawn.of("line", 2) if shape.get("stroke-width") == 2]
            tick = [middle(shape)[0] for shape in drawn.of("text", 2) if shape.element.text == "0" and shape.element.get("font-weight")]
            self.assertEqual(len(zero), 1)
            self.assertAlmostEqual(zero[0], *tick, delta=0.1)
            for bar in drawn.bars():
                (_, _, low, high), (x1, _, x2, _) = meant(bar.tip), box(bar.points())
                self.assertTrue(high < 0 and x2 <= zero[0] or low >= 0 and x1 >= zero[0], (name, bar.tip))
            broken = any(slack < 0 for _, slack in slacks)
            self.assertEqual(drawn.words(2)["broken"], broken, name)
            self.assertEqual({bar.element.get("stroke") for bar in drawn.bars() if meant(bar.tip)[3] < 0}, {"#a50f15"} if broken else set())

    def test_steps_are_round_and_outliers_leave_the_rest_readable(self):
        for name, slacks in SLACKS.items():
            drawn = Picture(picture("t", None, slacks))
            step = re.search(r"each bar is (\d+) ps wide", "\n".join(drawn.words(2)))[1]
            self.assertRegex(step, "^[125]0*$")
            ranges = {meant(bar.tip)[2:] for bar in drawn.bars()}
            self.assertLessEqual(len(ranges), 30)
            if len(slacks) >= 100 and "equal" not in name:
                self.assertGreaterEqual(len(ranges), 10, name)
        self.assertEqual(drawn_ranges("almost all equal"), [(-math.inf, -1)] + [(k, k) for k in range(10)] + [(10, math.inf)])

    def test_words(self):
        due = {
            "one": ["The slack of 1 rule", "worst slack 0 ps (hold); no rule is broken"],
            "five": ["right bar: 1 slack of 10 ps or more, the greatest 12100000 ps", "10 or more"],
            "equal": ["The slack of 100 rules", "worst slack 0 ps (setup, hold, low, high); no rule is broken"],
            "equal and broken": ["worst slack -7 ps (high); 3 rules are broken"],
            "broken outliers": ["left bar: 20 slacks below 0 ps, the least -2110000 ps", "below 0"],
            "extremes": ["worst slack -3109999 ps (setup); 1 rule is broken"],
        }
        for name, lines in due.items():
            words = Picture(picture("t", None, SLACKS[name])).words(2)
            self.assertEqual([words[line] for line in lines], [1] * len(lines), (name, words))

    def test_unit(self):
        words = Picture(picture("t", None, SLACKS["hundred"], "ns", nanoseconds)).words(2)
        broken = sum(slack < 0 for _, slack in SLACKS["hundred"])
        self.assertEqual(words[f"worst slack -0.040 ns (setup); {broken} rules are broken"], 1, words)
        self.assertEqual(words["slack in ns; each bar is 0.050 ns wide and counts its left edge"], 1, words)


class Whole(Case):
    def test_nothing_to_show(self):
        drawn = Picture(picture("t", None, []))
        self.check_sound(drawn)
        self.assertEqual(drawn.words(2), Counter(["No slacks to show"]))

    def test_all_together(self):
        title = "a <long> title & " + 300 * "x"
        for count, name in ((2, "hundred"), (256, "outliers")):
            drawn = Picture(picture(title, loop_of(names_of(count, LONG)), SLACKS[name]))
            self.check_sound(drawn)
            self.assertEqual(drawn.words(0), Counter([title, *KINDS]))

    def test_title_and_description(self):
        root = Picture(picture("a.net: period 9 ps", loop_of(names_of(2)), SLACKS["five"])).root
        self.assertEqual(root[0].text, "a.net: period 9 ps")
        self.assertIn("A loop of 2 rules whose amounts at 1247 ps add up to 1 ps, which is above 0", root[1].text)
        self.assertIn("5 slacks: the worst is 0 ps, 0 of them are below 0", root[1].text)

    def test_it_stands_alone(self):
        source = picture("t", loop_of(ODD), SLACKS["outliers"])
        self.assertTrue(source.isascii())
        self.assertEqual(re.findall(r"<script|href|@import|<image|<style|\son\w+=", source), [])
        self.assertEqual(set(re.findall(r"url\(([^)]*)\)", source)), {f"#bars-{kind}" for kind in KINDS[1:]})
        self.assertEqual(set(re.findall(r'\bid="([^"]*)"', source)), {f"bars-{kind}" for kind in KINDS[1:]})
        self.assertEqual(set(re.findall(r'font-family="([^"]*)"', source)), {"sans-serif", "monospace"})
        self.assertEqual(re.findall(r"\.\d{3}|\de[-+]\d|nan|inf|-0\b(?!\.)", re.sub(">[^<]*<", "><", source)), [])

    def test_same_input_same_bytes(self):
        script = "import test_svg as t; print(t.picture('t', t.loop_of(t.ODD), t.SLACKS['outliers']), end='')"
        here = picture("t", loop_of(ODD), SLACKS["outliers"])
        for seed in "12":
            there = {**os.environ, "PYTHONHASHSEED": seed, "PYTHONDONTWRITEBYTECODE": "1"}
            again = subprocess.run([sys.executable, "-c", script], cwd=HERE, env=there, capture_output=True, text=True, check=True)
            self.assertEqual(again.stdout, here)


if __name__ == "__main__":
    unittest.main()

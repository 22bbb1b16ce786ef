"""Tests of the naming of places: `python3 -m unittest test_places`."""
import unittest

import places

LTS = """
      pub record Start : Type 0 where
        pub κs : Lifetimes.Lfts 2
""" + "".join(
    f"""
      pub record After-{name} : Type 0 where
        pub before : {before}
"""
    for before, name in [("Start", "a"), ("After-a", "b"), ("After-b", "c"), ("After-c", "d"), ("After-d", "e")]
) + """
      abbrev pub Need-returns : Type 0
      Need-returns =
          (c : After-e) → s1 .asks (m1 (c .before))
      abbrev pub Need-easy : Type 0
      Need-easy = (c : After-b) → s2 .asks (m2 c)
"""

PROOF = """-- what it says
use Rattle·x·proofs.proofs.f.Tie as tie

easy : tie.Need-easy
easy c κs = search needs

returns : tie.Need-returns
returns c =
    let s = c .before .before .before .before .before in
    law (s .pre) (c .before .before .before .b)

pub f-spec : {M : Type 1} → statement M
f-spec = tie.close (tie.spec easy returns)
"""


class Rewriting(unittest.TestCase):
    def setUp(self):
        self.text = places.rewrite(PROOF, LTS)

    def test_a_long_chain_gets_a_name(self):
        self.assertIn("let s = start-at-e c in", self.text)
        self.assertIn("abbrev start-at-e : (c : tie.After-e) → tie.Start\n", self.text)

    def test_no_chain_is_longer_than_three(self):
        self.assertNotIn(" .before" * 4, self.text)

    def test_names_lead_to_the_place_that_was_meant(self):
        steps = {}
        for name, body in places.re.findall(r"^(\S+-at-\S+) c = (.*)$", self.text, places.re.M):
            steps[name] = body.count(".before") + sum(steps[n] for n in steps if n + " " in body)
        self.assertEqual(steps["start-at-e"], 5)

    def test_a_short_chain_stays(self):
        self.assertIn("(c .before .before .before .b)", self.text)

    def test_an_answer_that_a_search_finds_goes_into_the_list(self):
        self.assertNotIn("easy :", self.text)
        self.assertIn("(tie.spec (λ c κs. search needs) returns)", self.text)

    def test_a_second_run_changes_nothing(self):
        self.assertEqual(places.rewrite(self.text, LTS), self.text)


if __name__ == "__main__":
    unittest.main()

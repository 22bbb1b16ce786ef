#!/usr/bin/env python3
"""Names the places that a proof speaks of: `tools/places.py CRATE [FUNCTION ..]`, a function by its folder under proofs/, as `relax/turn`.

In a Proof.antt a place of the code is reached from another by `.before`, once for each step back. A chain of more than three counts steps, and
moves with every change of the code. This writes `y-at-x c` for it, and above the answers an abbreviation for each such pair of places, itself
of at most three steps or by way of another name. Answers that are `search needs` alone go into the list of answers.

The places come from `rt goals CRATE`. Read what it wrote, then `rt fmt` and `rt dev CRATE`: the prover says whether it is right.

It serves proofs by hand-written walks, of which crates/ has none any more, and by two commands that today's kit lacks: what stands today is
`rt check --start F --allow-holes` in a crate's folder, which prints the goals of a function F without a proof and the names that one can use.
"""
import pathlib
import re
import subprocess
import sys

MOST = 3
NAME = r"[\w·-]+"
LOOP = r"(?: Inv-loop μ-loop)?"
NAMED = re.compile(
    rf"^abbrev (?:pub )?(\S+) :\s+(?:\(\w+ : tie\.({NAME}){LOOP}\)|tie\.({NAME}){LOOP})\s+→\s+tie\.({NAME}){LOOP}\n\1 (\w+) = (.*)$", re.M
)
CHAIN = re.compile(
    rf"let (\S+) = ([a-zA-Z0-9-]+)((?:\s+\.before)+)(?=\s+in\b|\s*$)|(?<![\w.-])([a-zA-Z][\w'-]*)((?:\s+\.before)+)(?![\w-])", re.M
)


class Places:
    """The places of a function: which one each comes from, and at which one each need is asked."""

    def __init__(self, lts):
        self.parent, self.asked, record = {}, {}, None
        lines = lts.split("\n")
        for line, after in zip(lines, lines[1:] + [""]):
            if m := re.match(r"\s*pub record (\S+) : Type", line):
                record = m[1]
            if (m := re.match(r"\s*pub before : (\S+)$", line)) and record:
                self.parent[record] = m[1]
            if m := re.match(r"\s*(Need-\S+) =(.*)$", line):
                if k := re.search(r"\(c : (\S+?)\)", m[2] + " " + after):
                    self.asked[m[1]] = k[1]

    def back(self, place, steps):
        """The place so many steps before, or None past the start."""
        for _ in range(steps):
            place = self.parent.get(place)
        return place

    def between(self, place, end):
        """From a place back to an earlier one, both included."""
        way = [place]
        while way[-1] != end:
            way.append(self.parent[way[-1]])
        return way

    def steps(self, place, end):
        return len(self.between(place, end)) - 1


class Names:
    """The names of pairs of places, those that stand already and those that are to be written."""

    def __init__(self, places, loop):
        self.places, self.loop, self.given, self.written = places, loop, {}, {}

    def name(self, place, end):
        short = [re.sub("^After-", "", x).lower() for x in (end, place)]
        return self.given.get((place, end)) or "-at-".join(short)

    def known(self, place, end):
        return (place, end) in self.given or (place, end) in self.written

    def cost(self, place, end, memo):
        """How many new names it takes to name this pair, and by way of which place."""
        if self.known(place, end):
            return 0, None
        if self.places.steps(place, end) <= MOST:
            return 1, None
        if (place, end) not in memo:
            ways = []
            for z in self.places.between(place, end)[1:-1]:
                near, far = self.places.steps(place, z), self.places.steps(z, end)
                first = 0 if near <= MOST else self.cost(place, z, memo)[0]
                rest = 0 if far <= MOST and near > MOST else self.cost(z, end, memo)[0]
                ways.append((1 + first + rest, z))
            memo[(place, end)] = min(ways, key=lambda w: w[0])
        return memo[(place, end)]

    def step(self, place, end, arg):
        """The earlier place, said of a term: by its name, or by its few steps."""
        if self.known(place, end):
            return f"{self.name(place, end)} {arg}"
        return arg + " .before" * self.places.steps(place, end)

    def define(self, place, end, name=None):
        if self.known(place, end):
            return
        z = None if self.places.steps(place, end) <= MOST else self.cost(place, end, {})[1]
        body = "c" + " .before" * self.places.steps(place, end)
        if z:
            if self.places.steps(place, z) > MOST:
                self.define(place, z)
            if self.places.steps(z, end) > MOST or not self.known(place, z):
                self.define(z, end)
            body = self.step(z, end, f"({self.step(place, z, 'c')})")
        name = name or self.name(place, end)
        self.written[(place, end)] = f"abbrev {name} : (c : tie.{place}{self.loop}) → tie.{end}{self.loop}\n{name} c = {body}"


def rename(block, at, names):
    """A definition with its long chains named; `at` says at which place each variable of it stands."""
    out, done = [], 0
    for m in CHAIN.finditer(block):
        variable, chain = m[2] or m[4], m[3] or m[5]
        steps = chain.count(".before")
        end = at.get(variable) and names.places.back(at[variable], steps)
        if m[1] and end:
            at[m[1]] = end
        if not end or steps <= MOST:
            continue
        names.define(at[variable], end)
        said = f"{names.name(at[variable], end)} {variable}"
        bare = block[: m.start()].rstrip(" ").endswith("(") and block[m.end() :].startswith(")")
        said = f"let {m[1]} = {said}" if m[1] else said if bare else f"({said})"
        out.append(block[done : m.start()] + said)
        done = m.end()
    return "".join(out) + block[done:]


def variables(block, places):
    """At which place each variable of a definition stands, by its signature."""
    at = {}
    if (m := re.search(r"^(\S+) : tie\.(Need-\S+)", block, re.M)) and m[2] in places.asked:
        for use in re.finditer(rf"^{re.escape(m[1])} (\S+)(?: \S+)* =", block, re.M):
            at[use[1]] = places.asked[m[2]]
    for m in re.finditer(rf"\((\w+) : tie\.({NAME}){LOOP}\)", block):
        at[m[1]] = m[2]
    return at


def inline(text):
    """Answers that a search finds go into the list of answers."""
    for m in re.finditer(r"^(\S+) : tie\.Need-\S+.*\n\1 ((?:\S+ )*)= search needs\n\n", text, re.M):
        rest = text.replace(m[0], "", 1)
        word = rf"(?<![\w-]){re.escape(m[1])}(?![\w-])"
        head, mark, answers = rest.rpartition("tie.spec")
        if len(re.findall(word, rest)) == 1 and re.search(word, answers):
            text = head + mark + re.sub(word, f"(λ {m[2].strip()}. search needs)", answers, count=1)
    return text


def rewrite(text, lts):
    places = Places(lts)
    names = Names(places, " Inv-loop μ-loop" if re.search("^abbrev Inv-loop", text, re.M) else "")
    for m in NAMED.finditer(text):
        names.given[(m[2] or m[3], m[4])] = m[1]
    blocks = re.split(r"(\n\n+)", text)
    blocks = [b if NAMED.search(b) or b.startswith("use ") else rename(b, variables(b, places), names) for b in blocks]
    text = "".join(blocks)
    if names.written:
        stand = [m.end() for m in NAMED.finditer(text)] or [m.end() - 1 for m in re.finditer(r"^abbrev μ-loop.*\n(?:.+\n)+", text, re.M)]
        stand = stand or [m.end() for m in re.finditer("^use .*$", text, re.M)]
        text = text[: stand[-1]] + "\n\n" + "\n\n".join(names.written.values()) + text[stand[-1] :]
    return inline(text)


def main(crate, functions):
    root = pathlib.Path(__file__).resolve().parent.parent
    subprocess.run(["rt", "goals", crate], cwd=root, check=True)
    proofs = root / "crates" / crate / "proofs"
    for proof in sorted(proofs.rglob("Proof.antt")):
        function = proof.parent.relative_to(proofs)
        lts = root / "target" / "goals" / crate / f"Rattle·{crate}·proofs" / "proofs" / function / "Lts.antt"
        if lts.exists() and (not functions or str(function) in functions):
            proof.write_text(rewrite(proof.read_text(), lts.read_text()))


if __name__ == "__main__":
    if len(sys.argv) < 2 or sys.argv[1].startswith("-"):
        sys.exit(__doc__)
    main(sys.argv[1], sys.argv[2:])

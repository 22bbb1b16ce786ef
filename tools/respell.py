#!/usr/bin/env python3
"""Spells the definitions and lemmas of crates/ as today's Rattle does: words in snake case, types, facts and modules in camel case.

usage: python3 tools/respell.py [--names] [FOLDER..]

It runs behind the kit's port.py, at the top of the repository; each FOLDER is another copy of it. A dash stays only where it joins a definition's
name to that of a function of lists, as in 'total-append'. Names that only a function's own Proof.antt declares stay, as do the names of the library, Rust's names, strings,
and comments but for what stands in backticks. With --names it changes nothing and prints each old name and its new one.
It stops where two names would fall together in one file; names of files that do not meet may become one.
"""
import os
import re
import sys

NAME = r'[^\s(){}.;,@"«»`\[\]|]+'
# What a line declares: its modifiers, the name, its implicit arguments and a colon.
DECLARED = re.compile(rf"(?m)^ *((?:abbrev |pub |unfoldable |record |data )*)({NAME})(?: \{{[^{{}}\n]*\}})* :(?=[ \n])")
RULESET = re.compile(rf"(?m)^ *(?:pub )?ruleset ({NAME}) =")
# A definition of specs/, in whose name a lemma's dash may end.
DEFINED = re.compile(rf"(?m)^ *(?:abbrev |unfoldable )(?:pub )?({NAME})(?: \{{[^{{}}\n]*\}})* :(?=[ \n])")
# The functions of lists that a lemma's name may join to a definition's by a dash, as the library's `length-append` does.
JOINED = {"append", "length"}
SHARED = re.compile(r"/(specs|proofs)/[A-Z]\w*\.antt$")
# The answers to a function's goals.
STEPS = re.compile(r"/proofs/(?![A-Z]\w*\.antt$).*/(Answers|Invariants)\.antt$")
# What a rewriting skips: comments and strings, each kept as it is.
COMMENT = re.compile(r"--[^\n]*|//[^\n]*|\"(?:\\.|[^\"\\])*\"")
# A name of its own: in a path or behind a field's dot too, but no part of a longer one.
TOKEN = re.compile(NAME)


def texts(top):
    for folder, dirs, files in os.walk(os.path.join(top, "crates")):
        dirs[:] = sorted(d for d in dirs if d not in ("out", "must-fail", "data"))
        for f in sorted(files):
            if f.endswith((".antt", ".rt")):
                yield os.path.join(folder, f)


def read(path):
    with open(path, encoding="utf-8") as f:
        return f.read()


def snake(name):
    """The name in snake case; a capital alone behind a dash, as a network's letter, is a word too, but T of 'no-T' is the type."""
    name = re.sub(r"(?<=[a-z0-9])([A-Zℤ])", lambda m: "_" + m[0].lower(), name)
    name = re.sub(r"(?<=-)([A-SU-Z]\d*)(?=-|$)", lambda m: m[0].lower(), name)
    name = re.sub(r"(?<=-)(T\d*)$", lambda m: m[0] if name == "no-T" else m[0].lower(), name)
    return name.replace("′", "'")


def spelled(name, defined):
    """The name as it is to be: a dash stays between a definition and a function of lists, and any other is an underscore. A type's is in camel case."""
    if name[0].isupper():
        return re.sub(r"-([a-z])", lambda m: m[1].upper(), name)
    words = snake(name)
    of, _, function = words.partition("-")
    if function in JOINED and of in defined:
        return words
    return words.replace("-", "_")


# Definitions that would meet another name of their crate; and two fields that meet none, though a definition elsewhere has their name.
APART = {"noLoop": "not_loop", "byLoop": "by_that_loop", "fixedCount": "fixed_rule_count", "fixed-count": "fixed_count", "in-range": "in_range"}


def table_of(top):
    """Each own name whose spelling changes, with its new one. A lemma that would get the name of a definition that it is about ends in '_lem'."""
    declared, defined = set(), {"map"}
    for path in texts(top):
        if not path.endswith(".antt"):
            continue
        text = read(path)
        if SHARED.search(path):
            declared.update(m[2] for m in DECLARED.finditer(text))
            declared.update(RULESET.findall(text))
        if "/specs/" in path:
            defined.update(snake(m) for m in DEFINED.findall(text) if m[0].islower())
    own = (n for n in declared if n[0].islower() or n[0] == "μ" or "-" in n)
    table = {n: APART.get(n) or spelled(n, defined) for n in own if spelled(n, defined) != n}
    # Laws of a file's bytes (`file-A`) and the file itself (`fileA`) are in files that do not meet.
    taken = {spelled(n, defined) for n in declared if "-" not in n}
    about = {old for old, new in table.items() if "-" in old and new in taken and old not in APART and not old.startswith("file-")}
    return {old: new + "_lem" * (old in about) for old, new in table.items()}


def tokens(text):
    return set(TOKEN.findall(COMMENT.sub(" ", text)))


def clashes(top, table):
    """Places where a changed name would meet another: one that stands there already, or one that becomes the same."""
    found = []
    # A function of Rust may have a definition's name, since no clause can call it.
    functions = {f for path in texts(top) if path.endswith(".rt") for f in re.findall(r"\bfn (\w+)", read(path))}
    for path in texts(top):
        here = tokens(read(path)) - functions
        for old in sorted(here & set(table)):
            rivals = [n for n in here if n != old and table.get(n, n) == table[old]]
            found += [f"{os.path.relpath(path, top)}: {old} and {n} are both {table[old]}" for n in rivals]
    return found


def respelled(text, table, shared):
    """The text with its names turned. In a function's own proof what stands behind a dot is a step of the code, and stays."""
    name = TOKEN if shared else re.compile(rf"(?<![^\s(){{}};,@\"«»`\[\]|]){NAME}")

    def names(part):
        return name.sub(lambda m: table.get(m[0], m[0]), part)

    done, at = [], 0
    for m in COMMENT.finditer(text):
        done.append(names(text[at : m.start()]))
        quoted = lambda q: "`" + names(q[1]) + "`"
        done.append(m[0] if m[0][0] == '"' else re.sub(r"`([^`\n]*)`", quoted, m[0]))
        at = m.end()
    return "".join(done) + names(text[at:])


def main(words):
    if any(w.startswith("-") and w != "--names" for w in words):
        print(__doc__)
        return 2
    tops = [w for w in words if not w.startswith("--")] or ["."]
    for top in tops:
        table = table_of(top)
        if "--names" in words:
            print("\n".join(f"{old}\t{new}" for old, new in sorted(table.items())))
            continue
        meets = clashes(top, table)
        if meets:
            print("\n".join(meets))
            return 1
        for path in texts(top):
            text = read(path)
            new = respelled(text, table, not STEPS.search(path))
            if new != text:
                with open(path, "w", encoding="utf-8") as f:
                    f.write(new)
        print(f"respell: {len(table)} names in {top}")
    return 0


if __name__ == "__main__":
    sys.exit(main(sys.argv[1:]))

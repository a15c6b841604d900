#!/usr/bin/env python3
"""Brings the names of this repository's definitions, lemmas, fields and constructors to the spelling of the Rattle it was ported to.

usage: tools/respell.py [--list]        at the top of the repository, once, after port.py

A function or lemma in camel case becomes snake case (classFrom: class_from), and so do fields and constructors with dashes. In a
lemma's name a dash stays where it joins the names of two functions (length-stored), and is an underscore elsewhere. A fact begins
with a capital letter. A lemma that would get the name of a function gets _lem behind it. Names that Rattle makes stay, and so do
those of Rust code: only what specs/ and proofs/ declare is turned, wherever it is cited: there, in clauses, edits and pages.
--list prints the names and changes nothing.
"""

import collections
import glob
import os
import re
import sys

WORD = r"[^\s(){}\[\];,.:λ⌜⌝«»@\"`]+"
TOKEN = re.compile(WORD)
MADE = ("Proof.antt", "Answers.antt", "Invariants.antt")
NOT_NAMES = ("use", "mod", "open", "ruleset", "syntax", "infix", "infixl", "infixr", "--")
# Functions of the library that stand in names of lemmas.
LIBRARY = """length append map reverse take drop get_or set replicate sum min max suc zero cond leb ltb nat_eq eqb all any mod div fst snd
and or not add sub mul le lt eq""".split()
# A lemma's name that had an older word of the library in it.
OLDER = (("getD", "get_or"),)
# Fields whose names would fall together with a function that the same record cites, and what they get instead.
INSTEAD = {
    "in-ring": "stands_in_ring",
    "its-turn": "turns_of_it",
    "turn-frame": "frame_of_turn",
    "is-over": "is_over_now",
    "is-calm": "stays_calm",
    "is-spared": "stays_spared",
    "is-marked": "has_mark",
}
# Local names of one file that would fall together with a function that it cites: turned first, there alone.
THERE = {
    "crates/delivery/proofs/Captured.antt": {"in_frame": "has_frame"},
    "crates/polling/proofs/Joined.antt": {"in_frame": "was_in_frame"},
    "crates/delivery/proofs/Frame.antt": {"last_of": "last_fits", "lastOf": "last_nibble_of"},
    "crates/delivery/proofs/TheBus.antt": {"at_unit": "at_unit_lem"},
    "crates/inside/proofs/Written.antt": {"shown_by": "shown_from"},
}
for _file in ("Stage", "Part", "Frame", "EveryRound", "Followed", "Listening", "Story", "Rest"):
    THERE.setdefault(f"crates/delivery/proofs/{_file}.antt", {})["low_step"] = "low_step_lem"
THERE["crates/polling/proofs/Chain.antt"] = {"low_step": "low_step_lem"}


def snake(name):
    return re.sub(r"(?<=[a-z0-9])([A-Z])", lambda m: "_" + m[1].lower(), name)


def declared(paths):
    functions, lemmas, parts, facts = set(), set(), set(), set()
    for path in paths:
        text = re.sub(r"--.*", "", open(path, encoding="utf-8").read())
        for chunk in re.split(r"\n(?=\S)", text):
            m = re.match(r"((?:abbrev |unfoldable |pub )*)(record |data )?(%s)((?:.|\n)*)" % WORD, chunk)
            if not m or m[3] in NOT_NAMES:
                continue
            rest = m[4]
            if m[2]:
                for f in re.finditer(r"\n\s+(?:pub )?(%s(?: %s)*)\s*:" % (WORD, WORD), rest):
                    parts.update(f[1].split())
                for f in re.finditer(r"\|\s*(%s)\s*:" % WORD, rest):
                    parts.add(f[1])
            elif re.match(r"\s*(\(|\{|:)", rest) and ":" in rest:
                if re.search(r"(→|:)\s*Type \d\s*$", rest.strip()):
                    facts.add(m[3])
                elif "abbrev" in m[1] or "unfoldable" in m[1]:
                    functions.add(m[3])
                else:
                    lemmas.add(m[3])
    return functions, lemmas, parts, facts


def renamed(functions, lemmas, parts, facts):
    turned = {}
    for name in sorted(functions | parts):
        if re.match(r"[a-z].*([a-z0-9][A-Z]|-)", name):
            turned[name] = snake(name).replace("-", "_")
    for name in sorted(facts):
        if name[0].islower():
            turned[name] = name[0].upper() + name[1:]
    words = {turned.get(n, n) for n in functions | facts} | set(LIBRARY)
    taken = {turned.get(n, n) for n in functions}
    for name in sorted(lemmas):
        if name in turned:
            continue
        new = name
        for old, now in OLDER:
            new = re.sub(r"(?<![\w])%s(?=-)" % old, now, new)
        pieces = [snake(p) if p[:1].islower() else p for p in new.split("-")]
        out = pieces[0]
        for before, piece in zip(pieces, pieces[1:]):
            out += ("-" if before in words and piece in words else "_") + piece
        if out != name and out in taken:
            out += "_lem"
        if out != name:
            turned[name] = out
    turned.update({k: v for k, v in INSTEAD.items() if k in turned})
    return turned


def main():
    crates = glob.glob("crates/*/specs/**/*.antt", recursive=True) + glob.glob("crates/*/proofs/**/*.antt", recursive=True)
    kinds = declared([p for p in crates if os.path.basename(p) not in MADE])
    turned = renamed(*kinds)
    files = crates + glob.glob("crates/*/src/**/*.rt", recursive=True)
    files += glob.glob("crates/*/must-fail/*.edit") + glob.glob("wrong/*.edit")
    files += ["README.md", "CHANGELOG.md"] + glob.glob("docs/*.md")
    if "--list" in sys.argv:
        there = collections.Counter()
        for path in files:
            there.update(TOKEN.findall(open(path, encoding="utf-8").read()))
        for old, new in sorted(turned.items()):
            print(old, new, f"(there: {there[new]})" if there[new] else "")
        back = collections.defaultdict(list)
        for old, new in turned.items():
            back[new].append(old)
        for new, olds in sorted(back.items()):
            if len(olds) > 1:
                print("together:", new, *olds)
        return
    count = 0
    for path in sorted(set(files)):
        text = open(path, encoding="utf-8").read()
        dashes = not path.endswith(".md")
        here = THERE.get(path, {})

        def turn(m):
            word = m[0]
            if word in here:
                return here[word]
            if word in turned and (dashes or "-" not in word):
                return turned[word]
            return word

        new = TOKEN.sub(turn, text)
        if new != text:
            open(path, "w", encoding="utf-8").write(new)
            count += 1
    print(f"respell: {len(turned)} names in {count} files")


if __name__ == "__main__":
    main()

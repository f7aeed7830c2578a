#!/usr/bin/env python3
"""Brings this repository's own names to the spelling of today's Rattle: run once, at the top, after the toolchain's own port.

    python3 tools/respell.py [--tell]

1. The room `bytes` is called `little_endian`, since the toolchain has a library named bytes.
2. A definition or lemma in camel case gets snake case (`countBelow` is `count_below`).
3. In a lemma's name a dash stays where it joins two names (`length-tabulate`) and is `_` elsewhere (`count-step` is `count_step`).
   A lemma that would have a definition's name ends in `_lem`.

It goes by text, over src/, specs/, proofs/ and the edits of each crate, README.md and docs/. It tells of names that fall together, and stops
there. With --tell it changes nothing and prints the names."""
import glob
import os
import re
import subprocess
import sys

# names of definitions that lemmas are named after, beside those of specs/
WORDS = set("length take drop set get_or append add sub mul div neg eq lt le eqb ltb leb round sum tabulate insert without cons min".split())
# what a name may not become: another meaning of the word stands in clauses or proofs that use it
OTHER = {"first_of": "first_fault"}
# names in snake case already: one is a tactic's, the others are lemmas, whose names definitions get
ALSO = {"first_of": "first_fault"} | {w: w + "_lem" for w in "in_cell no_line number_more one_by_one refused_as".split()}
SEP = re.compile(r"([^\w'\-₀-₉◌≡≤<]+)")
DEF = re.compile(r"^ *(?:(?:abbrev|unfoldable|pub|data|record|module) +)*([^\s(){}:.,;◌]+)(?: +[({][^=\n]*?)? : ", re.M)
GOAL = re.compile(r"^ *([^\s(){}:]+) : tie\.", re.M)


def files():
    for at in ("crates/*/src/**/*.rt", "crates/*/specs/**/*.antt", "crates/*/proofs/**/*.antt", "crates/*/must-fail/*.edit", "crates/*/more/*.edit"):
        yield from (f for f in sorted(glob.glob(at, recursive=True)) if "/out/" not in f)


def code(text):
    return re.sub(r"--[^\n]*", "", text)


def snake(word):
    return re.sub(r"(?<=[a-z0-9])([A-Z])", lambda m: "_" + m[1].lower(), word)


def is_camel(word):
    return re.match(r"[a-z]", word) and re.search(r"[a-z0-9][A-Z]", word)


def move_room():
    if not os.path.isdir("crates/bytes"):
        return
    subprocess.run(["git", "mv", "crates/bytes", "crates/little_endian"], check=True)
    for f in list(files()) + ["crates.txt"]:
        old = open(f, encoding="utf-8").read()
        new = re.sub(r"\bbytes::", "little_endian::", old) if not f.endswith("crates.txt") else old
        new = re.sub(r"\bRattle\.bytes\.", "Rattle.little_endian.", new)
        if f == "crates.txt":
            new = re.sub(r"(?m)^([^#\n]*)$", lambda m: re.sub(r"\bbytes\b", "little_endian", m[1]), new)
        if new != old:
            open(f, "w", encoding="utf-8").write(new)


def names():
    defined, made, goals, words, local = {}, set(), set(), {}, {}
    for f in files():
        text = open(f, encoding="utf-8").read()
        for word in SEP.split(text if not f.endswith(".antt") else code(text)):
            words.setdefault(word, set()).add(f)
        if f.endswith(".antt"):
            goals.update(GOAL.findall(text))
            for m in DEF.finditer(code(text)):
                defined.setdefault(m[1], set()).add(f)
                if "/specs/" in f and not m[0].lstrip("\n").startswith(" "):
                    made.add(m[1])
    plain = {snake(w) for w in made if "-" not in w} | WORDS
    table = {}
    for word in words:
        if is_camel(word) and "-" not in word:
            table[word] = OTHER.get(snake(word), snake(word))
    table.update({word: new for word, new in ALSO.items() if word in words})
    taken = set(words) | set(table.values())
    for word in sorted(defined):
        if "-" not in word.strip("-") or not re.match(r"[a-z]", word) or word in goals or re.search(r"-[0-9]+$", word):
            continue
        parts = [OTHER.get(snake(p), snake(p)) for p in word.split("-")]
        new = parts[0]
        for k in range(1, len(parts)):
            left, right = "_".join(parts[:k]).split("-")[-1], "_".join(parts[k:])
            new += ("-" if left in plain and right in plain else "_") + parts[k]
        if new == word:
            continue
        if new in taken:
            new += "_lem"
        table[word] = new
        taken.add(new)
    return table, words, goals


def main():
    tell = "--tell" in sys.argv
    if not tell:
        move_room()
    table, words, goals = names()
    back, bad = {}, []
    for old, new in sorted(table.items()):
        if new in back:
            bad.append(f"{old} and {back[new]} are both {new}")
        elif new in words and new not in table:
            bad.append(f"{old} would be {new}, which stands in {sorted(words[new])[:3]}")
        back[new] = old
    print("\n".join(f"{old} {new}" for old, new in sorted(table.items())) if tell else f"{len(table)} names")
    if bad:
        print("\n".join("together: " + b for b in bad), file=sys.stderr)
        if not tell and "--anyway" not in sys.argv:
            sys.exit(1)
    if tell:
        return
    for f in list(files()) + ["README.md"] + sorted(glob.glob("docs/**/*.md", recursive=True)):
        old = open(f, encoding="utf-8").read()
        prose = f.endswith(".md")
        lines = []
        for line in old.split("\n"):
            mark = "--" if f.endswith(".antt") else "//" if f.endswith(".rt") else None
            at = line.find(mark) if mark else -1
            head, tail = (line, "") if at < 0 else (line[:at], line[at:])
            head = re.sub(r"`[^`\n]*`", lambda m: turn(m[0], table, True), head) if prose else turn(head, table, True)
            lines.append(turn(head, table, False) + turn(tail, table, False) if prose else head + turn(tail, table, False))
        new = "\n".join(lines)
        if new != old:
            open(f, "w", encoding="utf-8").write(new)


def turn(text, table, dashes):
    return "".join(table[w] if w in table and (dashes or "-" not in w) else w for w in SEP.split(text))


if __name__ == "__main__":
    main()

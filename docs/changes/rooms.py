#!/usr/bin/env python3
"""rooms.py [OLD]: holds every definition of crates/*/specs to what it was before the rooms were merged (revision OLD, eac3a96 by default).

A definition is the text from its signature to the next blank line, without comments, in whatever file it stands. Names that were given anew are read
back first (BACK), in the new text: what judges was an Answer and is a Fault, and so on. Printed are the definitions that are gone, new, or differ;
every other one is word for word what it was. What is printed is told in docs/changes/ROOMS.md.
"""
import re
import subprocess
import sys

# new name -> old name
BACK = [
    (r"\bFault\b", "Answer"),
    (r"\brefusal\b", "refused"),
    (r"\brefused \(refused (\d+ \d+ \d+)\)", r"refused \1"),
    (r"\bnoFault\b", "fine"),
    (r"\bproductFault\b", "productRow"),
    (r"\bstatedFault\b", "lengthRow"),
    (r" then ", " or "),
    (r"\bmostRecords\b", "1000000"),
]
DEFINED = re.compile(r"^(?:(?:abbrev|unfoldable) )?(?:pub )?(?:record |data )?([A-Za-z_][\w'′]*|_or_|_then_) ")


def definitions(texts):
    found = {}
    for path, text in texts:
        text = re.sub(r"(?m)^[ \t]*--.*\n", "", text)
        text = re.sub(r"(?m)^(use |pub mod |infixr ).*\n", "", text)
        for block in re.split(r"\n\s*\n", text):
            lines = [l for l in block.strip("\n").split("\n") if l.strip()]
            if not lines:
                continue
            m = DEFINED.match(lines[0])
            if m:
                words = " ".join(" ".join(lines).split())
                words = re.sub(r"^(abbrev|unfoldable) ", "", words)
                found.setdefault(m.group(1), set()).add((words, path))
    return found


def old_texts(revision):
    names = subprocess.run(["git", "ls-tree", "-r", "--name-only", revision, "crates"], capture_output=True, text=True, check=True).stdout.split()
    for name in names:
        if "/specs/" in name and name.endswith(".antt"):
            yield name, subprocess.run(["git", "show", f"{revision}:{name}"], capture_output=True, text=True, check=True).stdout


def new_texts():
    names = subprocess.run(["git", "ls-files", "-co", "--exclude-standard", "crates"], capture_output=True, text=True, check=True).stdout.split()
    for name in names:
        if "/specs/" in name and name.endswith(".antt"):
            try:
                with open(name, encoding="utf-8") as f:
                    yield name, f.read()
            except FileNotFoundError:
                pass


def back(words):
    for new, old in BACK:
        words = re.sub(new, old, words)
    return words


def main():
    revision = sys.argv[1] if len(sys.argv) > 1 else "eac3a96"
    old, new = definitions(old_texts(revision)), definitions(new_texts())
    as_old = {}
    for name, texts in new.items():
        for words, path in texts:
            as_old.setdefault(back(name), set()).add((back(words), path))
    same = 0
    for name in sorted(old):
        if name not in as_old:
            print(f"gone: {name} ({', '.join(sorted(p for _, p in old[name]))})")
            continue
        was, now = {w for w, _ in old[name]}, {w for w, _ in as_old[name]}
        if was & now:
            same += 1
        else:
            print(f"differs: {name}\n  was  {' | '.join(sorted(was))}\n  now  {' | '.join(sorted(now))}")
    for name in sorted(set(as_old) - set(old)):
        print(f"new: {name} ({', '.join(sorted(p for _, p in as_old[name]))})")
    print(f"{same} of {len(old)} definitions are what they were")


if __name__ == "__main__":
    main()

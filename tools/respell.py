#!/usr/bin/env python3
"""Brings the repository's own names to the kit's spelling, once, after the kit's port.py.

Definitions and lemmas are words in snake case, facts and types in upper camel case, and a prime is an apostrophe.
Names of the library, goals, and the functions, fields and files of src/ keep their spelling.
Run it at the top of the repository; it prints each name that it changes, and those that would fall together.
"""
import glob
import re
import sys

# names that would meet a tactic or another name of this repository, and the ones that stand for them
BY_HAND = {
    "first_of": "first_some",
}
# functions of the library that a lemma's name may join
LIBRARY = ["length", "take", "drop", "replicate", "append", "cons", "nil", "set", "map"]
NAME = r"[^\s(){}\[\].,;:λ\"`|]+"
HEAD = re.compile(r"^(?:abbrev |unfoldable )?(?:pub )?(?:abbrev |unfoldable )?(?:record |data )?(" + NAME + r")(?: .*?)? :(?: |$)")
DATA = re.compile(r"^(?:pub )?(?:record|data) (" + NAME + r")")
FIELD = re.compile(r"^  (?:pub )?(" + NAME + r") :(?: |$)")


def own_names():
    """The repository's own names, those of specs/ that are functions, which a lemma's name may join, and the fields of records."""
    names, functions, fields = set(), set(LIBRARY), set()
    for path in glob.glob("crates/*/specs/**/*.antt", recursive=True) + glob.glob("crates/*/proofs/**/*.antt", recursive=True):
        for line in open(path, encoding="utf8"):
            if "goal." in line:
                continue
            for form in (HEAD, DATA, FIELD):
                found = form.match(line)
                if found:
                    names.add(found.group(1))
                    if form is FIELD:
                        fields.add(found.group(1))
                    if "/specs/" in path and form is HEAD and ("abbrev" in line or "unfoldable" in line):
                        functions.add(found.group(1))
    return names, functions, fields


def parts_of(name, functions):
    """A name cut at its dashes into functions, as long as they go, and plain words."""
    words, parts = name.split("-"), []
    while words:
        for n in range(len(words), 0, -1):
            for joined in ("-".join(words[:n]), "_".join(words[:n])):
                if joined in functions:
                    break
            else:
                continue
            parts.append((joined.replace("-", "_"), True))
            words = words[n:]
            break
        else:
            parts.append((words.pop(0), False))
    return parts


def respelled(name, functions, fields):
    if name in BY_HAND:
        return BY_HAND[name]
    name = name.replace("′", "'")
    if "-" not in name:
        return name
    if name[0].isupper():
        return "".join(part[0].upper() + part[1:] for part in name.split("-") if part)
    if name in functions or name in fields:
        return name.replace("-", "_")
    # in a lemma's name a dash joins two functions, and a plain word is added with an underscore
    parts = parts_of(name, functions)
    new = parts[0][0]
    for before, after in zip(parts, parts[1:]):
        new += ("-" if before[1] and after[1] else "_") + after[0]
    return new


def main():
    names, functions, fields = own_names()
    spelled = {name: respelled(name, functions, fields) for name in names}
    turn = {old: new for old, new in spelled.items() if new != old}
    meet = {}
    for name in names:
        meet.setdefault(spelled[name], set()).add(name)
    for new, olds in sorted(meet.items()):
        if len(olds) > 1:
            print("fall together:", new, sorted(olds))
    # the kit's script respelled some names already, in the crates but not on the pages
    paged = {name.replace("_", "-"): name for name in names if "_" in name and name not in turn}
    word = re.compile(NAME)

    def swap(text):
        return word.sub(lambda m: turn.get(m.group(0), m.group(0)), text)

    def swap_line(line, comment):
        at = line.find(comment)
        if at < 0:
            return swap(line)
        ticks = re.sub(r"`[^`]*`", lambda m: swap(m.group(0)), line[at:])
        return swap(line[:at]) + ticks

    for pattern, comment in (("**/*.antt", "--"), ("**/*.rt", "//")):
        for path in glob.glob("crates/" + pattern, recursive=True):
            old = open(path, encoding="utf8").read()
            new = "".join(line if "Prim.search" in line else swap_line(line, comment) for line in old.splitlines(True))
            if new != old:
                open(path, "w", encoding="utf8").write(new)
    for path in glob.glob("crates/*/must-fail/*.edit"):
        old = open(path, encoding="utf8").read()
        if "file: specs/" in old and swap(old) != old:
            open(path, "w", encoding="utf8").write(swap(old))
    for path in glob.glob("docs/*.md") + ["README.md"]:
        old = open(path, encoding="utf8").read()
        new = re.sub(r"`[^`\n]*`", lambda m: word.sub(lambda w: paged.get(w.group(0), w.group(0)), swap(m.group(0))), old)
        if new != old:
            open(path, "w", encoding="utf8").write(new)
    for name in sorted(turn):
        print(name, "->", turn[name])


if __name__ == "__main__":
    sys.exit(main())

#!/usr/bin/env python3
"""Spells this repository's own definitions and lemmas in snake case, as today's Rattle does: `isIn` becomes `is_in`, `of-ends` becomes `of_ends`.

usage: tools/port_names.py        once, at the top of the repository, after the script of the toolchain that respells a repository of an older Rattle

Types and modules keep their capitals, goals and the other names that Rattle makes keep their dashes, and so do names of its library. Rust
functions, exported names, strings, inputs and outputs are left alone. Where two names would fall together it says so and changes nothing.
"""

import collections
import os
import re
import sys

# What may stand in a name of antt's.
NAME = r"[^\s(){}.;,@\"«»]+"
# A ghost member of a trait.
MEMBER = re.compile(r"^ *ghost (\w+): \{", re.M)
DECLARED = re.compile(rf"^ *(?:(?:abbrev|unfoldable|pub) )*({NAME}) :(?: |$)(.*)", re.M)
FROM_LIBRARY = re.compile(r"use Rattle\.std\.[\w.'-]*\.?\{([^}]*)\}")
STRING = re.compile(r'"(?:[^"\\]|\\.)*"')
# A name, but for one that stands behind a record of an answer, which Rattle makes of a variable or a function of the source.
UNMADE = re.compile(rf"(?<![\s(){{}};,][cwl]\.){NAME}")
# Lemmas that would get the name of a definition.
LEMMAS = ("entry-at", "event-said", "in-range", "in-run", "known-later", "last-high", "may-lie", "put-at")


def in_snake_case(name):
    if name in LEMMAS:
        return name.replace("-", "_") + "_lem"
    words = re.sub(r"(?<=[a-z0-9])[A-Z]", lambda m: "_" + m[0].lower(), name)
    return words.replace("-", "_")


def files(*endings):
    for folder, dirs, names in os.walk("crates"):
        dirs[:] = sorted(d for d in dirs if d != "out")
        for name in sorted(names):
            if name.endswith(endings):
                yield os.path.join(folder, name)


def read(path):
    with open(path, encoding="utf-8") as f:
        return f.read()


def is_ours(name):
    return name[0].islower() and name != in_snake_case(name)


def declared():
    """Our names that change, and all names that are declared anywhere, with the files that have them."""
    changing, places = set(), collections.defaultdict(set)
    for path in files(".antt"):
        for name, rest in DECLARED.findall(read(path)):
            places[name].add(path)
            if is_ours(name) and not rest.startswith(("goal.", "need.")) and "goal." + name not in rest:
                changing.add(name)
    changing |= {n for path in files(".rt") for n in MEMBER.findall(read(path)) if is_ours(n)}
    goals = {n for path in files(".antt") for n, rest in DECLARED.findall(read(path)) if rest.startswith("goal.")}
    return changing - goals, places


def imported(text):
    """The names that a file takes from Rattle's library."""
    return {w.strip().split(" as ")[0] for group in FROM_LIBRARY.findall(text) for w in group.split(",")}


def turned(path, changing):
    text = read(path)
    here = changing - imported(text)
    if path.endswith(".antt"):
        return UNMADE.sub(lambda m: in_snake_case(m[0]) if m[0] in here else m[0], text)
    words = lambda part: re.sub(r"(?<![\w-])[A-Za-z][\w'-]*(?![\w-])", lambda m: in_snake_case(m[0]) if m[0] in here else m[0], part)
    out, at = [], 0
    for m in STRING.finditer(text) if path.endswith(".rt") else []:
        out += [words(text[at : m.start()]), m[0]]
        at = m.end()
    return "".join(out) + words(text[at:])


def main():
    changing, places = declared()
    meets = [n for n in sorted(changing) if in_snake_case(n) in places]
    by_new = collections.defaultdict(set)
    for name in changing:
        by_new[in_snake_case(name)].add(name)
    twice = {new: old for new, old in by_new.items() if len(old) > 1}
    for name in meets:
        print(f"{name} would meet {in_snake_case(name)}: {sorted(places[name])[:3]} {sorted(places[in_snake_case(name)])[:3]}")
    for new, old in sorted(twice.items()):
        print(f"would fall together as {new}: {sorted(old)} {[sorted(places[o])[:2] for o in sorted(old)]}")
    if (meets or twice) and "--anyway" not in sys.argv:
        return 1
    for path in files(".antt", ".rt", ".edit"):
        text = read(path)
        new = turned(path, changing)
        if new != text:
            with open(path, "w", encoding="utf-8") as f:
                f.write(new)
    print(f"{len(changing)} names")
    return 0


if __name__ == "__main__":
    sys.exit(main())

#!/usr/bin/env python3
"""Brings the repository's own definitions and lemmas to snake case, after the kit's port.py has run.

usage: python3 tools/respell.py [--check]

Run it once, on what port.py has written: in proof files that were begun later it would rename goals.

Names that specs/ and proofs/ declare and that are spelled with dashes, in camel case or with a prime sign become
words joined by underscores. What the library declares, what Rattle makes for proofs, types, modules, functions of
src/, exported names and strings keep their spelling. It rewrites the .rt and .antt files of crates/, and names in back
quotes in README.md and docs/. --check prints the table and the names that would fall together, and writes nothing.
"""

import glob
import os
import re
import sys

WORD = r"[^\s(){}.;,@\"«»\[\]\\`]+"
TOKEN = re.compile(r"--[^\n]*|//[^\n]*|\"(?:[^\"\\\n]|\\.)*\"|" + WORD)
HEAD = re.compile(
    r"(?m)^[ \t]*(?:(?:pub|abbrev|unfoldable|record|data|ruleset|infixl|infixr) )*(" + WORD + r")[ ]*(?::(?!=)|=|\()"
)
IMPORT = re.compile(r"(?m)^\s*(?:pub )?(?:ghost )?use ([^\s{;]+?)\.\{([^}]*)\}")
# Where two names would fall together, or one would take a name that is in use, the new name is written here.
CHOSEN = {
    "after-tab": "after_tab_law",
    "class-of": "class_of_law",
    "class-weight": "class_weight_law",
    "events-of": "events_of_law",
    "floor-root": "floor_root_law",
    "gap-sound": "gap_sound_law",
    "gapBy": "by_gap",
    "gapScore": "score_gap",
    "gone-cleared": "gone_cleared_law",
    "hyp-sound": "hyp_sound_law",
    "in-float": "fits_float",
    "live-by": "live_by_law",
    "markScore": "score_mark",
    "marks-heard": "marks_heard_law",
    "minus-half": "minus_half_law",
    "nominal-root": "nominal_root_law",
    "noneLeft": "no_one_left",
    "of-told": "of_told_law",
    "refused-by": "refused_by_law",
    "serial-of": "serial_of_law",
    "speed-weight": "speed_weight_law",
    "told-as": "told_as_law",
    "toldOf": "to_told",
    "total-less": "total_less_law",
}


def read(path):
    with open(path, encoding="utf-8", newline="") as f:
        return f.read()


def files(*patterns):
    return sorted(p for it in patterns for p in glob.glob(it, recursive=True) if "/out/" not in p)


def snake(name):
    name = name.replace("′", "'").replace("-", "_")
    name = re.sub(r"(?<=[a-z0-9])([A-Z])", lambda m: "_" + m.group(1).lower(), name)
    return re.sub(r"(?<=_)([A-Z])(?=[a-z])", lambda m: m.group(1).lower(), name)


def plain(text):
    return re.sub(r"--[^\n]*", "", text)


def table():
    crates = {os.path.basename(os.path.dirname(p)) for p in glob.glob("crates/*/")}
    declared, answers, library = set(), set(), set()
    for path in files("crates/*/specs/**/*.antt", "crates/*/proofs/**/*.antt"):
        text = plain(read(path))
        for m in HEAD.finditer(text):
            declared.add(m.group(1))
        answers.update(re.findall(r"(?m)^(" + WORD + r") : tie\.", text))
        for module, names in IMPORT.findall(text):
            parts = module.split(".")
            if not (parts[0] == "Rattle" and parts[1] in crates):
                library.update(it.strip().split(" as ")[0] for it in names.split(","))
    found = {}
    for name in sorted(declared - answers - library):
        lower = re.match(r"[a-z]", name)
        if lower and "◌" not in name and "→" not in name and snake(name) != name:
            found[name] = CHOSEN.get(name, snake(name))
    return found


def turned(text, names, comments):
    def word(m):
        it = m.group(0)
        if it.startswith(("--", "//")):
            return re.sub(r"`[^`\n]*`", lambda q: spans(q.group(0), names), it) if comments else it
        return it if it.startswith('"') else names.get(it, it)

    return TOKEN.sub(word, text)


def spans(text, names):
    return re.sub(WORD, lambda m: names.get(m.group(0), m.group(0)), text)


def clashes(names):
    used = set()
    for path in files("crates/*/specs/**/*.antt", "crates/*/proofs/**/*.antt", "crates/*/src/**/*.rt"):
        for m in TOKEN.finditer(read(path)):
            used.add(m.group(0))
    by_new = {}
    for old, new in names.items():
        by_new.setdefault(new, []).append(old)
    for new, olds in sorted(by_new.items()):
        if len(olds) > 1:
            yield f"{new}: {' and '.join(olds)} fall together"
        elif new in used:
            yield f"{new}: in use, and the new name of {olds[0]}"


def main(argv):
    names = table()
    if "--check" in argv:
        for old, new in names.items():
            print(f"{old}\t{new}")
        for line in clashes(names):
            print("clash: " + line)
        return 0
    for path in files("crates/*/specs/**/*.antt", "crates/*/proofs/**/*.antt", "crates/*/src/**/*.rt"):
        text = read(path)
        new = turned(text, names, True)
        if new != text:
            with open(path, "w", encoding="utf-8", newline="") as f:
                f.write(new)
    for path in files("README.md", "docs/*.md"):
        text = read(path)
        new = re.sub(r"`[^`\n]*`", lambda q: spans(q.group(0), names), text)
        if new != text:
            with open(path, "w", encoding="utf-8", newline="") as f:
                f.write(new)
    return 0


if __name__ == "__main__":
    raise SystemExit(main(sys.argv[1:]))

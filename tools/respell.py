#!/usr/bin/env python3
"""Brings the repository's own definitions and lemmas to today's spelling: snake case, and camel case for types and facts.

usage: python3 tools/respell.py [--names]     at the top of the repository

It goes by text, over crates/*/specs, crates/*/proofs, the ghost text of crates/*/src and the edits. A name is taken where
specs/ or proofs/ define it with a dash in it; goals, steps and the library's names keep theirs. `--names` only prints them.
"""

import os
import re
import sys

# What would fall together with a function of src/, with a word of the library or with another name.
BESIDE = {
    "amount-of": "amount_of_lem",
    "bit-and": "and_of_bits",
    "bit-or": "or_of_bits",
    "dealt-bit": "dealt_bit_lem",
    "delivered-sheet": "delivered_sheet_lem",
    "in-range": "in_range_lem",
    "is-entered": "is_entered_lem",
    "phase-of": "phase_of_lem",
    "phase-word": "phase_word_lem",
    "piece-end": "piece_end_lem",
    "said-message": "said_message_lem",
    # Facts, whose own spelling is a type's.
    "may-quote": "MayQuote",
}

WORD = re.compile(r'[^\s(){}\[\];,."«»|⌜⌝∥]+')
SIGNATURE = re.compile(r"^ *(?:(?:abbrev|unfoldable|pub|data|record|ruleset) +)*(?P<name>[^\s:(){}=|,.;]+(?:, ?[^\s:(){}=|,.;]+)*)(?: *[({][^=]*[)}])* : (?P<type>.*)$")
RULESET = re.compile(r"^ *(?:pub +)?ruleset +(?P<name>[^\s=]+)")
IMPORT = re.compile(r"^(?:ghost |pub )*use +(?P<path>[^{;\s]+?)(?:\.\{(?P<names>[^}]*)\}| as .*)?;?$")


def files(ending):
    for folder, dirs, names in os.walk("crates"):
        dirs[:] = sorted(d for d in dirs if d != "out")
        for name in sorted(names):
            if name.endswith(ending):
                yield os.path.join(folder, name)


def read(path):
    with open(path, encoding="utf-8") as f:
        return f.read()


def today(name):
    """The name in today's spelling: a capital at its head is a type's or a fact's."""
    if name in BESIDE:
        return BESIDE[name]
    if name[0].isupper():
        return "".join(part[0].upper() + part[1:] for part in re.split(r"[-_]", name))
    return name.replace("-", "_")


def defined(text):
    """The names with a dash that a file of specs/ or proofs/ defines; those of goals are not the file's to choose."""
    for line in text.splitlines():
        if line.lstrip().startswith("--") or IMPORT.match(line):
            continue
        m = SIGNATURE.match(line)
        if m and not m["type"].startswith("goal."):
            yield from (n.strip() for n in m["name"].split(","))
        elif RULESET.match(line):
            yield RULESET.match(line)["name"]


def foreign(text, own):
    """The names that a file takes from the library, and those of the goals that it answers."""
    found = set()
    for line in text.splitlines():
        m = IMPORT.match(line)
        if m and m["names"] and not own(m["path"]):
            for item in m["names"].split(","):
                found.update(item.split(" as ")[0].split())
        m = SIGNATURE.match(line)
        if m and m["type"].startswith("goal."):
            found.add(m["name"])
    return found


def respelled(line, names):
    return WORD.sub(lambda m: names.get(m[0], m[0]), line)


def main(argv):
    crates = [c for c in sorted(os.listdir("crates")) if os.path.isdir(os.path.join("crates", c))]
    starts = tuple(f"Rattle.{c}.{part}" for c in crates for part in ("specs", "proofs"))

    def own(path):
        return path.startswith(starts) and not re.search(r"\.(Goals|Given)$", path)

    texts = {p: read(p) for p in files(".antt")}
    names = {}
    for text in texts.values():
        for name in defined(text):
            if "-" in name and not name.startswith("-") and not name.endswith("-") and not re.search(r"[◌<>≤≡]", name):
                names[name] = today(name)
    if "--names" in argv:
        for name in sorted(names):
            print(name, names[name])
        return 0
    for path, text in texts.items():
        here = {k: v for k, v in names.items() if k not in foreign(text, own)}
        new = "\n".join(line if line.lstrip().startswith("--") else respelled(line, here) for line in text.split("\n"))
        if new != text:
            with open(path, "w", encoding="utf-8") as f:
                f.write(new)
    for path in [*files(".rt"), *files(".edit")]:
        text = read(path)
        new = "\n".join(line if line.lstrip().startswith("//") else respelled(line, names) for line in text.split("\n"))
        if new != text:
            with open(path, "w", encoding="utf-8") as f:
                f.write(new)
    return 0


if __name__ == "__main__":
    raise SystemExit(main(sys.argv[1:]))

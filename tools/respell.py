#!/usr/bin/env python3
"""Respells the repository's own definitions, fields and lemmas: words in snake case, joined by underscores.

usage: python3 tools/respell.py          writes the files of crates/ in place
       python3 tools/respell.py --list   only prints the old and the new names

It was run once, after the library's own scripts had turned the repository to the present toolchain.
Goals' names, names of the library, functions and fields of src/, strings and comments of src/ stay as they are.
It stops where two names would fall together.
"""

import os
import re
import sys

# a word of antt: what stands between spaces, brackets, dots, commas and semicolons
WORD = re.compile(r"[^\s(){}\[\];,.@\"`«»λ→×⟨⟩|]+")
DECLARED = re.compile(r"^\s*(?:(?:abbrev|unfoldable|pub|record|data)\s+)*([^\s(){}\[\];,.@\"`«»λ]+)\s+:\s+(.*)$")
LIBRARY = re.compile(r"^\s*(?:pub )?(?:ghost )?use ([\w.+'◌-]+)\.\{(.*)\};?$")


def texts(ending):
    for folder, dirs, files in os.walk("crates"):
        dirs[:] = sorted(d for d in dirs if d not in ("out", "must-fail"))
        for f in sorted(files):
            if f.endswith(ending):
                yield os.path.join(folder, f)


def read(path):
    with open(path, encoding="utf-8") as f:
        return f.read()


# names whose plain respelling is another's: the function keeps it, the lemma on it says that it `is` so
CHOSEN = {
    "readBack": "replies_back",
    "range-of": "range_of_is",
    "program-of": "program_of_is",
    "word-told": "word_told_is",
    "lowest-free": "lowest_free_is",
    "word-sent": "word_sent_is",
    "still-due": "still_due_is",
    "first-due": "first_due_is",
    "now-seen": "now_seen_is",
    "look-word": "look_word_is",
    "served-dues": "served_dues_is",
    "sent-told": "sent_told_is",
    "landed-record": "landed_record_is",
    "landed-told": "landed_told_is",
    "new-mean": "new_mean_is",
    "words-sent": "words_sent_is",
    "transit-after": "transit_after_is",
    "served-record": "served_record_is",
    "status-word": "status_word_is",
}


def respelled(name):
    if name in CHOSEN:
        return CHOSEN[name]
    if name[0].isupper():
        return name
    name = re.sub(r"(?<=[a-z0-9])([A-Z])", lambda m: "_" + m.group(1).lower(), name)
    return name.replace("-", "_")


def own_crates():
    return set(os.listdir("crates"))


def declared():
    """The names that specs/ and proofs/ declare, without the answers to goals."""
    names = set()
    for path in texts(".antt"):
        for line in read(path).split("\n"):
            m = DECLARED.match(line)
            if m and not line.lstrip().startswith("--") and not m.group(2).startswith("goal."):
                names.add(m.group(1))
    return names


def of_the_library():
    """The names that files bring in from elsewhere than this repository's own definitions."""
    own = own_crates()
    names = set()
    for ending in (".antt", ".rt"):
        for path in texts(ending):
            for line in read(path).split("\n"):
                m = LIBRARY.match(line)
                if not m:
                    continue
                parts = m.group(1).split(".")
                ours = parts[0] == "Rattle" and parts[1] in own and "declared" not in parts
                if not ours:
                    for n in m.group(2).split(","):
                        names.add(n.strip().split(" as ")[0].strip())
    return names


def table():
    names = declared()
    library = of_the_library()
    changed = {n: respelled(n) for n in names if respelled(n) != n and n not in library}
    taken = {}
    for old, new in sorted(changed.items()):
        if new in taken:
            sys.exit(f"respell: {old} and {taken[new]} would both be {new}")
        if new in names or new in library:
            sys.exit(f"respell: {old} would be {new}, which is there")
        taken[new] = old
    return changed


def main(argv):
    if argv not in ([], ["--list"]) or not os.path.isdir("crates"):
        sys.exit(__doc__)
    changed = table()
    if argv == ["--list"]:
        for old, new in sorted(changed.items()):
            print(old, new)
        return
    for path in texts(".antt"):
        text = read(path)
        new = WORD.sub(lambda m: changed.get(m.group(0), m.group(0)), text)
        if new != text:
            with open(path, "w", encoding="utf-8") as f:
                f.write(new)
    for path in texts(".rt"):
        lines = read(path).split("\n")
        for i, line in enumerate(lines):
            code, slash, comment = line.partition("//")
            if '"' not in code:
                lines[i] = WORD.sub(lambda m: changed.get(m.group(0), m.group(0)), code) + slash + comment
        new = "\n".join(lines)
        if new != read(path):
            with open(path, "w", encoding="utf-8") as f:
                f.write(new)


if __name__ == "__main__":
    main(sys.argv[1:])

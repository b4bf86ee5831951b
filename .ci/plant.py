#!/usr/bin/env python3
"""Plants the bugs of an edit in a copy of a crate: plant.py EDIT FOLDER. Each old text stands once, and each bug has a name."""
import sys


def main(edit, folder):
    file = old = name = None
    for line in open(edit).read().split("\n"):
        if line.startswith("# "):
            if name and old is None:
                print(f"{edit} plants nothing for: {name}")
                return 1
            name, old = line[2:], None
        elif line.startswith("file: "):
            file = f"{folder}/{line[6:].strip()}"
        elif line.startswith("old: "):
            old = line[5:]
        elif line.startswith("new:"):
            with open(file) as it:
                text = it.read()
            if not name or text.count(old) != 1:
                print(f"{edit}: no name, or in {file} {text.count(old)} times and not once: {old}")
                return 1
            with open(file, "w") as it:
                it.write(text.replace(old, line[5:]))
    return 0


sys.exit(main(*sys.argv[1:]))

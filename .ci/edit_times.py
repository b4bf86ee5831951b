#!/usr/bin/env python3
"""Tells how long each must-fail edit takes, which `rt ci` does not: edit_times.py OUT, stopped by a signal.

Looks twice a second for the copies of crates that `rt` makes to try edits in, knows an edit by the text it leaves there, and
keeps in OUT a line for each edit: its seconds, its crate and its name. It only looks, and no verdict rests on it.
"""
import glob
import os
import sys
import tempfile
import time


def edits():
    """Yields each edit's crate and name, the first file that it changes, and that file's text with the edit."""
    for path in sorted(glob.glob("crates/*/must-fail/*.edit")):
        crate, name = path.split("/")[1], os.path.basename(path)[:-5]
        first = file = old = text = None
        for line in open(path).read().split("\n"):
            if line.startswith("file: "):
                file = line[6:].strip()
                if first is None:
                    first = file
                    with open(f"crates/{crate}/{file}") as it:
                        text = it.read()
            elif line.startswith("old: "):
                old = line[5:]
            elif line.startswith("new:") and file == first:
                text = text.replace(old, line[5:])
        yield crate, name, first, text


def known(folder, every):
    """Returns the edit that the copy in the folder has, if it has one by now."""
    for crate, name, file, text in every:
        try:
            with open(f"{folder}/{file}") as it:
                if it.read() == text:
                    return crate, name
        except OSError:
            pass
    return None


def main(out):
    every, begun, named, took = list(edits()), {}, {}, {}
    copies = f"{tempfile.gettempdir()}/rt-edit-*"
    others = set(glob.glob(copies))
    while True:
        now, there = time.monotonic(), set(glob.glob(copies)) - others
        for folder in there:
            begun.setdefault(folder, now)
            if not named.get(folder):
                named[folder] = known(folder, every)
        for folder in set(begun) - there:
            edit, since = named.pop(folder, None), begun.pop(folder)
            if edit:
                took[edit] = took.get(edit, 0) + now - since
        lines = [f"{seconds:5.0f} s  {crate}/{name}\n" for (crate, name), seconds in sorted(took.items())]
        with open(out, "w") as it:
            it.writelines(lines)
        time.sleep(0.5)


main(sys.argv[1])

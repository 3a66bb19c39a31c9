#!/usr/bin/env python3
"""Whether every must-fail edit can be applied: it has a sentence, a file, and texts that the file, as the texts before made it, has once each, on one line.

    tests/edits.py     prints how many there are; fails where one can't be applied

The gate tries each of them on the checker, half an hour later; an edit that can't be applied fails it there.
"""
import collections
import glob
import os
import sys


def faults(path):
    """What is wrong with an edit."""
    crate = path.split("/")[1]
    with open(path, encoding="utf-8") as edit:
        lines = edit.read().splitlines()
    if not lines or lines[0].startswith(("file: ", "old: ", "new: ")):
        yield "doesn't begin with a sentence"
    source, old, kinds = "", "", collections.Counter()
    for line in lines[1:]:
        kind, _, text = line.partition(": ")
        kinds[kind] += 1
        if kind == "file":
            path = f"crates/{crate}/{text}"
            if not os.path.isfile(path):
                yield f"{path} isn't there"
                return
            with open(path, encoding="utf-8") as file:
                source = file.read()
        elif kind == "old":
            old, times = text, source.count(text)
            if times != 1:
                yield f"the file has this {times} times: {text}"
        elif kind == "new":
            if text == old:
                yield f"changes nothing: {text}"
            source = source.replace(old, text) if old else source
        else:
            yield f"no line of an edit: {line}"
    if not kinds["file"] or not kinds["old"] or kinds["old"] != kinds["new"]:
        yield "has no file, or not a new text for each old one"


def main():
    os.chdir(os.path.join(os.path.dirname(os.path.abspath(__file__)), ".."))
    edits = sorted(glob.glob("crates/*/must-fail/*.edit"))
    wrong = [f"{path}: {fault}" for path in edits for fault in faults(path)]
    for line in wrong:
        print(line)
    print(f"edits: {len(edits)} wrong programs, {len(wrong)} faults")
    sys.exit(bool(wrong or not edits))


main()

#!/usr/bin/env python3
"""Spells the repository's own definitions, lemmas, constructors and fields in snake case, and functions into types in camel case.

usage: tools/spell.py [--check]

Run once, at the top of the repository, behind port.py, which respells only some of them: `totalAt` becomes `total_at` and `totals-held` becomes `totals_held`.
A name is turned where it means the repository's own: a file that takes it from a library keeps it, and so does a place that Rattle names (behind `tie.`, or a step of a function).
Functions and parameters of src/, exported names, strings, inputs and outputs keep their names. Prints the names that would fall together in some file, and leaves those; with --check writes nothing.
"""
import collections
import glob
import os
import re
import sys

NAME = r"[^\s(){}.;,@\"«»\[\]]+"
TOKEN = re.compile(r"\"(?:[^\"\\\n]|\\.)*\"|" + NAME)
DECLARED = re.compile(r"^(\s*)((?:(?:pub|abbrev|unfoldable|pattern|record|data)\s+)*)(" + NAME + r")((?:\s+\{[^{}]*\}|\s+\([^()]*\))*)\s*:(\s.*|)$")
# What a rule can't spell.
OWN = {
    "noOther": "NoOther",
    "P-length": "P_length",
    "P-begins": "P_begins",
    "atMost256": "at_most_256",
    "revApp": "rev_append",
    "some-T": "some_T",
}
# Lemmas that port.py spelled as a definition is spelled now, and where they stand.
LEMMAS = {
    "all_known": "crates/history/",
    "entries_from": "crates/guarantee/",
    "first_part": "crates/",
    "goes_on": "crates/islands/",
    "last_line": "crates/listing/",
    "moved_at": "crates/pull/",
    "none_or": "crates/machine/",
    "rows_more": "crates/cuts/",
    "shares_at": "crates/guarantee/",
}
# Words of libraries that port.py turned where they stand alone.
PARTS = {"getD": "get_or"}
LIBRARIES = r"Rattle\.(?:std|core|std_\w+|io|libc|os)\b|(?:lib|mathlib|borrow|native|Prim|denote|base|mir|types|prog|contract|seplogic|ghost)\."


def spelled(name):
    """The name in snake case; a type in it keeps its capital, as `All` in `All-append`."""
    if name in OWN:
        return OWN[name]
    parts = []
    for part in name.split("-"):
        if part in PARTS:
            part = PARTS[part]
        elif not part[:1].isupper():
            part = re.sub(r"(?<=[a-z0-9])[A-Z]", lambda m: "_" + m[0].lower(), part)
        parts.append(part)
    return "_".join(parts) if all(parts) else name


def texts():
    names = glob.glob("crates/*/specs/**/*.antt", recursive=True) + glob.glob("crates/*/proofs/**/*.antt", recursive=True) + glob.glob("crates/*/src/**/*.rt", recursive=True)
    for name in sorted(names):
        with open(name, encoding="utf-8") as file:
            yield name, file.read()


def declared(files):
    """The repository's own names, and those of them that are fields of records."""
    names, fields = set(), set()
    for name, text in files:
        if name.endswith(".rt"):
            continue
        record = None
        of_function = re.search(r"/proofs/.+/(Proof|Answers|Invariants)\.antt$", name)
        for line in text.split("\n"):
            m = DECLARED.match(line)
            if record is not None and line.strip() and len(line) - len(line.lstrip()) <= record:
                record = None
            if not m:
                continue
            if of_function and re.match(r"\s*tie\.", m[5]):
                continue
            if re.search(r"\brecord\b", m[2]):
                record = len(m[1])
            elif record is not None:
                fields.add(m[3])
            names.add(m[3])
    return names, fields


def imported(text):
    """The names that a file takes from libraries."""
    taken = set()
    for path, names in re.findall(r"\buse ([^\s;{]+)\{([^}]*)\}", text):
        if re.match(LIBRARIES, path):
            taken.update(re.findall(NAME, names))
    return taken


def turn(name, text, turned, fields, code, clashes):
    """The file in the new spelling; a name that it has already in another sense, which is no function or parameter of src/, is a clash."""
    keep = imported(text)
    if name.endswith(".antt"):
        for lemma, place in LEMMAS.items():
            if name.startswith(place):
                text = re.sub(r"(?<![\w.'-])" + lemma + r"(?![\w'-])", lemma + "_lem", text)
    present = set(TOKEN.findall(text))
    mine = {}
    for old in present & set(turned):
        if old in keep:
            continue
        new = turned[old]
        if new in present and new not in code:
            clashes[old].add((name, new))
        mine[old] = new

    def one(found):
        word = found[0]
        if word not in mine:
            return word
        before = text[: found.start()]
        if before.endswith("."):
            above = re.search(r"(" + NAME + r")\.$", before[-200:])
            if above and above[1] in ("tie", "reads", "lts", "goal"):
                return word
            if not (above and above[1][:1].isupper()) and word not in fields:
                return word
        return mine[word]

    # code has no such names: of a source file only clauses, imports and the names in comments change
    return TOKEN.sub(one, text)


def main():
    os.chdir(os.path.join(os.path.dirname(os.path.abspath(__file__)), ".."))
    files = list(texts())
    names, fields = declared(files)
    odd = [name for name in names if (name in OWN or name[0].islower() or not name[0].isalpha() and re.search(r"[a-z]-|[a-z][A-Z]", name)) and spelled(name) != name]
    # a lemma that would have the name of a definition ends in `_lem`
    turned = {name: spelled(name) for name in odd if "-" not in name}
    taken = names | set(turned.values())
    for name in sorted(set(odd) - set(turned)):
        turned[name] = spelled(name) + ("_lem" if spelled(name) in taken else "")
        taken.add(turned[name])
    together = collections.Counter(turned.values())
    for name in sorted(turned):
        if together[turned[name]] > 1 or turned[name] in names - set(LEMMAS):
            print(f"look: {name} isn't the only one that becomes {turned[name]}")
    code = set()
    for name, text in files:
        if name.endswith(".rt"):
            code.update(re.findall(r"\b(?:fn|requires|ensures|mod|struct|const) (\w+)", text))
    clashes = collections.defaultdict(set)
    out = {name: turn(name, text, turned, fields, code, clashes) for name, text in files}
    for old, places in sorted(clashes.items()):
        for place, others in sorted(places):
            print(f"look: {place}: {old} and {others} would be one")
    changed = 0
    for name, text in files:
        if out[name] != text:
            changed += 1
            if "--check" not in sys.argv[1:]:
                with open(name, "w", encoding="utf-8") as file:
                    file.write(out[name])
    print(f"spell: {len(names)} names, {len(turned)} turned, {changed} files, {len(clashes)} to look at")


if __name__ == "__main__":
    main()

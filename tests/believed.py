#!/usr/bin/env python3
"""What a reader must believe: the definitions that the public contracts and the final theorems rest on.

    tests/believed.py              prints the files with their lines; fails where the rule is broken or docs/PROOFS.md has another list
    tests/believed.py --write      puts the list into docs/PROOFS.md
    tests/believed.py --why NAME   prints by which citations NAME is reached

The rule for crates/*/specs: a file with a plain name holds definitions that are reached, and nothing else. *Laws.antt, there or in proofs/, has
laws and what only laws need, *Layer.antt what only contracts of inner functions cite, *Cases.antt definitions run on examples; Lib.antt is the
crate's root. Laws stand in proofs/ where a wrong definition must be refused by them: the checker's tool wants every text of specs/ to be admitted.
Structs and enums stand in src/ and end the search. Names are followed by their text alone: a bound variable that has the name of a
definition counts as a citation of it.
"""
import glob
import os
import re
import sys

# The crates whose public functions are the product's calls: what their contracts cite is followed.
ENTRIES = "board history build levelled spans navigate climb hops climber meet sums pull index_check whole_replay flowpewter lines printing listing streams numerals"

# The theorems whose statements are followed.
THEOREMS = {
    "guarantee": "guarantee sound_build unsound_build sound_default default_leaves_none sound_shortest unsound_shortest sound_dated unsound_dated sound_pulls days_unread levelled_build marked_cases built_accepted built_distances built_links",
    "hops": "accepted_hops",
    "meet": "meeting apart_by_roots",
    "pull": "total_moves unnamed_still subtree_moves",
    "options": "taken_apart composed",
    "islands": "entries_entered entered_unique",
    "nodes": "joining_unique nodes_unique entry_closes entry_shares accepted_leaves_none",
    "shortest": "shortest_unique",
    "dated": "dated_unique",
    "machine": "simulation final_state earlier_and_later undo_redo redo_undo board_undo_redo board_redo_undo",
    "listing": "listing_outcome",
}

DOCUMENT = "docs/PROOFS.md"
BEGIN, END = "<!-- tests/believed.py -->\n", "<!-- end -->\n"
NOT_BELIEVED = re.compile(r"(Laws|Layer|Cases)$")

USE = re.compile(r"^ *(?:(?:unfoldable|pub|ghost) )*use ([^{]+?)(?:\.\{(.*)\})?(?: as (\S+))?;?$")
PATH = re.compile(r"^Rattle\.(\w+)\.(?:specs|proofs)\.(.+)$")
MODULE = re.compile(r"^ *module \S+ ?(.*) where$")
HEAD = re.compile(r"^ *(?:(?:abbrev|unfoldable|pub) )*(?:(record|data) (\S+)|(\S+)(?: \{[^:]*\})? :(?: |$))")
PUBLIC = re.compile(r'^ *pub (?:extern "C" )?fn (\w+)')
CLAUSE = re.compile(r"^ *(?:requires|ensures)\*?(?: \w+)? \{(.*)$")


def read_lines(path, comment):
    """The file's lines without comments and empty lines, the head of a module in one line, and how many lines it has as it stands."""
    with open(path, encoding="utf-8") as source:
        lines = source.read().splitlines()
    bare = []
    for line in lines:
        line = re.sub(rf"(^|\s){comment}(\s.*)?$", "", line).rstrip()
        if bare and re.match(r" *module (?!.* where$)", bare[-1]):
            bare[-1] += " " + line.strip()
        elif line:
            bare.append(line)
    return bare, len(lines)


class Scope:
    """What the names in a file stand for: (crate, file, name). The kit's names stand for nothing."""

    def __init__(self):
        self.names, self.modules = {}, {}

    def use(self, line):
        path, names, module = USE.match(line).groups()
        found = PATH.match(path)
        if not found or not os.path.isdir(f"crates/{found.group(1)}"):
            return
        if module:
            self.modules[module] = found.groups()
        for name in names.split(",") if names else ():
            name, _, other = name.strip().partition(" as ")
            self.declare(other or name, found.groups() + (name,))

    def declare(self, name, target):
        operator_parts = [part for part in name.split("◌") if part] if "◌" in name else []
        for word in [name] + operator_parts:
            self.names[word] = target

    def cited(self, text):
        """The definitions that a text names; a field's name in `record { field = .. }` is none."""
        text = re.sub(r"([{;]) *\S+ =(?= )", r"\1", text)
        for word in re.sub(r"[(){};,]", " ", text).split():
            first, _, rest = word.rstrip(".").partition(".")
            if first in self.names:
                yield self.names[first]
            elif rest and first in self.modules:
                yield self.modules[first] + (rest.partition(".")[0],)


class Specs:
    """A file of specs: each declaration's text with its modules' parameters, the text of its type alone, and each constructor's type."""

    def __init__(self, path, crate, name):
        self.path, self.scope, self.text, self.type, self.constructors = path, Scope(), {}, {}, {}
        lines, self.count = read_lines(path, "--")
        modules, declared, kind, in_type = [], None, None, False
        for line in lines:
            indent = len(line) - len(line.lstrip())
            modules = modules[: indent // 2]
            inside = 2 * len(modules)
            if USE.match(line):
                self.scope.use(line)
            elif indent == inside and MODULE.match(line):
                modules.append(MODULE.match(line).group(1))
            elif indent == inside and HEAD.match(line):
                kind, of_type, plain = HEAD.match(line).groups()
                declared, in_type = of_type or plain, True
                self.text[declared] = self.type[declared] = " ".join(modules + [line])
                self.scope.declare(declared, (crate, name, declared))
            elif declared:
                in_type = in_type and indent > inside
                self.text[declared] += " " + line
                self.type[declared] += " " + line if in_type else ""
                if kind == "data" and indent == inside + 2:
                    self.constructors.update((word, declared) for word in line.partition(" : ")[0].split())


def contracts(path):
    """What the contracts of a source file's public functions cite, each with the function's name."""
    scope, function, open_braces = Scope(), None, 0
    for line in read_lines(path, "//")[0]:
        clause = CLAUSE.match(line)
        if open_braces:
            text = line
        elif USE.match(line):
            scope.use(line)
            continue
        elif clause:
            text, open_braces = clause.group(1), 1
        else:
            if re.search(r"\bfn \w+", line):
                function = PUBLIC.match(line) and PUBLIC.match(line).group(1)
            continue
        open_braces += text.count("{") - text.count("}")
        for target in scope.cited(text) if function else ():
            yield function, target


def shown(target):
    return target if isinstance(target, str) else "{}/specs/{} {}".format(*target)


class Search:
    """All definitions that are reached, each with what cites it first."""

    def __init__(self, specs):
        self.specs, self.citer, self.open, self.wrong = specs, {}, [], []

    def reach(self, target, citer):
        crate, name, declared = target
        file = self.specs.get((crate, name))
        if name.startswith("declared."):
            return
        if file and declared in file.constructors:
            target = (crate, name, file.constructors[declared])
        elif file and declared not in file.text and declared in file.scope.names:  # handed on by `pub use`
            return self.reach(file.scope.names[declared], citer)
        elif not file or declared not in file.text:
            self.wrong.append(f"{shown(citer)} cites {shown(target)}, which is no definition of specs/")
            return
        if target not in self.citer:
            self.citer[target] = citer
            self.open.append(target)

    def run(self):
        for crate in ENTRIES.split():
            sources = glob.glob(f"crates/{crate}/src/*.rt")
            if not sources:
                self.wrong.append(f"there is no crate {crate}")
            for path in sources:
                for function, target in contracts(path):
                    self.reach(target, f"the contract of {crate}::{function}")
        for crate, theorems in THEOREMS.items():
            for theorem in theorems.split():
                homes = [file for (owner, _), file in self.specs.items() if owner == crate and theorem in file.type]
                if len(homes) != 1:
                    self.wrong.append(f"crate {crate} has {len(homes)} theorems {theorem}")
                for file in homes:
                    for target in file.scope.cited(file.type[theorem]):
                        if target[2] != theorem:
                            self.reach(target, f"the theorem {theorem}")
        while self.open:
            target = self.open.pop()
            file = self.specs[target[:2]]
            for cited in file.scope.cited(file.text[target[2]]):
                self.reach(cited, target)


def judge(specs, search):
    """The files that must be believed with their lines, and where the rule is broken."""
    believed, wrong = [], list(search.wrong)
    for (crate, name), file in specs.items():
        reached = [declared for declared in file.text if (crate, name, declared) in search.citer]
        others = [declared for declared in file.text if declared not in reached]
        if reached:
            believed.append((f"{crate}/specs/{name}", file.count))
        if NOT_BELIEVED.search(name):
            wrong += [f"{file.path}: {declared} must be believed, {shown(search.citer[crate, name, declared])} cites it" for declared in reached]
        elif not reached:
            wrong.append(f"{file.path}: nothing in it is reached")
        elif others:
            wrong.append(f"{file.path}: not reached: {', '.join(others)}")
    return believed, wrong


def main():
    os.chdir(os.path.join(os.path.dirname(os.path.abspath(__file__)), ".."))
    specs = {}
    laws = [path for path in glob.glob("crates/*/proofs/*.antt") if re.search(r"(Laws|Cases)[.]antt$", path)]
    for path in sorted(glob.glob("crates/*/specs/*.antt") + laws):
        crate, name = path.split("/")[1], os.path.basename(path)[: -len(".antt")]
        if name != "Lib":
            specs[crate, name] = Specs(path, crate, name)
    search = Search(specs)
    search.run()

    if sys.argv[1:2] == ["--why"]:
        for target in [target for target in search.citer if target[2] in sys.argv[2:]]:
            while target:
                print(shown(target))
                target = search.citer.get(target)
            print()
        return 0

    believed, wrong = judge(specs, search)
    width = max(len(path) for path, _ in believed)
    rows = believed + [(f"{len(believed)} files", sum(count for _, count in believed))]
    table = "".join(f"{path:{width}} {count:5,}\n" for path, count in rows)

    with open(DOCUMENT, encoding="utf-8") as document:
        before, begin, rest = document.read().partition(BEGIN)
    listed, end, after = rest.partition(END)
    block = f"```\n{table}```\n"
    if not begin or not end:
        wrong.append(f"{DOCUMENT}: no place for the list")
    elif sys.argv[1:] == ["--write"]:
        with open(DOCUMENT, "w", encoding="utf-8") as document:
            document.write(before + begin + block + end + after)
    elif listed != block:
        wrong.append(f"{DOCUMENT} has another list: tests/believed.py --write puts this one there")

    print(table, end="")
    for message in wrong:
        print(message)
    return 1 if wrong else 0


sys.exit(main())

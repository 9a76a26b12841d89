#!/usr/bin/env python3
"""Counts the lines that people must believe: python3 scripts/believed.py

First, of each file of specs/ of the crates that have definitions and no code: all lines, and those that are neither blank, comment nor `use`.
Then, of these bare lines in specs/ of all crates, those that promises rest on, found by following names: from what the calls of document 01 promise,
with agreement and demand 3; from what the calls of document 02 promise as well; and from what the program shows as well.
"""
import os
import re

HERE = os.path.dirname(os.path.dirname(os.path.abspath(__file__)))
WORD = re.compile(r"[^\s(){}.,;]+")

# Where each count begins: crate, file, name; without a name all of the file.
PROMISES = [
    ("the calls of document 01, agreement and demand 3",
     ["authorizer Called Called", "authorizer Calls Run", "authorizer Calls bytes_in", "sheet Agreement agrees",
      "sheet Demand3 Demand3", "sheet Call Accepted", "sheet WhySaid Explained"]),
    ("these and the calls of document 02",
     ["finished Promise Finished", "paged Promise Paged", "previewed Promise Previewed", "firm Promise Quotes",
      "testload Loaded Loaded", "again Again"]),
    ("these and what the program shows", ["openrules Shown"]),
]


def crates():
    """The crates in the order of crates.txt."""
    for line in open(os.path.join(HERE, "crates.txt"), encoding="utf-8"):
        name = line.split(":")[0].strip()
        if name and not line.startswith("#") and os.path.isdir(os.path.join(HERE, "crates", name, "specs")):
            yield name


def has_code(crate):
    folder = os.path.join(HERE, "crates", crate, "src")
    code = [open(os.path.join(folder, f), encoding="utf-8").read() for f in os.listdir(folder)]
    return any(re.search(r"^\s*(pub )?(extern \S+ )?fn ", text, re.M) for text in code)


def without_code():
    """The crates that have definitions and no code."""
    return [crate for crate in crates() if not has_code(crate)]


def own(line):
    s = line.strip()
    return bool(s) and not s.startswith("--") and not line.startswith("use ")


def blocks(text):
    """Runs of lines between blank lines: one declaration with its clauses each."""
    run = []
    for line in text.split("\n") + [""]:
        if line.strip():
            run.append(line)
        elif run:
            yield run
            run = []


def names(run):
    """What a block declares: signatures, data, records and constructors."""
    found = set()
    for line in run:
        s = re.sub(r"^((abbrev|unfoldable|mutual|pub) ?)*", "", line.strip())
        m = re.match(r"^(data|record) (\S+)", s)
        if m:
            found.add(m.group(2))
            continue
        m = re.match(r"^([^:=(){}→λ]+) : ", s)
        if m:
            found.update(m.group(1).split())
    return found


class Definitions:
    """The blocks of all specs/, what each file declares, and what its `use` lines bring in."""

    def __init__(self):
        self.files = []
        for crate in crates():
            folder = os.path.join(HERE, "crates", crate, "specs")
            for f in sorted(os.listdir(folder)):
                if f.endswith(".antt") and f != "Lib.antt":
                    text = open(os.path.join(folder, f), encoding="utf-8").read()
                    self.files.append((crate, f[:-5], text.count("\n"), list(blocks(text))))
        self.block, self.here = {}, {}
        for crate, name, _, bs in self.files:
            for i, b in enumerate(bs):
                self.block[crate, name, i] = b
                for n in names(b):
                    self.here.setdefault((crate, name, n), (crate, name, i))
        self.brought = {}
        for crate, name, _, bs in self.files:
            for line in (l for b in bs for l in b):
                m = re.match(r"(?:pub )?use Rattle\.(\w+)\.specs\.(\w+)\.\{(.*)\}", line)
                for n in m.group(3).split(",") if m else []:
                    old, _, new = n.strip().partition(" as ")
                    self.brought[crate, name, new or old] = self.here.get((m.group(1), m.group(2), old))

    def bare(self, place):
        return sum(own(line) for line in self.block[place])

    def roots(self, text):
        crate, name, *what = text.split()
        found = [p for (c, n, x), p in self.here.items() if (c, n) == (crate, name) and (not what or x == what[0])]
        if not found:
            raise SystemExit("no such definition: " + text)
        return found

    def follow(self, reached, todo):
        """Adds to `reached` what the blocks of `todo` rest on."""
        while todo:
            p = todo.pop()
            if p is None or p in reached:
                continue
            reached.add(p)
            for line in filter(own, self.block[p]):
                for w in WORD.findall(line):
                    todo.append(self.here.get((p[0], p[1], w)) or self.brought.get((p[0], p[1], w)))


def main():
    defs = Definitions()
    pure = [f for f in defs.files if f[0] in without_code()]
    for crate, name, lines, bs in pure:
        print("%-9s %-14s %5d %5d" % (crate, name, lines, sum(own(l) for b in bs for l in b)))
    print("definitions without code: %d lines, %d bare" % (sum(f[2] for f in pure), sum(own(l) for f in pure for b in f[3] for l in b)))
    reached = set()
    for says, roots in PROMISES:
        defs.follow(reached, [p for r in roots for p in defs.roots(r)])
        print("%5d bare lines under %s" % (sum(map(defs.bare, reached)), says))


if __name__ == "__main__":
    main()

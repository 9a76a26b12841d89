#!/usr/bin/env python3
"""Writes docs/DEFINITIONS.md: each definition of the crates without code whose comment, or the heading right before it, quotes document 01 or 02, with that;
and the summary of docs/MUTANTS.md."""
import glob
import os
import re

from believed import HERE, without_code

HEAD = """# Definitions and the sentences they quote

Written by `python3 scripts/sentences.py` from the comments of specs/. A definition that is not listed is a part of one that is, or of
what its file states (docs/ARCHITECTURE.md, section 2).
"""
CHANGED = """
## Changed lines, and what notices them

From [docs/MUTANTS.md](MUTANTS.md), the table of `python3 scripts/mutants.py`: %s

| What is changed | Changes | A known sheet or an example, computed | A theorem | The proof of a law | The same |
|---|---|---|---|---|---|"""


def changes():
    """The summary of docs/MUTANTS.md, by its headings."""
    said, rows = "", []
    for line in open(os.path.join(HERE, "docs", "MUTANTS.md"), encoding="utf-8"):
        if re.match(r"\d+ changes: ", line):
            said = line.strip()
        elif line.startswith("## "):
            rows.append([line[3:].strip(), 0, 0, 0, 0, 0])
        elif line.startswith("| `"):
            by = line.rsplit(" | ", 1)[1]
            rows[-1][1] += 1
            computed = re.match(r"known sheet|`.*/proofs/\w*(Known|Example|Edges)", by)
            rows[-1][2 if computed else 5 if by.startswith("the same") else 4 if by.startswith("the proof of") else 3] += 1
    return [CHANGED % said] + ["| %s | %d | %d | %d | %d | %d |" % tuple(r) for r in rows]


def main():
    out = [HEAD] + changes()
    for crate in without_code():
        out.append("\n## `%s`\n\n| File | Definition | Its comment |\n|---|---|---|" % crate)
        for path in sorted(glob.glob(os.path.join(HERE, "crates", crate, "specs", "*.antt"))):
            comment = []
            for line in open(path, encoding="utf-8"):
                s = line.strip()
                if s.startswith("--"):
                    comment.append(s[2:].strip())
                    continue
                m = re.match(r"^(?:(?:abbrev|unfoldable|mutual) )*pub (?:(?:data|record) )?([^\s:({]+)", s)
                if m and any('"' in c for c in comment):
                    parts = [c.lstrip("- ") for c in comment if c.startswith("----") and '"' in c] + [" ".join(c for c in comment if not c.startswith("----"))]
                    text = "; ".join(part for part in parts if part).replace("|", "\\|")
                    out.append("| %s | `%s` | %s |" % (os.path.basename(path)[:-5], m.group(1), text))
                if s:
                    comment = []
    with open(os.path.join(HERE, "docs", "DEFINITIONS.md"), "w", encoding="utf-8") as f:
        f.write("\n".join(out) + "\n")


main()

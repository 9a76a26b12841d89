#!/usr/bin/env python3
"""Changes definitions one at a time, and says what notices each change.

    python3 scripts/mutants.py [--new] [--crate CRATE] [--folder NAME] [NAME..]
    python3 scripts/mutants.py --table

The changes stand in scripts/mutants.txt, in the form of crates/*/must-fail/*.edit with a line `mutant: CRATE/NAME` before each, and with a line that says
who is asked:

    sheets: PATTERN      the known sheets (crates/known) whose names PATTERN is found in, computed over the changed definitions of `cedar` and `sheet`
                         without any proof (scripts/cases.py). A pattern after `=` is a text of the sheet: the six shortest that have it.
    proof: CRATE/FILE    crates/CRATE/proofs/FILE.antt (FILE with its folder, if it has one) over the changed definitions, with the proofs that it imports
                         and no others. Names after it are the computed examples of the file that are asked.
    (no such line)       the whole crate, as `rt check` asks it.

Each change, or each of the given names, is made in a copy below a folder `openrules-mutants` of temporary files. A change that is proved all the same, and that every known sheet asked
agrees with, is UNNOTICED, unless a line `equal:` gives the reason why it changes nothing. `use:` has a file and a `use` line that the new text needs.
The libraries of the crates are built there first, from what was proved on this machine where there is such. Of changes with `sheets:` or `proof:`
twenty are asked in one check: the files that a change concerns are copied for it into a crate `asked` above the proved ones. With --new only changes
without a verdict are tried; two runs at a time need two names of --folder. All take some twenty minutes of one processor; this is no part of the gate.

--table writes docs/MUTANTS.md from what was found; a change that was not tried keeps its row if it has one.
"""
import functools
import json
import os
import re
import shutil
import subprocess
import sys
import tempfile
import time

import cases
from sheets import HERE, known, printed

LIST = os.path.join(HERE, "scripts", "mutants.txt")
TABLE = os.path.join(HERE, "docs", "MUTANTS.md")
WORK = os.path.join(tempfile.gettempdir(), "openrules-mutants")
FOUND = os.path.join(WORK, "tried")
# the crates without code, in the order of their needs
CRATES = ["cedar", "sheet", "samples", "again", "finished", "paged", "previewed", "staff", "forms", "drawn"]
# so many changes in one check
AT_ONCE = 20
WORDS = {"mutant", "file", "old", "new", "use", "sheets", "proof", "equal"}


# ---- the list

def listed():
    """The changes in their order: each has a name, its heading, pairs of old and new text by file, and what is said of it."""
    out, heading = [], ""
    for number, line in enumerate(open(LIST, encoding="utf-8"), 1):
        line = line.rstrip("\n")
        if line.startswith("## "):
            heading = line[3:]
        if not line or line.startswith("#"):
            continue
        word, _, rest = line.partition(":")
        rest = rest[1:]
        if word not in WORDS:
            sys.exit("%s:%d: no such word" % (LIST, number))
        if word == "mutant":
            out.append({"name": rest, "crate": rest.split("/")[0], "heading": heading, "pairs": []})
        elif word == "file":
            file = rest
        elif word == "old":
            old = rest
        elif word == "new":
            out[-1]["pairs"].append((file, old, rest))
        elif word == "use":
            out[-1].setdefault("uses", []).append(rest.split(" ", 1))
        else:
            out[-1][word] = rest
    names = [m["name"] for m in out]
    twice = sorted(n for n in set(names) if names.count(n) > 1)
    if twice:
        sys.exit("twice in the list: " + " ".join(twice))
    return out


def changed(m, file):
    """The text of a file with the pairs of a change, all at once; each old text must stand in the file once."""
    text = open(os.path.join(HERE, "crates", m["crate"], file), encoding="utf-8").read()
    spans = []
    for f, old, new in m["pairs"]:
        if f == file:
            if text.count(old) != 1:
                sys.exit("%s: its old text is %d times in %s: %s" % (m["name"], text.count(old), file, old))
            spans.append((text.index(old), old, new))
    for at, old, new in sorted(spans, reverse=True):
        text = text[:at] + new + text[at + len(old):]
    for f, used in m.get("uses", []):
        if f == file:
            text = text.replace("\nuse ", "\nuse %s\nuse " % used, 1)
    return text


def files(m):
    return {f for f, _, _ in m["pairs"]}


def edit(m, tree):
    for file in files(m):
        with open(os.path.join(tree, "crates", m["crate"], file), "w", encoding="utf-8") as f:
            f.write(changed(m, file))


def restore(m, tree):
    for file in files(m):
        shutil.copyfile(os.path.join(HERE, "crates", m["crate"], file), os.path.join(tree, "crates", m["crate"], file))


# ---- who is asked

def check(tree, crate):
    r = subprocess.run(["rt", "check", "--jobs", "1"], cwd=os.path.join(tree, "crates", crate), capture_output=True, text=True)
    return r.returncode, r.stdout + r.stderr


def verdict(crate, status, said):
    """Where the first error stands, or that all was proved."""
    if status == 0:
        return {"proved": True}
    at = re.search(r"(?m)^\./((?:specs|proofs)/[^\s:]+):\d+:\d+: (?:error: )?`([^`\n]*)`", said)
    if status == 1 and at and at.group(1).startswith("proofs/"):
        return {"at": (crate,) + at.groups()}
    return {"bad": said.strip()[-600:]}


def copied(parts, crate, tree):
    for part in parts:
        here, there = (os.path.join(top, "crates", crate, part) for top in (HERE, tree))
        shutil.rmtree(there, ignore_errors=True)
        if os.path.isdir(here):
            shutil.copytree(here, there)


@functools.cache
def whole(folder):
    """A tree with all crates without code."""
    tree = os.path.join(WORK, folder, "whole")
    os.makedirs(tree, exist_ok=True)
    with open(os.path.join(tree, "crates.txt"), "w", encoding="utf-8") as f:
        f.write(lines())
    for crate in CRATES:
        copied(("src", "specs", "proofs"), crate, tree)
    return tree


def lines():
    """The lines of crates.txt for the crates without code."""
    with open(os.path.join(HERE, "crates.txt"), encoding="utf-8") as f:
        return "".join(line for line in f if line.split(":")[0] in CRATES)


def ask_crate(m, folder):
    tree = whole(folder)
    edit(m, tree)
    try:
        return verdict(m["crate"], *check(tree, m["crate"]))
    finally:
        restore(m, tree)


EXAMPLE = re.compile(r"^(\S+) = refl$", re.M)
# crate, part, and the file's name after those of its folders
REFERENCE = re.compile(r"Rattle\.(\w+)\.(specs|proofs)\.((?:[a-z]\w*\.)*[A-Z]\w*)")


def read(crate, part, name):
    return open(os.path.join(HERE, "crates", crate, part, *name.split(".")) + ".antt", encoding="utf-8").read()


def definitions():
    """The texts of all definitions, by crate and file."""
    return {(c, f[:-5]): read(c, "specs", f[:-5]) for c in CRATES if os.path.isdir(os.path.join(HERE, "crates", c, "specs"))
            for f in os.listdir(os.path.join(HERE, "crates", c, "specs")) if f != "Lib.antt"}


def imports(text):
    return [(c, n) for c, part, n in REFERENCE.findall(text) if part == "specs" and c in CRATES]


def above(specs, changes):
    """These files and all that import them."""
    out, more = set(), set(changes)
    while more:
        out |= more
        more = {k for k, text in specs.items() if k not in out and not out.isdisjoint(imports(text))}
    return out


def below(specs, texts):
    """The files of definitions that these texts import, and all that those import."""
    out, more = set(), {k for text in texts for k in imports(text)}
    while more:
        out |= more
        more = {k for o in more for k in imports(specs[o])} - out
    return out


def asked_of(m):
    """The proofs that are asked: their texts, by crate and file."""
    if "sheets" in m:
        return {("sheet", "Cases"): cases.HEAD + "".join("\n" + cases.theorem(i, c) for i, c in sheets_of(m).items())}
    file, *names = m["proof"].split()
    crate, *places = file.split("/")
    out, left = {}, [(crate, ".".join(places))]
    while left:
        crate, name = left.pop()
        if (crate, name) not in out:
            out[crate, name] = read(crate, "proofs", name)
            left += [(c, n) for c, part, n in REFERENCE.findall(out[crate, name]) if part == "proofs" and c in CRATES]
    if names:
        first = next(iter(out))
        out[first] = "\n\n".join(b for b in out[first].split("\n\n") if not EXAMPLE.search(b) or set(names) & set(EXAMPLE.findall(b)))
    return out


def sheets_of(m):
    """The known sheets of the pattern and what is known of them, by number."""
    pattern = m["sheets"]
    found = [(len(s.bytes), i, (s, printed(r))) for i, (s, r) in enumerate(known())
             if (pattern[1:].encode() in s.bytes if pattern.startswith("=") else re.search(pattern, s.name))]
    if not found:
        sys.exit("%s: no known sheet has such a name: %s" % (m["name"], pattern))
    return {i: c for _, i, c in (sorted(found)[:6] if pattern.startswith("=") else found)}


def copy_name(part, crate, name, number):
    """What the copy of a file for a change is called: `DSheetFormsX3` has definitions, `PSheetShownX3` proofs."""
    return "%s%s%sX%d" % (part[0].upper().replace("S", "D"), crate.capitalize(), name.replace(".", ""), number)


def copied_for(m, number, specs):
    """What is asked of a change, and the definitions that it asks for and that the change concerns: the texts of these copies, by name."""
    proofs = asked_of(m)
    concerned = above(specs, {(m["crate"], os.path.basename(f)[:-5]) for f in files(m)}) & below(specs, proofs.values())
    texts = {("proofs",) + k: text for k, text in proofs.items()}
    for crate, name in concerned:
        file = "specs/%s.antt" % name
        texts["specs", crate, name] = changed(m, file) if crate == m["crate"] and file in files(m) else specs[crate, name]

    def renamed(r):
        crate, part, name = r.groups()
        return "Rattle.asked.specs." + copy_name(part, crate, name, number) if (part, crate, name) in texts else "Rattle.%s.%s.%s" % (crate, part, name)
    return {copy_name(*k, number): REFERENCE.sub(renamed, text) for k, text in texts.items()}


def few(ms, folder):
    """A tree with a crate `asked` above the proved ones: for each change its copies."""
    tree, specs, texts = whole(folder), definitions(), {}
    for number, m in enumerate(ms):
        texts.update(copied_for(m, number, specs))
    texts["Lib"] = "".join("pub mod %s\n" % name for name in sorted(texts))
    there = os.path.join(tree, "crates", "asked")
    shutil.rmtree(there, ignore_errors=True)
    os.makedirs(os.path.join(there, "specs"))
    os.makedirs(os.path.join(there, "src"))
    for file, text in [("src/lib.rt", "// No code.\n#![tactic(auto)]\n")] + [("specs/%s.antt" % name, text) for name, text in texts.items()]:
        with open(os.path.join(there, file), "w", encoding="utf-8") as f:
            f.write(text)
    needed = {c for text in texts.values() for c, _, _ in REFERENCE.findall(text)}
    with open(os.path.join(tree, "crates.txt"), "w", encoding="utf-8") as f:
        f.write(lines() + "asked: %s\n" % " ".join(c for c in CRATES if c in needed))
    return tree


def ask_few(ms, folder):
    """What is asked of each of these changes, all in one check: the errors in its copies."""
    status, said = check(few(ms, folder), "asked")
    done = status in (0, 1)
    out = []
    for number, m in enumerate(ms):
        errors = re.findall(r"(?m)^\./specs/(\w)\w*X%d\.antt:\d+:\d+: error: `([^`\n]*)`" % number, said)
        if not done or any(part == "D" for part, _ in errors):
            out.append({"bad": "%s: %s" % (errors, said.strip()[-600:])})
        elif "sheets" in m:
            chosen = sheets_of(m)
            out.append({"asked": len(chosen), "wrong": [chosen[int(i)][0].name for i in dict.fromkeys(name[4:] for _, name in errors)]})
        elif errors:
            out.append({"at": next(["%s" % c, "proofs/%s.antt" % n.replace(".", "/"), errors[0][1]] for c, n in asked_of(m)
                                   if "%s.antt" % copy_name("proofs", c, n, number) in said)})
        else:
            out.append({"proved": True})
    return out


# ---- what was found

def path_of(m):
    return os.path.join(FOUND, m["name"].replace("/", ".") + ".json")


def key_of(m):
    return [[list(p) for p in m["pairs"]], m.get("sheets"), m.get("proof")]


def kept(m):
    """What was found of a change as it stands now, if it was tried."""
    if os.path.exists(path_of(m)):
        found = json.load(open(path_of(m), encoding="utf-8"))
        if found["key"] == key_of(m):
            return found["answer"]
    return None


def keep(m, answer):
    os.makedirs(FOUND, exist_ok=True)
    with open(path_of(m), "w", encoding="utf-8") as f:
        json.dump({"key": key_of(m), "answer": answer}, f)


def told(m, answer):
    """What the table says of a change."""
    if "at" in answer:
        crate, file, name = answer["at"]
        return "%s`%s`, %s/%s" % ("" if "proof" in m or re.search("Known|Example|Edges", file) else "the proof of ", name, crate, file)
    if answer.get("wrong"):
        names = answer["wrong"]
        return "known sheet%s %s" % ("s" if len(names) > 1 else "", ", ".join("`%s`" % n for n in names[:3])) + (
            " and %d more" % (len(names) - 3) if len(names) > 3 else "")
    if "bad" in answer:
        return "no verdict: " + answer["bad"].splitlines()[-1][:160]
    if "equal" in m:
        return "the same: %s (%d known sheets agree)" % (m["equal"], answer["asked"])
    return "UNNOTICED by " + ("%d known sheets" % answer["asked"] if "asked" in answer else m.get("proof", m["crate"]))


HEAD = """# Changed definitions, and what notices each

Written by `python3 scripts/mutants.py --table`; the changes stand in scripts/mutants.txt. Each changes a definition of a crate without code in one line,
or in a few where it stands by content and by number, or where two lines are exchanged. "Noticed by" is a known sheet (crates/known) that the changed
definitions compute otherwise; or a theorem, or an example computed in the proofs, that is false then. Where it says "the proof of", the whole crate was asked
and this proof was refused first, which does not show that what it states is false. The crates with code are not asked: their code is proved to be the definition, so
they refuse a change of what code computes. The must-fail edits of these crates are such changes too, which the gate tries; they are not repeated here.
"""


def rows_kept():
    """The rows of the table as it stands, by name."""
    out = {}
    if os.path.exists(TABLE):
        for line in open(TABLE, encoding="utf-8"):
            if line.startswith("| `"):
                out[line.split("`")[1]] = line.rstrip("\n")
    return out


def table(all_):
    old, rows, heading = rows_kept(), [], None
    tally = {"noticed": 0, "UNNOTICED": 0, "the same": 0, "not tried": 0, "no verdict": 0}
    for m in all_:
        if m["heading"] != heading:
            heading = m["heading"]
            rows.append("\n## %s\n\n| Change | Becomes | Noticed by |\n|---|---|---|" % heading)
        answer = kept(m)
        new = "; ".join("`%s`" % n.strip() if n.strip() else "(left out)" for _, _, n in m["pairs"]).replace("|", "\\|")
        row = "| `%s` | %s | %s |" % (m["name"], new, told(m, answer)) if answer else old.get(m["name"], "| `%s` | %s | not tried |" % (m["name"], new))
        last = row.split(" | ")[-1]
        tally[next((k for k in tally if last.startswith(k)), "noticed")] += 1
        rows.append(row)
    dirs = [os.path.join(HERE, "crates", c, "must-fail") for c in sorted({m["crate"] for m in all_})]
    edits = sum(e.endswith(".edit") for d in dirs if os.path.isdir(d) for e in os.listdir(d))
    count = "%d changes: %d noticed, %d the same by the reason given, %d unnoticed, %d not tried, %d without verdict. Beside them stand %d must-fail edits." % (
        len(all_), tally["noticed"], tally["the same"], tally["UNNOTICED"], tally["not tried"], tally["no verdict"], edits)
    with open(TABLE, "w", encoding="utf-8") as f:
        f.write(HEAD + "\n" + count + "\n" + "\n".join(rows) + "\n")
    print(count)


def main(args):
    all_ = listed()
    for m in all_:
        for file in files(m):
            changed(m, file)
    if "--table" in args:
        return table(all_)
    folder, crate, names = "tree", None, []
    rest = iter(args)
    for a in rest:
        if a == "--folder":
            folder = next(rest)
        elif a == "--crate":
            crate = next(rest)
        elif not a.startswith("--"):
            names.append(a)
    by_name = {m["name"]: m for m in all_}
    unknown = [n for n in names if n not in by_name]
    if unknown:
        sys.exit("not in the list: " + " ".join(unknown))
    left = [m for m in [by_name[n] for n in dict.fromkeys(names)] or all_ if not (crate and m["crate"] != crate) and not ("--new" in args and "bad" not in (kept(m) or {"bad": ""}))]
    some = [m for m in left if "sheets" in m or "proof" in m]
    for ms in [some[i:i + AT_ONCE] for i in range(0, len(some), AT_ONCE)] + [[m] for m in left if m not in some]:
        begin = time.time()
        for m, answer in zip(ms, ask_few(ms, folder) if ms[0] in some else [ask_crate(ms[0], folder)]):
            keep(m, answer)
            print("%s: %s" % (m["name"], told(m, answer)), flush=True)
        print("%d in %.0f s" % (len(ms), time.time() - begin), flush=True)


if __name__ == "__main__":
    main(sys.argv[1:])

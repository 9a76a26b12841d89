#!/usr/bin/env python3
"""Counts the places of docs/DESIGN-PASS.md in src/ of every crate, point by point; with --list each place by file and line.
`scripts/places.py [--list] [POINT ..]`; another commit is counted by running this file in a checkout of it (`--root FOLDER`)."""

import argparse
import collections
import pathlib
import re

def sources(root):
    for path in sorted(root.glob("crates/*/src/**/*.rt")):
        yield path, path.read_text().split("\n")


def functions(path, lines):
    """Each function: name, first line, the text of its head (to the brace) and of its body."""
    i = 0
    while i < len(lines):
        m = re.match(r"\s*(?:pub )?(?:const )?(?:unsafe )?(?:extern \"C\" )?fn (\w+)", lines[i])
        if not m:
            i += 1
            continue
        start, indent = i, len(lines[i]) - len(lines[i].lstrip())
        while i < len(lines) and lines[i] != " " * indent + "{" and not lines[i].endswith(" {") and not lines[i].endswith("{}"):
            i += 1
        head = "\n".join(lines[start : max(i, start + 1)])
        body = []
        i += 1
        while i < len(lines) and lines[i] != " " * indent + "}":
            body.append(lines[i])
            i += 1
        yield m.group(1), start, head, body


def comment_above(lines, i):
    text = []
    i -= 1
    while i >= 0 and (lines[i].strip().startswith("//") or lines[i].strip().startswith("#[")):
        text.append(lines[i].strip())
        i -= 1
    return " ".join(reversed(text))


def enums(lines):
    i = 0
    while i < len(lines):
        m = re.match(r"(?:pub )?enum (\w+)", lines[i])
        if m:
            variants, depth, j = [], 0, i + 1
            while lines[j] != "}":
                if depth == 0 and (v := re.match(r"    (\w+)(.*)", lines[j])):
                    variants.append((v.group(1), v.group(2).strip(" ,")))
                depth += lines[j].count("{") - lines[j].count("}")
                j += 1
            yield m.group(1), i, variants
            i = j
        i += 1


def point_1(root):
    """Enums of two cases of which one or both hold a value; structs with a flag or a refusal's number; functions whose comment
    gives a number in place of no answer; constants that number kinds."""
    for path, lines in sources(root):
        for name, i, variants in enums(lines):
            if len(variants) == 2 and any("(" in v for _, v in variants):
                yield path, i, f"enum {name}"
        inside = False
        for i, line in enumerate(lines):
            inside = (inside or re.match(r"(pub )?struct \w+.* \{$", line) is not None) and line != "}"
            if inside and re.match(r"    (pub )?number: (u32|usize),", line):
                yield path, i, "a refusal's number in a struct"
            if inside and re.match(r"    (pub )?\w+: bool,", line):
                yield path, i, "a flag in a struct"
        for name, i, head, body in functions(path, lines):
            said = comment_above(lines, i)
            if re.search(r"\b(0|no tag|their number|all of them|all its rows) (for|where) (none|no|a|it|its|the|they|all|one|malformed)", said) and "->" in head:
                if re.search(r"-> (usize|u32|u64|u8)\b", head):
                    yield path, i, f"fn {name}: a number for no answer"
        runs, last, first = 0, None, 0
        for i, line in enumerate(lines + ["end"]):
            m = re.match(r"(?:pub )?const ([A-Z_0-9]+): (?:u8|u32|usize|u64) = (\w+)(?: \+ (\d+))?;", line)
            if m and (m.group(2) == "0" or (runs and (m.group(2) == str(runs) or (m.group(2) == last and m.group(3) == "1")))):
                if m.group(2) == "0":
                    runs, first = 0, i
                runs, last = runs + 1, m.group(1)
            elif line.strip() and not line.startswith("//"):
                if runs >= 2:
                    yield path, first, f"{runs} constants that number kinds"
                runs = 0


def shape(body):
    """The words of a body with names, types and numbers taken away."""
    text = " ".join(l.split("//")[0] for l in body)
    names = {}
    words = []
    for w in re.findall(r"[A-Za-z_]\w*|\d[\w]*|\S", text):
        if w in ("let", "mut", "if", "else", "return", "while", "loop", "for", "in", "match", "break", "true", "false", "as"):
            words.append(w)
        elif re.match(r"[A-Za-z_]", w):
            words.append(names.setdefault(w, f"n{len(names)}"))
        elif w[0].isdigit():
            words.append("0")
        else:
            words.append(w)
    return " ".join(words)


def point_2(root):
    """Functions of at least four lines whose bodies are the same but for names, types and numbers: each but the first of its kind."""
    seen = {}
    for path, lines in sources(root):
        for name, i, head, body in functions(path, lines):
            if len([l for l in body if l.strip()]) < 4:
                continue
            s = shape(body)
            if s in seen:
                yield path, i, f"fn {name}, as {seen[s]}"
            else:
                seen[s] = f"{path.parts[-3]}::{name}"


def point_3(root):
    """Loops by `while` or `loop` in whose body a variable grows or falls by a fixed step."""
    for path, lines in sources(root):
        for name, i, head, body in functions(path, lines):
            for k, line in enumerate(body):
                if re.match(r"\s*('\w+: )?(while |loop \{)", line):
                    indent = len(line) - len(line.lstrip())
                    inner = []
                    for l in body[k + 1 :]:
                        if l == " " * indent + "}":
                            break
                        inner.append(l)
                    if any(re.match(r"\s*\w+(\.\w+)? [+-]= (\w+|[A-Z]+);", l) for l in inner):
                        yield path, i + head.count("\n") + 2 + k, f"fn {name}"


def point_4(root):
    """Functions that compare, order, copy or convert by hand, by name or by a match from constants to variants."""
    for path, lines in sources(root):
        for name, i, head, body in functions(path, lines):
            if re.match(r"(same|same_\w+|is_same|equal|less|at_most|copy\w*|number_of|\w+_number|to_\w+|from_\w+)$", name):
                yield path, i, f"fn {name}"
            else:
                arms = [l for l in body if re.match(r"\s*\w+::\w+(\(.*\))? => (\w+::)?[A-Z_]+(\(.*\))?,$", l)]
                if len(arms) >= 3:
                    yield path, i, f"fn {name}: a conversion by a match"


def parameters(head):
    text = head[head.index("(") + 1 :]
    depth, out, cur = 0, [], ""
    for c in text:
        if c in "(<[":
            depth += 1
        elif c in ")>]":
            if depth == 0:
                break
            depth -= 1
        if c == "," and depth == 0:
            out.append(cur.strip())
            cur = ""
        else:
            cur += c
    if cur.strip():
        out.append(cur.strip())
    return [" ".join(p.split()) for p in out]


def point_5(root):
    """Runs of two or more parameters of the same names and types in three or more functions of a crate (the longest such runs), and
    facts of `requires` in three or more functions of a crate."""
    for crate in sorted(root.glob("crates/*")):
        runs = collections.defaultdict(set)
        facts = collections.defaultdict(set)
        for path, lines in sources_of(crate):
            for name, i, head, body in functions(path, lines):
                ps = parameters(head)
                for a in range(len(ps)):
                    for b in range(a + 3, len(ps) + 1):
                        runs[tuple(ps[a:b])].add((path, i))
                for clause in re.findall(r"requires(?: \w+)? \{ (.*) \}", head):
                    for fact in clause.split(" × "):
                        fact = fact.strip("() ")
                        if not re.search(r"[<≤≡]", fact):
                            facts[re.sub(r"\.(old|now)", "", fact)].add((path, i))
        common = {r: f for r, f in runs.items() if len(f) >= 3}
        longest = {r for r in common if not any(r != s and set(r) <= set(s) and common[s] >= common[r] for s in common)}
        for r in sorted(longest, key=str):
            path, i = min(common[r])
            yield path, i, f"{len(common[r])} functions take {', '.join(r)}"
        for fact, where in sorted(facts.items()):
            if len(where) >= 3:
                path, i = min(where)
                yield path, i, f"{len(where)} functions require {fact}"


def sources_of(crate):
    for path in sorted(crate.glob("src/**/*.rt")):
        yield path, path.read_text().split("\n")


def point_6(root):
    """Functions that take a slice with its length or end beside it."""
    for path, lines in sources(root):
        for name, i, head, body in functions(path, lines):
            ps = parameters(head)
            for a, b in zip(ps, ps[1:]):
                if re.match(r"\w+: &(mut )?\[\w+\]$", a) and re.match(r"(top|len|end|at|length): usize$", b):
                    yield path, i, f"fn {name}: {a}, {b}"
                    break


def point_7(root):
    """A match or a chain of three tests on a number that is passed in, each arm of which only calls a function."""
    for path, lines in sources(root):
        for name, i, head, body in functions(path, lines):
            arms = [l for l in body if re.match(r"\s*[A-Z_0-9b'a-z| ]+ => \w+(::\w+)*\(.*\),$", l)]
            if len(arms) >= 3:
                yield path, i, f"fn {name}: {len(arms)} arms"


def point_8(root):
    """Answers in the proofs of functions."""
    for path in sorted(root.glob("crates/*/proofs/**/Answers.antt")):
        for i, line in enumerate(path.read_text().split("\n")):
            if re.match(r"pub \S+ : goal\.", line):
                yield path, i, line.split()[1]


POINTS = {n: globals()[f"point_{n}"] for n in range(1, 9)}

if __name__ == "__main__":
    args = argparse.ArgumentParser()
    args.add_argument("--list", action="store_true")
    args.add_argument("--root", default=pathlib.Path(__file__).resolve().parent.parent, type=pathlib.Path)
    args.add_argument("points", nargs="*", type=int)
    args = args.parse_args()
    for n in args.points or POINTS:
        found = list(POINTS[n](args.root))
        for path, i, what in found:
            if args.list:
                print(f"{path.relative_to(args.root)}:{i + 1}: {what}")
        print(f"point {n}: {len(found)}")

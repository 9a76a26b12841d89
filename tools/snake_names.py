#!/usr/bin/env python3
"""Brings the names of definitions and lemmas that crates/*/specs and crates/*/proofs declare to snake case, as today's Rattle spells them.

usage: tools/snake_names.py [--check] [FOLDER]        the repository's top, by default the folder above this script

Run once, after the kit's port.py. A name that begins with a small letter is turned whole (`hasRoom`, `has-room` become `has_room`); in a name that begins
with a capital only dashes turn. A name of the kit's own stays in each file that imports it from there. Where two names would fall together in a file, a
lemma gets `_law` after its name, a definition `_def`. Files of src/ turn in clauses and `ghost use` items alone. Proof files that walk the code
(Proof.antt) keep the names that they declare.
"""
import collections
import os
import re
import sys

QUIET = re.compile(r'"(?:[^"\\\n]|\\.)*"|(?<![^\s(){}.;,@"«»])--[^\n]*|\{-.*?-\}', re.S)
WORD = re.compile(r'[^\s(){}.;,@"«»]+')
BLOCK = re.compile(r"(?<![^\s(){};,])(?:where|do|let|mutual) +(?=\S)")
DECLARED = re.compile(r"(?m)^[ \t]*(?:(?:pub|abbrev|unfoldable|private|opaque|field|constructor) )*(?!(?:use|mod|module|record|data|where|elim|let|in) )(" + WORD.pattern + r")(?: \{[^{}\n]*\})* :(?![=:])")
USE = re.compile(r"\buse ([^\s;{]+)\.\{([^{}]*)\}")
GHOST_USE = re.compile(r"ghost\s+use\b[^;]*;", re.S)
CLAUSE = re.compile(r"(?:requires|ensures)\s*\*?\s*(?:\w+\s*)?\{|ghost\s*(?:\w+\s*(?::\s*)?)?\{")
RUST = re.compile(r"""//[^\n]*|/\*.*?\*/|b?"(?:\\.|[^"\\])*"|b?'(?:\\.|[^'\\])'|'?\w+|\s+|.""", re.S)
SPAN = re.compile(r"`[^`\n]*`")


def snake(name):
    if name[0].isupper() or not name[0].isalpha() and name[0] not in "μ":
        return name.replace("-", "_") if len(name) > 1 else name
    words = re.sub(r"(?<=[a-z0-9'₀-₉′])([A-Z])(?=[a-z0-9])", lambda m: "_" + m[0].lower(), name)
    words = re.sub(r"(?<=[a-z0-9'₀-₉′])([A-Z]+)", lambda m: "_" + m[0].lower(), words)
    return words.replace("-", "_")


def closing(text, at):
    depth = 0
    for m in re.compile(QUIET.pattern + r"|[{}]", re.S).finditer(text, at):
        depth += (m[0] == "{") - (m[0] == "}")
        if depth < 0:
            return m.start()
    return None


def rust_parts(text):
    """The parts of a source file: ('antt', text) for clauses and ghost uses, ('note', text) for comments, else ('rust', text)."""
    at = 0
    while at < len(text):
        m = RUST.match(text, at)
        word, end = m[0], m.end()
        clause = CLAUSE.match(text, at) if word in ("requires", "ensures", "ghost") else None
        use = GHOST_USE.match(text, at) if word == "ghost" else None
        if use:
            yield "antt", use[0]
            end = use.end()
        elif clause and closing(text, clause.end()):
            end = closing(text, clause.end())
            yield "rust", clause[0]
            yield "antt", text[clause.end() : end]
        else:
            yield ("note" if word[:2] in ("//", "/*") else "rust"), word
        at = end


def code_of(path, text):
    if path.endswith(".antt"):
        return QUIET.sub(" ", text)
    return " ".join(QUIET.sub(" ", t) for kind, t in rust_parts(text) if kind == "antt")


def between(pattern, text, inside, outside):
    out, at = [], 0
    for m in pattern.finditer(text):
        out += [outside(text[at : m.start()]), inside(m[0])]
        at = m.end()
    return "".join(out + [outside(text[at:])])


def realigned(old, new):
    """The new text, in which the later lines of a block stand under its first item again."""
    blank = lambda t: QUIET.sub(lambda m: re.sub(r"[^\n]", " ", m[0]), t).split("\n")
    was, now, lines = blank(old), blank(new), new.split("\n")
    by = [0] * len(lines)
    for row, (a, b) in enumerate(zip(was, now)):
        for x, y in zip(BLOCK.finditer(a), BLOCK.finditer(b)) if a != b else ():
            below = row + 1
            while x.end() != y.end() and below < len(was):
                if was[below].strip() and was[below][: x.end()].strip():
                    break
                by[below] += (y.end() - x.end()) * bool(was[below].strip())
                below += 1
    return "\n".join(" " * n + line if n >= 0 else line[-n:] for n, line in zip(by, lines))


class Names:
    def __init__(self, top):
        self.top = top
        self.crates = {c for c in os.listdir(os.path.join(top, "crates"))}
        self.texts, self.codes, self.words, self.theirs, self.params = {}, {}, {}, {}, {}
        self.declared = collections.defaultdict(set)
        for folder, folders, files in os.walk(os.path.join(top, "crates")):
            folders[:] = sorted(f for f in folders if f != "out")
            for f in sorted(files):
                if f.endswith((".antt", ".rt")):
                    self.read(os.path.join(folder, f), f)

    def read(self, path, name):
        with open(path, encoding="utf-8") as f:
            text = f.read()
        code = code_of(path, text)
        self.texts[path], self.codes[path] = text, code
        self.words[path] = set(WORD.findall(code))
        self.theirs[path] = set()
        for module, items in USE.findall(code):
            steps = module.split(".")
            if not (steps[0] == "Rattle" and len(steps) > 1 and steps[1] in self.crates):
                self.theirs[path].update(WORD.findall(items))
        if name.endswith(".rt"):
            # the name of a parameter hides a definition in the clauses of its function
            self.params[path] = set(re.findall(r"(?<!const )\b(\w+):(?!:)", text))
        elif name != "Proof.antt":
            for it in DECLARED.findall(code):
                self.declared[it].add(path)

    def table(self):
        olds = {it for it in self.declared if snake(it) != it and "◌" not in it and not it.startswith("Need-")}
        new = {it: snake(it) for it in olds}
        # a lemma that has the plain spelling of a definition already gives way, where both stand in a file
        for it in sorted(olds):
            plain = snake(it)
            if "-" in it or plain not in self.declared or any(os.sep + "specs" + os.sep in p for p in self.declared[plain]):
                continue
            if any(it in words and plain in words and plain not in self.theirs[path] for path, words in self.words.items()):
                olds.add(plain)
                new[plain] = plain
        in_files = collections.defaultdict(list)
        for path, words in self.words.items():
            for it in words & olds - self.theirs[path]:
                in_files[it].append(path)
        is_lemma = lambda it: "-" in it or snake(it) == it
        # definitions first: they keep the plain spelling where a lemma would meet them
        self.met = {}
        taken = collections.defaultdict(set)  # in each file, the spellings that are there
        for path, words in self.words.items():
            taken[path] = (words - (olds - self.theirs[path])) | self.params.get(path, set())
        for it in sorted(olds, key=lambda it: (is_lemma(it), it)):
            name, more = new[it], "_law" if is_lemma(it) else "_def"
            n = 1
            while any(name in taken[path] for path in in_files[it]):
                name = new[it] + more + (str(n) if n > 1 else "")
                n += 1
            if name != new[it]:
                self.met[it] = name
                new[it] = name
            for path in in_files[it]:
                taken[path].add(name)
        return new

    def turn(self, table):
        changed = {}
        for path, text in self.texts.items():
            mine = {it: table[it] for it in self.words[path] & set(table) if it not in self.theirs[path]}
            if not mine:
                continue
            word = lambda m: mine.get(m[0], m[0])
            code = lambda t: WORD.sub(word, t)
            note = lambda t: SPAN.sub(lambda s: re.sub(r"[^\s`(){}.;,@\"«»]+", word, s[0]), t)
            antt = lambda t: between(QUIET, t, lambda q: q if q[0] == '"' else note(q), code)
            if path.endswith(".antt"):
                now = realigned(text, antt(text))
            else:
                now = "".join(antt(t) if kind == "antt" else note(t) if kind == "note" else t for kind, t in rust_parts(text))
            if now != text:
                changed[path] = now
        return changed


def main(args):
    check = "--check" in args
    args = [a for a in args if a != "--check"]
    top = args[0] if args else os.path.dirname(os.path.dirname(os.path.realpath(__file__)))
    names = Names(top)
    table = names.table()
    changed = names.turn(table)
    print(f"{len(table)} names, {len(changed)} files")
    for it, name in sorted(names.met.items()):
        print(f"met: {it} -> {name}")
    if "--table" in args[1:]:
        with open(args[-1], "w", encoding="utf-8") as f:
            f.writelines(f"{a}\t{b}\n" for a, b in sorted(table.items()))
    if not check:
        for path, text in changed.items():
            with open(path, "w", encoding="utf-8") as f:
                f.write(text)


if __name__ == "__main__":
    main(sys.argv[1:])

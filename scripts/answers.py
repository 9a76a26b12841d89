#!/usr/bin/env python3
"""Runs the program on the known sheets and pairs: python3 scripts/answers.py [PATTERN] [--wrong]

Each known sheet (scripts/sheets.py) that the program sends to the entry that it is known for goes to target/bin/openrules (`scripts/build.sh program`
makes it; OPENRULES names another), and what it prints must be the known text to the byte; where the known call was lent too short a buffer, the program, which
lends a longer one, must print an answer of the length that was needed. Each known pair goes to `openrules finish` in the same way. With PATTERN only the
sheets and pairs whose name it is found in. With --wrong every known text is replaced by a wrong one: every one must then fail.
"""
import os
import re
import subprocess
import sys
import tempfile

from sheets import HERE, PAIRS, WORDS, Sheet, known, printed, whole

PROGRAM = os.environ.get("OPENRULES", os.path.join(HERE, "target", "bin", "openrules"))


def entry_of(sheet):
    return "complete" if sheet.split(b"\n")[0] == b"sheet=complete" else "partial"


def texts():
    """Sheet or pair and text, or the text's length, of those that are lent long enough slices; a sheet far over the limit of size is the program's own."""
    for one, result in [*known(), *known(PAIRS)]:
        if min(one.first, one.second) >= WORDS:
            yield one, printed(result) if whole(one, result) else result.length
    yield Sheet("100,000 bytes", "partial", b"x" * 100000, WORDS, WORDS, 0), b"refused=2,0,0\n"


def run(one):
    """The program on a sheet, or on the two of a pair."""
    if isinstance(one, Sheet):
        return subprocess.run([PROGRAM], input=one.bytes, capture_output=True)
    with tempfile.NamedTemporaryFile() as file:
        file.write(one.partial)
        file.flush()
        return subprocess.run([PROGRAM, "finish", file.name], input=one.complete, capture_output=True)


def main(args):
    words = [a for a in args if not a.startswith("--")]
    if len(words) > 1:
        print(__doc__)
        return 2
    if not os.path.exists(PROGRAM):
        print("%s is not there: run `scripts/build.sh program`" % PROGRAM)
        return 2
    tried = failed = other = 0
    for one, want in texts():
        if words and not re.search(words[0], one.name):
            continue
        if isinstance(one, Sheet) and entry_of(one.bytes) != one.entry:
            other += 1
            continue
        want = b"refused=3,77,0\n" if "--wrong" in args else want
        ran = run(one)
        tried += 1
        got = len(ran.stdout) if isinstance(want, int) else ran.stdout
        if ran.returncode != 0 or got != want or ran.stderr:
            failed += 1
            print("%s: status %d, printed %r, wanted %r" % (one.name, ran.returncode, ran.stdout[:200], want if isinstance(want, int) else want[:200]))
    print("%d sheets and pairs, %d differ; %d are about the other entry" % (tried, failed, other))
    return 1 if failed or not tried else 0


if __name__ == "__main__":
    sys.exit(main(sys.argv[1:]))

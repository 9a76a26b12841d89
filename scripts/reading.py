#!/usr/bin/env python3
"""Compares the program, and the host, with a reading of the documents on random sheets.

    python3 scripts/reading.py REFERENCE SHEETS SEED.. [--have REQUESTS] [--host HOST] [--program]

REFERENCE is a folder with `refsheet.py` and `gen02.py`, a reading of documents 01 and 02 apart from the proved code and from the host; with --have it is
asked with these requests alone. For each seed so many sheets of `gen02.py` are made, and with --host as many of the host's own (`host random`). With
--program what target/bin/openrules prints (`scripts/build.sh program` makes it; OPENRULES names another), with --host what the host says, must be what the
reading gives, to the byte. The host does not ask the original for the answers of sheets with groups of kinds: there it must accept what the reading
accepts, and the program is compared with the reading alone. A sheet that the program sends to the other entry is left out for it. Nothing outside
target/ is written.
"""
import os
import shutil
import subprocess
import sys

from answers import PROGRAM, entry_of
from known import option
from sheets import ENTRIES, HERE, NOT_ASKED

FOLDER = os.path.join(HERE, "target", "reading")


def asked(command, sheet):
    return subprocess.run(command, input=sheet, capture_output=True, check=True).stdout


def of_reading(gen02, count, seed, host):
    """Name, entry and sheet, with what the host says of it."""
    for number in range(count):
        entry, sheet = gen02.input_of(seed, number)
        if entry in ENTRIES:
            yield "seed %d, sheet %d of the reading" % (seed, number), entry, sheet, asked([host, "answer", entry], sheet) if host else None


def of_host(count, seed, host):
    """The same of the host's own sheets and triples."""
    shutil.rmtree(FOLDER, ignore_errors=True)
    subprocess.run([host, "random", str(count), str(seed), FOLDER], check=True, stdout=subprocess.DEVNULL)
    for file in sorted(os.listdir(FOLDER)):
        if file.endswith(".sheet"):
            name = os.path.join(FOLDER, file[:-len(".sheet")])
            yield file, file.split(".")[-2], open(name + ".sheet", "rb").read(), open(name + ".host", "rb").read()


def main(args):
    host, have, program = option(args, "--host"), option(args, "--have"), "--program" in args
    words = [a for a in args if not a.startswith("--")]
    if len(words) < 3 or not os.path.exists(os.path.join(words[0], "gen02.py")) or not (host or program):
        print(__doc__)
        return 2
    sys.path.insert(0, words[0])
    sys.dont_write_bytecode = True
    import gen02
    import refsheet
    refsheet.set_have(have.split(",") if have else [])
    tried = grouped = faults = 0
    for seed in [int(word) for word in words[2:]]:
        count = int(words[1])
        for name, entry, sheet, said in list(of_reading(gen02, count, seed, host)) + (list(of_host(count, seed, host)) if host else []):
            number, line, length, answer = refsheet.run_entry(entry, sheet)
            want = answer.encode() if number == 0 else b"refused=%d,%d,%d\n" % (number, line, length)
            not_asked = said == NOT_ASKED and number == 0
            texts = [] if said is None or not_asked else [("host", said)]
            if program and entry_of(sheet) == entry:
                texts.append(("program", asked([PROGRAM], sheet)))
            tried += 1
            grouped += not_asked
            for who, text in texts:
                if text != want:
                    faults += 1
                    print("%s, %s: the %s says %r, the reading %r" % (name, entry, who, text[:200], want[:200]))
    print("%d sheets, %d differ; of %d, accepted with groups, the original was not asked" % (tried, faults, grouped))
    return 1 if faults or not tried else 0


if __name__ == "__main__":
    sys.exit(main(sys.argv[1:]))

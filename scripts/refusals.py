#!/usr/bin/env python3
"""Runs the loader on the known sheets (scripts/sheets.py): python3 scripts/refusals.py

A small program over crate `load` is written to a folder `openrules-refusals` of temporary files and run by `rt try` on all of them; its number and line
must be those of the refusal, or 0 and 0 where the sheet is accepted. Nothing in the repository is written: `rt ci` refuses files of Rattle that it does
not prove.
"""
import os
import shutil
import subprocess
import sys
import tempfile
import time

from sheets import HERE, known, whole

TREE = os.path.join(tempfile.gettempdir(), "openrules-refusals")
MAIN = """// Reads sheets, each after its mode, its length in five digits and a line end; prints the number and line of each.
#![tactic(auto)]

use streams::read_full;

fn length(head: &[u8; 7]) -> usize {
    let mut n: usize = 0;
    let mut i = 1;
    while i < 6 {
        n = n * 10 + (head[i] as usize) - 48;
        i += 1;
    }
    n
}

fn show(rt: &impl Print, number: u64, line: u64) {
    let _ = rt.print(number);
    let _ = rt.write_all(b",");
    let _ = rt.print(line);
    let _ = rt.write_all(b"\\n");
}

fn one(rt: &(impl Input + Print), head: &[u8; 7]) {
    let mut buffer = [0u8; 65536];
    let n = length(head);
    read_full(&mut rt.reader(), &mut buffer[..n]);
    if n > 16384 {
        show(rt, 2, 0);
        return;
    }
    let mut a: [u32; 16384] = [7; 16384];
    let mut b: [u32; 16384] = [7; 16384];
    match load::load(&buffer[..n], head[0] == 112, &mut a, &mut b) {
        Ok(()) => show(rt, 0, 0),
        Err(refusal) => show(rt, u32::from(refusal.fault) as u64, refusal.line as u64),
    }
}

fn main(rt: HostRuntime) {
    let mut turns: u32 = 0;
    while turns < 100000 {
        turns += 1;
        let mut head: [u8; 7] = [0; 7];
        if read_full(&mut rt.reader(), &mut head) < 7 {
            return;
        }
        one(&rt, &head);
    }
}
"""


def main(args):
    if args:
        print(__doc__)
        return 2
    shutil.rmtree(TREE, ignore_errors=True)
    shutil.copytree(os.path.join(HERE, "crates"), os.path.join(TREE, "crates"), ignore=shutil.ignore_patterns("out"))
    program = os.path.join(TREE, "crates", "reading_cases")
    os.makedirs(os.path.join(program, "src"))
    with open(os.path.join(program, "src", "main.rt"), "w") as f:
        f.write(MAIN)
    with open(os.path.join(HERE, "crates.txt"), encoding="utf-8") as f:
        lines = f.read()
    below = [line.split(":")[1] for line in lines.splitlines() if line.startswith("load:")][0]
    with open(os.path.join(TREE, "crates.txt"), "w", encoding="utf-8") as f:
        f.write(lines + "reading_cases: streams load%s\n" % below)
    chosen = [(sheet, result) for sheet, result in known() if whole(sheet, result)]
    data = b"".join(b"%s%05d\n%s" % (s.entry[:1].encode(), len(s.bytes), s.bytes) for s, _ in chosen)
    want = [b"%d,%d" % r[:2] for _, r in chosen]
    begin = time.time()
    r = subprocess.run(["rt", "try"], input=data, capture_output=True, cwd=program)
    got = r.stdout.split(b"\n")[:-1]
    wrong = [s.name for (s, _), w, g in zip(chosen, want, got) if w != g]
    if r.returncode or len(got) != len(want):
        print(r.stderr.decode()[-3000:])
    print("%d sheets, %d told, %d of them otherwise%s, %.1f s" % (len(chosen), len(got), len(wrong), "".join("; " + name for name in wrong[:9]), time.time() - begin))
    return 0 if got == want and not r.returncode else 1


sys.exit(main(sys.argv[1:]))

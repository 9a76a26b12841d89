#!/usr/bin/env python3
"""Computes the definitions of crates `cedar` and `sheet` on the known sheets (scripts/sheets.py).

    python3 scripts/cases.py [PATTERN] [--each] [--wrong]

For each sheet, or each whose name PATTERN is found in, one theorem by computation is written to a folder `openrules-cases` of temporary files: what the definitions make of the
sheet's bytes is the known text. One check computes all short sheets with short answers, and one each other sheet; with --each,
one check each sheet. Four sheets are over the prover's own limit of steps: they have no verdict, which says neither that they agree nor
that they do not. Sheets with over 60 entity lines of known parents are left out and counted: the definition finds what each of them reaches before every later line. With --wrong every known text is replaced by a wrong one: each check must then fail. Nothing in the repository is written: `rt ci` refuses files of Rattle that it does not prove.
"""
import os
import re
import shutil
import subprocess
import sys
import tempfile
import time

from sheets import HERE, known, printed

TREE = os.path.join(tempfile.gettempdir(), "openrules-cases")
UNFOLD = (
    "printed_of keys forms form_of slot_at counted tag_of row_of key_of refs ascendings nodes_under fits_in typed found depth fault "
    "more read types value_rows contents schema trees exprs on_term n_policies policies n_env env run results answer returned "
    "ancestors unknown_above order same_v place insert ascending make_set"
)
# sheets of 1,024 and 1,025 values, given or made, and a path with 32 ways at each of its 2,000 steps, all of which the definition follows: the prover does not
# compute them within its limit; any other sheet without verdict is a failure
UNDECIDED = ("value-1024", "value-1025", "2.9 many-made-2.9", "2,000 steps in a group of 32 kinds")
HEAD = """use Rattle.std.specs.Prelude.{◌≡◌, refl, List, [], ◌∷◌, ◌++◌, ℕ, zero, suc}
use Prim.Native.String.{String}
use Rattle.cedar.specs.Canonical.{order, same as same_v, place, insert, ascending, make_set}
use Rattle.sheet.specs.Ascii.{ascii}
use Rattle.sheet.specs.Forms.{Mode, partial, complete, keys, forms, form_of, slot_at, counted, tag_of, row_of, key_of, refs, ascendings}
use Rattle.sheet.specs.Typing.{nodes_under, fits_in, typed}
use Rattle.sheet.specs.Parents.{ancestors, unknown_above}
use Rattle.sheet.specs.Sheet.{found, depth, fault, more, read}
use Rattle.sheet.specs.Content.{types, value_rows, contents, schema, trees, exprs, on_term, n_policies, policies, n_env, env}
use Rattle.sheet.specs.Answer.{run, results, answer, printed, numbers}
use Rattle.sheet.specs.Call.{Returned, returned}

-- what the program prints
abbrev shown : List ℕ → ℕ → Returned → List ℕ
shown a zero r = a
shown a (suc n) r = printed "refused" (numbers (r.number ∷ r.line ∷ r.length ∷ []))

abbrev shown_of : List ℕ → Returned → List ℕ
shown_of a r = shown a r.number r

unfoldable printed_of : Mode → ℕ → ℕ → ℕ → List ℕ → List ℕ
printed_of m work₁ work₂ out sheet = shown_of (answer m (read m sheet).state) (returned m work₁ work₂ out sheet)
"""


def quoted(text):
    out = []
    for c in text:
        if c == "\n":
            out.append("\\n")
        elif c in '"\\':
            out.append("\\" + c)
        elif " " <= c <= "~":
            out.append(c)
        else:
            out.append("\\u{%x}" % ord(c))
    return '"' + "".join(out) + '"'


def theorem(i, case):
    sheet, want = case
    return "-- %s\ncase%d : printed_of %s %d %d %d (ascii %s) ≡ ascii %s\nunfolding %s\ncase%d = refl\n" % (
        sheet.name, i, sheet.entry, sheet.first, sheet.second, sheet.buffer, quoted(sheet.bytes.decode("latin-1")), quoted(want.decode()), UNFOLD, i)


def parents(sheet):
    """How many entity lines have known parents."""
    return sum(line.startswith(b"entity=") and not line.endswith(b"?") for line in sheet.bytes.split(b"\n"))


def check(chosen, limit):
    """What the check of the cases ended with, 0 proved, 1 refused, 3 could not tell, and what it said."""
    shutil.rmtree(os.path.join(TREE, "crates", "known_cases"), ignore_errors=True)
    for crate in ("cedar", "sheet"):
        for part in ("specs", "src"):
            to = os.path.join(TREE, "crates", crate, part)
            shutil.rmtree(to, ignore_errors=True)
            shutil.copytree(os.path.join(HERE, "crates", crate, part), to)
    crate = os.path.join(TREE, "crates", "known_cases")
    os.makedirs(os.path.join(crate, "specs"))
    os.makedirs(os.path.join(crate, "src"))
    with open(os.path.join(TREE, "crates.txt"), "w") as f:
        f.write("cedar:\nsheet: cedar\nknown_cases: cedar sheet\n")
    with open(os.path.join(crate, "src", "lib.rt"), "w") as f:
        f.write("// No code.\n#![tactic(auto)]\n")
    with open(os.path.join(crate, "specs", "Lib.antt"), "w") as f:
        f.write("pub mod Cases\n")
    with open(os.path.join(crate, "specs", "Cases.antt"), "w") as f:
        f.write(HEAD + "\n" + "\n".join(theorem(i, c) for i, c in chosen))
    try:
        r = subprocess.run(["rt", "check"], capture_output=True, text=True, timeout=limit, cwd=crate)
        said = r.stdout + r.stderr
        m = re.search(r"rt: known_cases NOT PROVED \(exit (\d+)", said)
        return int(m.group(1)) if m else r.returncode, said
    except subprocess.TimeoutExpired:
        return 1, "TIMEOUT"


def main(args):
    words = [a for a in args if not a.startswith("--")]
    if len(words) > 1:
        print(__doc__)
        return 2
    wrong = "--wrong" in args
    chosen, long, short, left = [], [], [], 0
    for i, (s, r) in enumerate(known()):
        if words and not re.search(words[0], s.name):
            continue
        if parents(s) > 60:
            left += 1
        else:
            chosen.append((i, (s, b"refused=3,77,0\n" if wrong else printed(r))))
            if "--each" in args or max(len(s.bytes), r.length) > 4000:
                long.append(chosen[-1:])
            else:
                short.append(chosen[-1])
    begin = time.time()
    failed = unknown = 0
    for group in ([short] if short else []) + long:
        t = time.time()
        status, out = check(group, 1500)
        ok = status == 0
        what = "ok" if ok else "NOT"
        if not ok and len(group) == 1 and group[0][1][0].name in UNDECIDED and status == 3:
            what = "no verdict: over the prover's limit of steps"
            unknown += 1
        elif not ok:
            failed += 1
            for line in out.splitlines():
                if "error" in line or "TIMEOUT" in line or "NOT PROVED" in line:
                    print("   ", line[:300])
        print("%-30s %s, %.1f s" % (group[0][1][0].name if len(group) == 1 else "%d short sheets" % len(group), what, time.time() - t), flush=True)
    print("%d sheets, %d checks failed, %d without verdict, %.1f s; %d left out" % (len(chosen), failed, unknown, time.time() - begin, left))
    return 1 if failed else 0


if __name__ == "__main__":
    sys.exit(main(sys.argv[1:]))

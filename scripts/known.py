#!/usr/bin/env python3
"""Writes the known sheets and what program `known` must print for them, and the known pairs and what `pairs` must print.

    python3 scripts/known.py REFERENCE [FOLDER] [--host HOST] [--have REQUESTS] [--check]

REFERENCE is a folder with `cases.py` and `refsheet.py`, a reading of document 01 apart from the proved code. Written are, to
crates/known/stdin, the sheets of `cases.py`, those of examples/, some with slices and buffers of other lengths, and the probes:
each NAME.MODE.sheet of FOLDER, and those that are there already. To crates/known/stdout goes what that reading makes of them, with every
promise kept, and beside each sheet of examples/ its answer.

With --host each answer must also be that of the original: HOST is the program that `cargo build --release` makes in host/. Of an accepted sheet with
groups of kinds the original is not asked; there the host must accept it, and the expected text, where there is one, must be the reading's. With --have,
a list as 2.3,2.5,2.9,2.4,2.7,2.6,2.2,2.8,2.1 of the requests of document 02 that have landed, the reading is asked with these; the cases of its `cases02.py` that hold
then are added, from 2.1 on those of `finish`, to crates/pairs/stdin and stdout, with the pairs of examples/, beside whose complete sheets goes what `finish` prints, from 2.9 on each sheet of `cases.py` and each probe gets a `day` line, from 2.4 on there are sheets whose answers are long, from 2.7 on
sheets with larger groups and some random ones with groups, of its `gen02.py`, and from 2.6 on sheets with long rows and circles of parents and some random
ones that parents matter to. Where an expected text, the reading and the original differ, nothing is written. With --check nothing is written either: the files must be what would be written.
"""
import os
import subprocess
import sys

from sheets import CRATE, ENTRIES, HERE, NOT_ASKED, PAIRS, WORDS, Pair, Result, Sheet, printed, record, sheets, shown, whole

BUFFER, LARGE = 4096, 65536
# of random sheets the seed, and how many of each sort are taken: with groups, by entry, and those that parents matter to, by entry and whether they are refused
GROUPS = 27, {"partial": 40, "complete": 10}
PARENTS = 26, {("partial", False): 14, ("complete", False): 3, ("partial", True): 6, ("complete", True): 2}
# requests that bring a call of their own; random sheets are made as they are without these
CALLS = ["2.1", "2.10", "2.11", "2.12", "2.13", "2.14"]
PROBE = "probe: "
DAY = b"day=2026-06-15\n"


def bytes_of(text):
    """In the reference's sheets `/` is a line end."""
    return text.replace("/", "\n").encode("latin-1")


def examples():
    """The sheets of examples/, each with the entry that its first line names."""
    for file in sorted(os.listdir(os.path.join(HERE, "examples"))):
        if file.endswith(".sheet"):
            sheet = open(os.path.join(HERE, "examples", file), "rb").read()
            yield file, "complete" if sheet.startswith(b"sheet=complete\n") else "partial", sheet


def example_pairs():
    """The complete sheets of examples/, each with the partial sheet whose name its own begins with."""
    partial = {name[:-len("sheet") - 1]: sheet for name, entry, sheet in examples() if entry == "partial"}
    for name, entry, sheet in examples():
        if entry == "complete":
            shown = max((one for one in partial if name.startswith(one + "-")), key=len)
            yield Pair(name, partial[shown], sheet, WORDS, WORDS, BUFFER)


def with_day(sheet, landed):
    """A sheet of document 01 with the line that every sheet has since request 2.9, after `context`."""
    start = sheet.find(b"\ncontext=")
    end = sheet.find(b"\n", start + 1) + 1
    if "2.9" not in landed or b"\nday=" in sheet or start < 0 or end == 0:
        return sheet
    return sheet[:end] + DAY + sheet[end:]


def titled(name, entry):
    return name if entry == "partial" else name + " " + entry


def probes(folder, landed):
    """The sheets of the folder, and the probes that are there already."""
    found = {}
    for file in sorted(os.listdir(folder)) if folder else []:
        name, _, entry = file[:-len(".sheet")].rpartition(".")
        if file.endswith(".sheet") and entry in ENTRIES:
            sheet = open(os.path.join(folder, file), "rb").read()
            found[PROBE + titled(name, entry)] = Sheet(PROBE + titled(name, entry), entry, sheet, WORDS, WORDS, BUFFER)
    for sheet in sheets():
        if sheet.name.startswith(PROBE):
            found.setdefault(sheet.name, sheet)
    return [s._replace(bytes=with_day(s.bytes, landed)) for _, s in sorted(found.items())]


def lent(cases, answer_length, landed):
    """The limits of size, and other slices and buffers."""
    def padded(size):
        return with_day(bytes_of(cases.padded(size - (len(DAY) if "2.9" in landed else 0))), landed)
    example = with_day(bytes_of(cases.EXAMPLE), landed)
    complete = with_day(bytes_of([t for n, m, t, _ in cases.CASES if (n, m) == ("K7", "complete")][0]), landed)
    need = answer_length(example)
    yield Sheet("16,384 bytes", "partial", padded(16384), WORDS, WORDS, BUFFER)
    yield Sheet("16,385 bytes", "partial", padded(16385), WORDS + 7, WORDS, BUFFER)
    yield Sheet("no sheet", "partial", b"", WORDS, WORDS, BUFFER)
    yield Sheet("first slice short", "partial", example, WORDS - 1, WORDS + 16, BUFFER)
    yield Sheet("second slice short", "complete", example, WORDS + 16, WORDS - 1, BUFFER)
    yield Sheet("no slices", "partial", example, 0, 0, 0)
    yield Sheet("buffer as long as the answer", "partial", example, WORDS + 1, WORDS + 2, need)
    yield Sheet("buffer a byte short", "partial", example, WORDS + 1, WORDS + 2, need - 1)
    yield Sheet("no buffer", "partial", example, WORDS, WORDS, 0)
    yield Sheet("refused before the buffer", "partial", example[:-1], WORDS, WORDS, 0)
    yield Sheet("complete, no buffer", "complete", complete, WORDS, WORDS, 0)


def shared(cases02, landed):
    """64 policies over one root of 16 nodes, each with its link, 1,024 uses; and answers far longer than their sheets."""
    def sheet(nodes, root, links, **more):
        policies = "".join("policy=%d,permit,%d/" % (10 + n, root) for n in range(64))
        return bytes_of(cases02.world(nodes, policies, links, texts=cases02.MANY_IDS, **more))
    if "2.4" not in landed:
        return
    nots = cases02.SLOT + "".join("node=0,not,%d/" % n for n in range(2, 15))
    links = "".join("link=%d,%d,-/" % (n, 5 + n % 2) for n in range(64))
    yield Sheet("1,024 uses", "partial", sheet(nots, 15, links, values=cases02.PEOPLE), WORDS, WORDS, LARGE)
    request = "principal=0,?/action=1,3/resource=2,4/context=9,?/"
    for stars in (460, 1500):
        like = "node=9,var,c/node=6,get,0,7/node=0,like,1" + ",*" * stars + "/"
        yield Sheet("a pattern of %d items for 64 policies" % stars, "partial", sheet(like, 2, "", types="type=record,7,r,6/", request=request), WORDS, WORDS, LARGE)


def numbered(key, items, sheet):
    """The numbers of the lines of a key whose items hold."""
    lines = [line[len(key) + 1:].split(b",") for line in sheet.split(b"\n") if line.startswith(key + b"=")]
    return [n for n, line in enumerate(lines) if items(line)]


def between_groups():
    """Rules between groups of two and three of the kinds A to E, decided by the types and open."""
    head = ("sheet=partial/text=A/text=B/text=C/text=D/text=E/text=Action/text=x/" + "".join("text=p%d/" % n for n in range(14))
            + "".join("kind=%d,%s/" % (n, "eeeeea"[n]) for n in range(6)) + "type=bool/type=record/" + "".join("type=entity,%d/" % n for n in range(6))
            + "type=string/type=record,6,r,0/type=entity,0,1/type=entity,2,3/type=entity,1,2,4/type=entity,2,4/type=entity,0,5/type=set,11/"
            + "shape=1,-,4/shape=1,-,0/shape=9,8/shape=1,-,3/shape=1,-/shape=1,-/" + "".join("value=entity,%d,6/" % n for n in range(6))
            + "value=set,2/value=set/value=text,6/principal=0,?/action=5,6/resource=1,?/context=1,?/day=2026-06-15/")
    nodes, policies = [], []

    def node(*items):
        nodes.append("node=%s/" % ",".join(str(item) for item in items))
        return len(nodes) - 1

    def either(ty, *values):
        """One of two values, open, which cannot err."""
        test = node(0, "eq", node(2, "var", "p"), node(2, "lit", 0))
        return node(ty, "if", test, *[node(ty, "lit", value) for value in values])

    def rule(root):
        policies.append("policy=%d,%s,%d/" % (7 + len(policies), "permit" if len(policies) % 2 else "forbid", root))

    group = {10: (0, 1), 11: (2, 3), 12: (1, 4), 13: (2, 4), 14: (0, 5), 15: (6, 7)}
    for word, left, right in [("eq", 10, 11), ("eq", 10, 12), ("eq", 12, 13), ("in", 10, 11), ("in", 10, 13), ("in", 10, 12), ("in", 11, 10), ("in", 10, 15)]:
        rule(node(0, word, either(left, *group[left]), either(right, *group[right])))
    for kind in (3, 4):
        rule(node(0, "is", either(12, *group[12]), kind))
    for ty in (10, 11, 14):
        rule(node(0, "has", either(ty, *group[ty]), 6))
    rule(node(0, "hastag", either(10, *group[10]), node(8, "lit", 8)))
    return head + "".join(nodes + policies)


def many_steps(count):
    """A path of so many steps through the group of 32 kinds, all but the action's declaring the step as that group."""
    return ("sheet=partial/" + "".join("text=k%d/" % n for n in range(32)) + "".join("kind=%d,%s/" % (n, "ea"[n == 1]) for n in range(32)) + "type=bool/type=record/"
            + "".join("type=entity,%d/" % n for n in range(32)) + "type=entity" + "".join(",%d" % n for n in range(32)) + "/type=record,0,o,34/"
            + "".join("shape=%d,-/" % (1 if n == 1 else 35) for n in range(32)) + "value=entity,0,0/principal=0,?/action=1,0/resource=2,?/context=1,?/day=2026-06-15/"
            + "node=34,lit,0/node=0,haspath,0" + ",0" * count + "/policy=0,permit,1/")


def grouped(gen02, landed):
    """Larger groups, and random sheets with policies on term, some of whose nodes have the type of a group."""
    if "2.7" not in landed:
        return
    yield Sheet("rules between groups", "partial", bytes_of(between_groups()), WORDS, WORDS, BUFFER)
    yield Sheet("2,000 steps in a group of 32 kinds", "partial", bytes_of(many_steps(2000)), WORDS, WORDS, LARGE)

    def sort(entry, sheet):
        groups = numbered(b"type", lambda items: items[0] == b"entity" and len(items) > 2, sheet)
        taken = "policy=" in gen02.refsheet.run_entry(entry, sheet)[3] and numbered(b"node", lambda items: int(items[0]) in groups, sheet)
        return entry if taken else None
    yield from of_random(gen02, GROUPS, sort, "with groups")


def of_random(gen02, chosen, sort, what):
    """The first random sheets of a seed, so many of each sort."""
    seed, left = chosen[0], dict(chosen[1])
    for number in range(10000):
        if not any(left.values()):
            break
        entry, sheet = gen02.input_of(seed, number)
        one = sort(entry, sheet) if entry in ENTRIES else None
        if left.get(one):
            left[one] -= 1
            yield Sheet("random sheet %d %s" % (number, what), entry, sheet, WORDS, WORDS, LARGE)


def related(entry, parents, asked, kinds="", above=("0", "", "0")):
    """Entities of kinds 0 and 2, as the letters `o` and `r` say, the first of them listed with these parents, None for `?`; for each pair asked a rule that the first
    is in the second. Above each kind are those of `above`."""
    count = max([len(parents)] + [1 + n for line in parents + list(asked) for n in line or []])
    kind = [2 if letter == "r" else 0 for letter in kinds.ljust(count, "o")]
    sets = sorted(set(tuple(line) for line in parents if line is not None))
    known = entry == "complete"
    lines = ["sheet=" + entry] + ["text=" + text for text in ["Office", "Action", "Region", "quote"] + ["e%d" % n for n in range(count)]]
    lines += ["kind=0,e", "kind=1,a", "kind=2,e", "type=bool", "type=record", "type=entity,0", "type=entity,2"]
    lines += ["shape=1,-" + (kinds and "," + kinds) for kinds in above]
    lines += ["value=entity,%d,%d" % (kind[n], 4 + n) for n in range(count)] + ["value=record"] + ["value=set" + "".join(",%d" % n for n in one) for one in sets]
    lines += ["entity=%d,%d,%d,%s" % (n, count, count, "?" if line is None else count + 1 + sets.index(tuple(line))) for n, line in enumerate(parents)]
    lines += ["principal=0,%s" % ("4" if known else "?"), "action=1,3", "resource=0,4", "context=1,%s" % (count if known else "?"), "day=2026-06-15"]
    for place, pair in enumerate(asked):
        lines += ["node=%d,lit,%d" % (2 if kind[n] == 0 else 3, n) for n in pair] + ["node=0,in,%d,%d" % (3 * place, 3 * place + 1)]
    lines += ["policy=%d,permit,%d" % (4 + place, 3 * place + 2) for place in range(len(asked))]
    return "".join(line + "\n" for line in lines).encode()


def reaching(gen02, landed):
    """Rows and circles of as many entities as can be listed, kinds reached at their end, and random sheets whose answer is another where parents are taken for
    ancestors."""
    def sheet(name, entry, *rest, **more):
        return Sheet(name, entry, related(entry, *rest, **more), WORDS, WORDS, BUFFER)

    def sort(entry, sheet):
        found = gen02.refsheet.run_entry(entry, sheet)
        gen02.refsheet.set_have([request for request in landed if request != "2.6"])
        other = gen02.refsheet.run_entry(entry, sheet)
        gen02.refsheet.set_have(landed)
        return (entry, found[0] != 0) if found != other else None
    if "2.6" not in landed:
        return
    row = [[n + 1] for n in range(127)]
    asked = [(0, 1), (0, 127), (127, 0), (64, 63), (63, 64), (5, 5), (0, 128)]
    yield sheet("a row of 128 entities", "partial", row + [[]], asked)
    yield sheet("a row of 128 entities, the last unknown", "partial", row + [None], asked)
    yield sheet("a row of 127 entities to an unlisted one", "partial", row, asked)
    yield sheet("a circle of 128 entities", "partial", row + [[0]], asked)
    yield sheet("a circle of 128 entities, complete", "complete", row + [[0]], asked)
    yield sheet("a row of 127 entities to an unlisted one, complete", "complete", row, asked)
    everyone = list(range(300))
    yield sheet("128 entities with one set of 300 parents", "partial", [everyone] * 128, asked)
    yield sheet("128 entities with one set of 300 parents, complete", "complete", [everyone] * 128, asked + [(0, 299), (299, 0)])
    yield sheet("128 entities that are all each other's parents", "partial", [everyone[:128]] * 128, asked)
    yield sheet("a region at the end of 127 offices", "partial", row + [[]], [(0, 127), (126, 127), (127, 0)], kinds="o" * 127 + "r", above=("0,2", "", ""))
    # an office may be in a region and a region in an office, but no office in an office
    through = dict(kinds="o" + "r" * 126 + "o", above=("2", "", "0,2"))
    yield sheet("an office reached from another through 126 regions", "partial", row + [[]], [(0, 1)], **through)
    yield sheet("an office not reached, as the region before it is unknown", "partial", row[:126] + [None, []], [(0, 1), (126, 127)], **through)
    yield sheet("an office reached from the second line on", "partial", [[]] + row[1:] + [[]], [(0, 1)], kinds="oo" + "r" * 125 + "o", above=("2", "", "0,2"))
    yield from of_random(gen02, PARENTS, sort, "with parents")


def of_requests(cases02, landed, kinds):
    """Sheets, or pairs for `finish`, with expected texts: the cases of document 02 that hold when these requests have landed and no more."""
    for name, since, until, kind, parts, expected, out_len, work in cases02.CASES if landed else []:
        if since not in landed or until in landed or kind not in kinds:
            continue
        want = cases02.expected_text(expected, kind, parts, "2.2" in landed).encode()
        buffer = out_len if out_len is not None else BUFFER if len(want) <= BUFFER else LARGE
        lent, parts = (work[0], work[1], buffer), [bytes_of(part) for part in parts]
        if kind == "finish":
            yield Pair("%s %s" % (since, name), *parts, *lent), want
        else:
            yield Sheet("%s %s" % (since, titled(name, kind)), kind, *parts, *lent), want


def chosen_pairs(cases02, landed):
    """Pairs, each with the expected text or none."""
    if "2.1" in landed:
        yield from of_requests(cases02, landed, ["finish"])
        for pair in example_pairs():
            yield pair, None


def chosen(cases, cases02, gen02, folder, answer_length, landed):
    """Sheets, each with the expected text or none."""
    for name, entry, text, expected in cases.CASES:
        sheet = Sheet(titled(name, entry), entry, with_day(bytes_of(text), landed), WORDS, WORDS + 16, BUFFER)
        yield sheet, None if landed else cases.expected_text(expected).encode()
    for name, entry, sheet in examples():
        yield Sheet(name, entry, sheet, WORDS, WORDS, BUFFER), None
    for sheet in lent(cases, answer_length, landed):
        yield sheet, None
    for sheet in probes(folder, landed):
        yield sheet, None
    for sheet in shared(cases02, landed):
        yield sheet, None
    without_calls = [request for request in landed if request not in CALLS]
    gen02.refsheet.set_have(without_calls)
    for sheet in grouped(gen02, without_calls):
        yield sheet, None
    for sheet in reaching(gen02, without_calls):
        yield sheet, None
    gen02.refsheet.set_have(landed)
    yield from of_requests(cases02, landed, ENTRIES)


def original(sheet, result, host):
    """What the original makes of a sheet, where it is asked; else what the host says of it, or none. Of a pair that agrees it is asked for the complete sheet."""
    pair = isinstance(sheet, Pair)
    if not host or not whole(sheet, result) or pair and result.number != 0:
        return None
    if pair:
        sheet = Sheet(sheet.name, "complete", sheet.complete, *sheet[3:])
    return subprocess.run([host, "answer", sheet.entry], input=sheet.bytes, capture_output=True, check=True).stdout


def differs(sheet, result, want, said):
    """Whether the result is not the expected one, or not the original's; where that is not asked, the sheet must be accepted."""
    texts = [text for text in (want, said) if text is not None and not (text == NOT_ASKED and result.number == 0)]
    for text in texts:
        if text != printed(result):
            print("%s: %r is wanted, the reading gives %r" % (sheet.name, text[:200], printed(result)[:200]))
    return any(text != printed(result) for text in texts)


def option(args, name):
    """The word after a name, both taken out of the arguments."""
    if name not in args:
        return None
    place = args.index(name)
    _, value = args[place:place + 2]
    del args[place:place + 2]
    return value


def settle(made, check):
    """Writes the files, or counts those that are not what would be written."""
    faults = 0
    for path, data in made:
        if not check:
            with open(path, "wb") as f:
                f.write(data)
        elif not os.path.exists(path) or open(path, "rb").read() != data:
            print("%s is not what would be written" % os.path.relpath(path, HERE))
            faults += 1
    return faults


def main(args):
    host, have = option(args, "--host"), option(args, "--have")
    words = [a for a in args if not a.startswith("--")]
    if len(words) not in (1, 2) or not os.path.exists(os.path.join(words[0], "cases.py")):
        print(__doc__)
        return 2
    sys.path.insert(0, words[0])
    sys.dont_write_bytecode = True
    import cases
    import cases02
    import gen02
    import refsheet
    landed = have.split(",") if have else []
    refsheet.set_have(landed)

    def result_of(one):
        if isinstance(one, Pair):
            return Result(*refsheet.finish(one.partial, one.complete, one.first, one.second, one.buffer))
        found = refsheet.run_entry(one.entry, one.bytes, one.buffer, min(one.first, one.second))
        return Result(*found[:3], found[3].encode())

    def answer_length(sheet):
        return refsheet.run_entry("partial", sheet)[2]
    folder = words[1] if len(words) == 2 else None
    lists = [(CRATE, ".answer", list(chosen(cases, cases02, gen02, folder, answer_length, landed))), (PAIRS, ".finished", list(chosen_pairs(cases02, landed)))]
    faults, asked, made = 0, [], []
    for crate, suffix, inputs in lists:
        found = [(one, result_of(one), want) for one, want in inputs]
        said = [original(one, result, host) for one, result, _ in found]
        faults += sum(differs(*one, text) for one, text in zip(found, said))
        asked += said
        if found:
            made += [(os.path.join(crate, "stdin"), b"%d\n" % len(found) + b"".join(record(s) for s, _, _ in found)),
                     (os.path.join(crate, "stdout"), b"".join(shown(s, r) for s, r, _ in found))]
        made += [(os.path.join(HERE, "examples", s.name[:-6] + suffix), printed(r)) for s, r, _ in found if s.name.endswith(".sheet")]
    faults = faults or settle(made, "--check" in args)
    sheets_pairs = tuple(len(inputs) for _, _, inputs in lists)
    print("%d known sheets, %d pairs, %d faults; %d of them accepted with groups, where the original is not asked" % (sheets_pairs + (faults, asked.count(NOT_ASKED))))
    return 1 if faults else 0


if __name__ == "__main__":
    sys.exit(main(sys.argv[1:]))

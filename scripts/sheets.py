"""The known sheets and pairs of sheets, as the repository holds them: stdin and stdout of crates/known and crates/pairs. scripts/known.py writes these files."""
import os
import re
from collections import namedtuple

HERE = os.path.dirname(os.path.dirname(os.path.abspath(__file__)))
CRATE = os.path.join(HERE, "crates", "known")
PAIRS = os.path.join(HERE, "crates", "pairs")
WORDS = 16384
ENTRIES = ["partial", "complete"]
# what the host says of an accepted sheet with groups of kinds, in the place of the original's answer
NOT_ASKED = b"accepted with groups: the original is not asked\n"
# a sheet with its entry and what is lent: words of each work slice, bytes of the answer buffer
Sheet = namedtuple("Sheet", "name entry bytes first second buffer")
# a partial and a complete sheet for `finish`, and what is lent
Pair = namedtuple("Pair", "name partial complete first second buffer")
# what a call with it returns and writes
Result = namedtuple("Result", "number line length answer")


def printed(result):
    """What the program prints."""
    return result.answer if result.number == 0 else b"refused=%d,%d,%d\n" % result[:3]


def record(one):
    """A sheet or a pair as it stands on standard input."""
    if isinstance(one, Pair):
        numbers, data = (len(one.partial), len(one.complete)), one.partial + one.complete
    else:
        numbers, data = (ENTRIES.index(one.entry), len(one.bytes)), one.bytes
    lent = (one.first, one.second, one.buffer)
    return b"%d,%d,%d,%d,%d,%d\n" % ((len(one.name),) + numbers + lent) + one.name.encode() + data


def shown(sheet, result):
    """What program `known` prints for a call that keeps every promise, and `pairs` for a pair."""
    said = "%s: %d,%d,%d; first slice kept, second slice kept, buffer kept\n" % ((sheet.name,) + result[:3])
    return said.encode() + result.answer


def records(crate):
    """The name of each record of a crate's stdin, the other numbers of its line, and the bytes after its name."""
    count, _, data = open(os.path.join(crate, "stdin"), "rb").read().partition(b"\n")
    for _ in range(int(count)):
        line, _, data = data.partition(b"\n")
        named, *numbers = [int(n) for n in line.split(b",")]
        size = numbers[1] + (numbers[0] if crate == PAIRS else 0)
        yield data[:named].decode(), numbers, data[named:named + size]
        data = data[named + size:]


def sheets():
    """The sheets of crates/known/stdin."""
    for name, (entry, _, *lent), data in records(CRATE):
        yield Sheet(name, ENTRIES[entry], data, *lent)


def pairs():
    """The pairs of crates/pairs/stdin."""
    for name, (shown, _, *lent), data in records(PAIRS):
        yield Pair(name, data[:shown], data[shown:], *lent)


def known(crate=CRATE):
    """Each sheet, or of the other crate each pair, with the result that its stdout holds for it."""
    data = open(os.path.join(crate, "stdout"), "rb").read()
    for sheet in pairs() if crate == PAIRS else sheets():
        m = re.match(rb": (\d+),(\d+),(\d+);[^\n]*\n", data[len(sheet.name):])
        number, line, length = [int(n) for n in m.groups()]
        data = data[len(sheet.name) + m.end():]
        written = length if number == 0 else 0
        yield sheet, Result(number, line, length, data[:written])
        data = data[written:]


def whole(sheet, result):
    """Whether the call was lent enough, so that its result is that of the sheet alone."""
    return min(sheet.first, sheet.second) >= WORDS and result.number != 10

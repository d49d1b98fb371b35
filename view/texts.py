"""Reads a trace and after it its run, the two texts of docs/FORMATS.md."""

import re
from collections import namedtuple

from expected import first_fault

Trace = namedtuple("Trace", "version region partitions threads plain lines")
Op = namedtuple("Op", "thread name fields")
Record = namedtuple("Record", "line thread answer fields given")
RootEntry = namedtuple("RootEntry", "line act size_class pool slots len")
PoolEntry = namedtuple("PoolEntry", "line partition act count first")
CellEntry = namedtuple("CellEntry", "line gave found")
Run = namedtuple("Run", "records journals pool cells report")

PHASE = Op(None, "phase", ())
NUMBER = "(?:0|[1-9][0-9]*)"
SLOT = rf"[0-9a-f]{{8}}\.{NUMBER}"
WORD = "[0-9a-f]{16}"
HELD = f"(?:-|(?:own|ref):{SLOT})"

HEAD = re.compile(f"trace ([123]) region ({NUMBER}) partitions ({NUMBER}) threads ({NUMBER})(?: plain ({NUMBER}))?")
MOST_SUPER_PAGES = {1: 16, 2: 64, 3: 64}
OPS = {
    name: re.compile(f"({NUMBER}) {name}{fields}")
    for name, fields in {
        "A": f" r({NUMBER}) p({NUMBER}) ({NUMBER})",
        "C": f" r({NUMBER}) r({NUMBER})",
        "R": f" r({NUMBER})",
        "F": f" r({NUMBER})",
        "W": f" r({NUMBER}) ({WORD})",
        "D": f" r({NUMBER}) ({NUMBER})",
        "X": f" c({NUMBER}) r({NUMBER})",
        "P": "",
    }.items()
}
WITH_SLOT = {
    "made": re.compile(f"({SLOT}) ({NUMBER}) ({WORD})"),
    "done": re.compile(f"({SLOT}) ({WORD})"),
    "word": re.compile(f"({SLOT}) ({WORD}) ({WORD})"),
    "dangling": re.compile(f"({SLOT}) ({WORD}) ({WORD})"),
    "not-owner": re.compile(f"({SLOT}) ({WORD})"),
    "shared": re.compile(f"({SLOT}) ({WORD})"),
}
MAYBE_SLOT = ("second-free", "stale-use")
ALONE = ("stale-reset", "nothing", "filled", "not-ref", "out-of-range", "too-large", "uncounted")
WITH_NUMBER = ("full", "swapped", "purged")
RECORD = re.compile(f"e ({NUMBER}) ({NUMBER}) ([a-z-]+)(?: (.+))?")
ROOT = re.compile(f"r ([0-3]) ({NUMBER}) ({NUMBER}) (fill|map|full|give|unmap|purge)(?: (.+))?")
SLOTS = rf"{SLOT}@{NUMBER}(?: {SLOT}@{NUMBER}){{0,15}}"
ACTS = {
    "fill": re.compile(f"({NUMBER}) ({NUMBER}|-) ({SLOTS})"),
    "map": re.compile(f"({NUMBER}) ({SLOT}@0) ({NUMBER})"),
    "full": re.compile(f"({NUMBER}|direct) ({NUMBER})"),
    "give": re.compile(f"({SLOTS})"),
    "unmap": re.compile(f"({NUMBER}) ({SLOT}@{NUMBER})"),
}
POOL = re.compile(f"p ({NUMBER}) ({NUMBER}) ({NUMBER}) (?:(take) ({NUMBER}) ({NUMBER}|none)|(give) ({NUMBER}) ({NUMBER}))")
CELL = re.compile(f"c ({NUMBER}) ({NUMBER}) ({NUMBER}) ({HELD}) ({HELD})")
TALLY = f"({NUMBER}) ({NUMBER})"
REPORT = re.compile(
    f"s ({NUMBER}) ({NUMBER}) live {TALLY} quarantined {TALLY} cached {TALLY} root {TALLY} committed ({NUMBER})"
    f" reserved ({NUMBER}) full ({NUMBER}) active ({NUMBER}) empty ({NUMBER}) decommitted ({NUMBER})"
)


class NoRun(Exception):
    """The text is no trace with its run: the line of the whole text at which that shows, and why."""

    def __init__(self, line, why):
        super().__init__(f"line {line}: {why}" if line else why)
        self.line, self.why = line, why


def read(text):
    """The trace, the run, and the line of the text at which the run begins. If the program refuses the text too, the reason has the
    first faulty line, the column in it, and what is wrong there."""
    try:
        return read_both(text)
    except NoRun as refused:
        fault = first_fault(text.encode("ascii", errors="replace")) if text else None
        if fault is None:
            raise
        raise NoRun(refused.line, f"{refused.why} ({fault.answer} {fault.line}, column {fault.column}: {fault.wrong})") from None


def read_both(text):
    if not text:
        raise NoRun(0, "there is no text: a trace belongs here, and behind it its run")
    lines = text.split("\n")
    if lines.pop():
        raise NoRun(len(lines) + 1, "the last line has no line feed")
    if "run 1" not in lines:
        raise NoRun(len(lines) + 1, "there is no run: the line `run 1` is missing")
    start = lines.index("run 1")
    return read_trace(lines[:start]), read_run(lines, start), start


def read_trace(lines):
    head = HEAD.fullmatch(lines[0]) if lines else None
    if head is None or (head[1] == "3") != (head[5] is not None):
        raise NoRun(1, "the head of a trace belongs here: `trace V region N partitions P threads T`, in version 3 with ` plain Q`")
    version, region, partitions, threads, plain = map(int, head.groups(default=0))
    if not (1 <= region <= MOST_SUPER_PAGES[version] and 1 <= partitions <= 4 and 1 <= threads <= 16 and plain <= partitions):
        raise NoRun(1, "a number of the head passes its limit")
    ops = [None, *(read_op(line, n, partitions, threads) for n, line in enumerate(lines[1:], 2))]
    return Trace(version, region, partitions, threads, plain, ops)


def read_op(line, n, partitions, threads):
    if line == "phase":
        return PHASE
    space = line.find(" ") + 1
    name = line[space : space + 1]
    found = OPS[name].fullmatch(line) if name in OPS else None
    if found is None:
        raise NoRun(n, "this is no line of a trace")
    thread, *fields = found.groups()
    fields = [int(field) for field in fields[:1]] + (fields[1:] if name == "W" else [int(field) for field in fields[1:]])
    handles = fields if name in "CX" else fields[:1]
    if int(thread) >= threads or (handles and max(handles) > 63) or (name == "A" and fields[1] >= partitions):
        raise NoRun(n, "a number passes its limit")
    return Op(int(thread), name, fields)


def read_run(lines, start):
    run = Run({}, [[], [], [], []], [], [[] for _ in range(64)], [])
    readers = {"e": read_record, "r": read_root, "p": read_pool, "c": read_cell, "s": read_report}
    kinds = "erpcs"
    reached = 0
    if len(lines) == start + 1 or lines[-1] != "end":
        raise NoRun(len(lines) + 1, "the run isn't whole: its last line is `end`")
    for n in range(start + 1, len(lines) - 1):
        line = lines[n]
        kind = kinds.find(line[:1]) if line[1:2] == " " else -1
        if kind < reached:
            raise NoRun(n + 1, "this is no line of a run, or it stands out of order")
        reached = kind
        if not readers[line[0]](run, line):
            raise NoRun(n + 1, "this is no line of a run, or it stands out of order")
    return run


def read_record(run, line):
    found = RECORD.fullmatch(line)
    if found is None:
        return False
    at, thread, answer, rest = found.groups()
    fields = answer_fields(answer, rest)
    if fields is None or int(at) in run.records:
        return False
    run.records[int(at)] = Record(int(at), int(thread), answer, fields, given_by(answer, rest))
    return True


def answer_fields(answer, rest):
    """The fields of an answer, where these belong to it: slot and found word first, where it has them."""
    if rest is None:
        return () if answer in ALONE or answer in MAYBE_SLOT else None
    if answer in WITH_NUMBER:
        return (int(rest),) if re.fullmatch(NUMBER, rest) else None
    shape = WITH_SLOT["done"] if answer in MAYBE_SLOT else WITH_SLOT.get(answer)
    found = shape.fullmatch(rest) if shape else None
    return (found[1], int(found[3 if answer == "made" else 2], 16)) if found else None


def given_by(answer, rest):
    """What an answer gives besides: the usable bytes of `made`, the value of a read."""
    if answer == "made":
        return int(rest.split()[1])
    return int(rest.split()[2], 16) if answer in ("word", "dangling") else None


def numbered(text):
    """Slots with their numbers."""
    return [(slot, int(number)) for slot, number in (part.split("@") for part in text.split())]


def read_root(run, line):
    found = ROOT.fullmatch(line)
    if found is None:
        return False
    partition, j, at, act, rest = found.groups()
    if int(j) != len(run.journals[int(partition)]) or any(run.journals[int(partition) + 1 :]):
        return False
    entry = root_entry(int(at), act, rest)
    if entry is not None:
        run.journals[int(partition)].append(entry)
    return entry is not None


def root_entry(line, act, rest):
    if act == "purge":
        return RootEntry(line, act, None, None, [], None) if rest is None else None
    found = ACTS[act].fullmatch(rest or "")
    if found is None:
        return None
    if act == "fill":
        size_class, pool, slots = found.groups()
        if int(size_class) > 169:
            return None
        return RootEntry(line, act, int(size_class), None if pool == "-" else int(pool), numbered(slots), None)
    if act == "map":
        pool, slot, length = found.groups()
        return RootEntry(line, act, None, int(pool), numbered(slot), int(length))
    if act == "full":
        size_class, pool = found.groups()
        return RootEntry(line, act, None if size_class == "direct" else int(size_class), int(pool), [], None)
    if act == "give":
        return RootEntry(line, act, None, None, numbered(found[1]), None)
    return RootEntry(line, act, None, int(found[1]), numbered(found[2]), None)


def read_pool(run, line):
    found = POOL.fullmatch(line)
    if found is None:
        return False
    j, at, partition, act, count, first = (field for field in found.groups() if field is not None)
    if int(j) != len(run.pool):
        return False
    run.pool.append(PoolEntry(int(at), int(partition), act, int(count), None if first == "none" else int(first)))
    return True


def read_cell(run, line):
    found = CELL.fullmatch(line)
    if found is None or int(found[1]) > 63:
        return False
    cell = run.cells[int(found[1])]
    if int(found[2]) != len(cell) or any(run.cells[int(found[1]) + 1 :]):
        return False
    cell.append(CellEntry(int(found[3]), found[4], found[5]))
    return True


def read_report(run, line):
    found = REPORT.fullmatch(line)
    if found is not None:
        run.report.append(tuple(map(int, found.groups())))
    return found is not None

"""Reads the log of a program's allocations: heaptrack's raw text, valgrind's, glibc's mtrace's, ltrace's, that of `record.c`, one
text for all others, which README.md describes, or a trace. What comes out is what the program did, in the log's order."""

import gzip
import os
import re
import shutil
import struct
import subprocess
from collections import Counter

from heap import ALLOCATE, FREE, GREATEST, RESIZE, RULES
from texts import HEAD, PHASE, NoRun, read_op

MAGIC = b"record 1"
RECORD = struct.Struct("<IIQQQ")
KINDS = NOTHING, ALLOCATED, FREED, BEFORE, AFTER = range(5)


class BadLog(Exception):
    """It isn't a log that can be read: one line says why."""


class Program:
    """What a program did: its events in order, each an act, a thread, an object, and the bytes that were asked for. Threads are
    counted in the order of their first calls, objects in that of their allocations. A resize keeps its slot, by the classes of a
    version; any other realloc is an allocation and a free, which `moves` names."""

    def __init__(self, version=None):
        self.version, self.rules = version, RULES[version or 1]
        self.events, self.sizes, self.threads, self.live, self.moves = [], [], {}, {}, set()
        self.unknown = self.unseen = self.kept = self.aligned = self.too_large = 0
        self.asked = self.most_asked = self.peak = 0

    def note(self, act, thread, made, size, more):
        self.events.append((act, self.threads.setdefault(thread, len(self.threads)), made, size))
        self.asked += more
        if self.asked > self.most_asked:
            self.most_asked, self.peak = self.asked, len(self.events) - 1

    def allocate(self, thread, address, size, alignment=0):
        if address in self.live:
            raise BadLog(f"address {address:x} is live and is allocated again: the log's order isn't the program's")
        self.aligned += alignment > 16
        self.live[address] = self.made(thread, size)

    def made(self, thread, size):
        """A new object, or none if it passes what a direct map may have."""
        if size > GREATEST:
            self.too_large += 1
            return None
        self.sizes.append(size)
        self.note(ALLOCATE, thread, len(self.sizes) - 1, size, size)
        return len(self.sizes) - 1

    def free(self, thread, address):
        if address and address not in self.live:
            self.unknown += 1
        elif address:
            self.end(thread, self.live.pop(address))

    def end(self, thread, old):
        if old is not None:
            self.note(FREE, thread, old, self.sizes[old], -self.sizes[old])

    def resize(self, thread, address, now, size):
        """A realloc, as one call."""
        self.resized(thread, self.leave(address), now, size)

    def leave(self, address):
        """The object of an address that a realloc may move: the address and what it was, or none."""
        if address and address not in self.live:
            self.unknown += 1
        return (address, self.live.pop(address)) if address in self.live else None

    def resized(self, thread, left, now, size):
        """A realloc came back. Where it failed the old address stays."""
        address, old = left or (0, None)
        if not now and size and left:
            self.live[address] = old
        elif not now:
            self.end(thread, old)
        elif old is not None and size <= GREATEST and self.rules.slot_size(size) == self.rules.slot_size(self.sizes[old]):
            self.kept += 1
            self.note(RESIZE, thread, old, size, size - self.sizes[old])
            self.sizes[old], self.live[now] = size, old
        else:
            self.allocate(thread, now, size)
            if old is not None and self.live[now] is not None:
                self.moves.add(len(self.events))
            self.end(thread, old)

    def lost(self):
        """What of the log isn't told by the events."""
        told = f"reallocs kept in their slot {self.kept}, as a new slot {len(self.moves)}; frees of unknown addresses {self.unknown}"
        more = (("frees that weren't seen", self.unseen), ("aligned above 16", self.aligned), ("too large", self.too_large))
        return told + "".join(f"; {name} {count}" for name, count in more if count)


def unpacked(data):
    """The bytes of a log that zstd or gzip packed."""
    if data.startswith(b"\x28\xb5\x2f\xfd"):
        if not shutil.which("zstd"):
            raise BadLog("the log is packed by zstd, which isn't installed")
        done = subprocess.run(["zstd", "-dcq"], input=data, capture_output=True)
        if done.returncode:
            raise BadLog("cut: zstd can't unpack it whole")
        return done.stdout
    try:
        return gzip.decompress(data) if data.startswith(b"\x1f\x8b") else data
    except (EOFError, OSError) as error:
        raise BadLog("cut: gzip can't unpack it whole") from error


def read(path, version=None):
    """What the program did by the log in this file, with slots of this version, or else of the one that a trace's head names, or of
    version 1."""
    program = Program(version)
    with open(path, "rb") as file:
        head = file.read(RECORD.size)
        if head.startswith(MAGIC):
            read_records(program, head, file)
        else:
            read_text(program, unpacked(head + file.read()))
    if not program.events:
        raise BadLog("no events: was malloc called?")
    return program


def read_text(program, data):
    reader, lines = reader_of(data)
    for n, line in enumerate(lines, 1):
        try:
            right = reader.line(program, line)
        except BadLog as why:
            raise BadLog(f"line {n}: {why}") from None
        except (IndexError, ValueError):
            right = False
        if not right:
            raise BadLog(f"line {n}: this is no line of {reader.name}")


def read_records(program, head, file):
    """The log of `record.c`: a head with the number of records, and the records, of 32 bytes each. The file is sparse and longer."""
    count = int.from_bytes(head[8:16], "little")
    there = max(os.fstat(file.fileno()).st_size // RECORD.size - 1, 0)
    if there < count or len(head) < RECORD.size:
        raise BadLog(f"cut: {there} records of {count}")
    left = {}
    for n, record in enumerate(RECORD.iter_unpack(file.read(count * RECORD.size)), 1):
        try:
            one_record(program, left, *record)
        except BadLog as why:
            raise BadLog(f"record {n}: {why}") from None


def one_record(program, left, kind, thread, address, size, alignment):
    if kind == ALLOCATED:
        program.allocate(thread, address, size, alignment)
    elif kind == FREED:
        program.free(thread, address)
    elif kind == BEFORE:
        left[thread] = program.leave(address)
    elif kind == AFTER:
        program.resized(thread, left.pop(thread, None), address, size)
    elif kind != NOTHING:
        raise BadLog("this is no record")


class Text:
    """The text for all others: `log 1`, and then a line a call."""

    name = "such a log"
    CALL = re.compile(r"a ([0-9]+) ([0-9a-f]+) ([0-9]+)|f ([0-9]+) ([0-9a-f]+)|r ([0-9]+) ([0-9a-f]+) ([0-9a-f]+) ([0-9]+)")

    def line(self, program, line):
        found = self.CALL.fullmatch(line)
        if found is None:
            return line == "log 1"
        a, at, size, f, freed, r, old, new, resized = found.groups()
        if a:
            program.allocate(int(a), int(at, 16), int(size))
        elif f:
            program.free(int(f), int(freed, 16))
        else:
            program.resize(int(r), int(old, 16), int(new, 16), int(resized))
        return True


class Heaptrack:
    """heaptrack's raw text. It merges the threads; a realloc stands there as a free and an allocation."""

    name = "heaptrack's text, made with --raw"
    CALL = re.compile(r"\+ ([0-9a-f]+) [0-9a-f]+ ([0-9a-f]+)|- ([0-9a-f]+)")

    def line(self, program, line):
        if line[:1] not in ("+", "-"):
            return re.match("[A-Za-z#]( |$)", line) is not None
        found = self.CALL.fullmatch(line)
        if found and found[1]:
            program.allocate(0, int(found[2], 16), int(found[1], 16))
        elif found:
            program.free(0, int(found[3], 16))
        return found is not None


class Mtrace:
    """glibc's mtrace. It merges the threads, and a realloc has two lines."""

    name = "mtrace's text"
    CALL = re.compile(r"@ .* ([+<>!-]) 0x([0-9a-f]+)(?: (?:0x)?([0-9a-f]+))?")

    def __init__(self):
        self.left = None

    def line(self, program, line):
        found = self.CALL.fullmatch(line)
        if found is None:
            return line in ("= Start", "= End")
        mark, address, size = found[1], int(found[2], 16), int(found[3] or "0", 16)
        if mark == "+":
            program.allocate(0, address, size)
        elif mark == "-":
            program.free(0, address)
        elif mark == "<":
            self.left = program.leave(address)
        elif mark == ">":
            program.resized(0, self.left, address, size)
        return True


class Calls:
    """What valgrind's and ltrace's lines have: a call by its name, its arguments and what came back."""

    def call(self, program, thread, name, arguments, result):
        words = re.findall(r"0[xX][0-9a-fA-F]+|[0-9]+|nil", arguments)
        numbers = [0 if word == "nil" else int(word, 0) for word in words]
        result = int(result or "0", 0)
        if name == "free" or name.startswith("_Zd"):
            program.free(thread, numbers[0])
        elif name == "realloc" and numbers[0]:
            program.resize(thread, numbers[0], result, numbers[1])
        elif result and name in ("memalign", "aligned_alloc"):
            self.allocate(program, thread, result, numbers[1], numbers[0])
        elif result and name in ("calloc", "realloc"):
            self.allocate(program, thread, result, numbers[1] * (numbers[0] if name == "calloc" else 1))
        elif result and (name == "malloc" or name.startswith("_Zn")):
            self.allocate(program, thread, result, numbers[0])

    def allocate(self, program, thread, address, size, alignment=0):
        program.allocate(thread, address, size, alignment)


class Valgrind(Calls):
    """valgrind's, by --trace-malloc=yes. Where a realloc is a malloc or a free, both stand on its line. Of processes the first counts."""

    name = "valgrind's text"
    CALL = re.compile(r"--([0-9]+)-- .*?([A-Za-z_]\w*)\(([^()]*)\)(?: = (0x[0-9A-F]+))?")

    def __init__(self):
        self.process = None

    def line(self, program, line):
        found = self.CALL.fullmatch(line)
        if found and found[2] != "malloc_usable_size":
            self.process = self.process or found[1]
            if found[1] == self.process:
                self.call(program, 0, *found.groups()[1:])
        return found is not None or re.match(r"(==|--|\*\*)[0-9]+\1", line) is not None


class Ltrace(Calls):
    """ltrace's, by -f. A call may come in two halves. Calls of libc itself aren't told, so an address may come again that is live by
    the log: then a free wasn't seen."""

    name = "ltrace's text"
    CALL = re.compile(
        r"(?:(?:\[pid )?([0-9]+)\]? )?(?:(?:\S+->)?(\w+)\(([^()]*)|<\.\.\. (\w+) resumed> )(?:\) += (.*)| <unfinished \.\.\.>)"
    )

    def __init__(self):
        self.half = {}

    def line(self, program, line):
        found = self.CALL.fullmatch(line)
        if found is None:
            return re.search(r"(\+\+\+|---) .* (\+\+\+|---)$", line) is not None
        thread, name, arguments, resumed, result = found.groups()
        name, arguments = self.half.pop(thread, (resumed, "")) if resumed else (name, arguments)
        if resumed != name and resumed:
            return False
        if result is None:
            self.half[thread] = name, arguments
            if name != "free":
                return True
        if not (resumed and name == "free"):
            self.call(program, thread, name, arguments, result if result and result.startswith("0x") else "0")
        return True

    def allocate(self, program, thread, address, size, alignment=0):
        if address in program.live:
            program.unseen += 1
            program.end(thread, program.live.pop(address))
        program.allocate(thread, address, size, alignment)


class Trace:
    """A trace of one partition, without purges. An object stays while a raw_ptr points to it."""

    name = "a trace of one partition without purges"

    def __init__(self):
        self.lines, self.threads = 0, None
        self.registers, self.cells, self.pointers = {}, {}, Counter()

    def line(self, program, line):
        self.lines += 1
        if self.threads is None:
            version, _, partitions, self.threads = map(int, HEAD.fullmatch(line).groups()[:4])
            program.rules = RULES[program.version or min(version, 2)]
            return partitions == 1
        try:
            op = read_op(line, self.lines, 1, self.threads)
        except NoRun:
            return False
        if op is not PHASE and op.name in "ACRFX":
            getattr(self, op.name)(program, op.thread, *op.fields)
        return op is PHASE or op.name != "P"

    def A(self, program, thread, register, _, size):
        made = None if self.registers.get((thread, register)) else program.made(thread, size)
        if made is not None:
            self.registers[thread, register] = "own", made
            self.pointers[made] = 1

    def C(self, _, thread, register, other):
        held = self.registers.get((thread, register))
        if held and not self.registers.get((thread, other)):
            self.registers[thread, other] = "ref", held[1]
            self.pointers[held[1]] += 1

    def R(self, program, thread, register):
        self.drop(program, thread, register, "ref")

    def F(self, program, thread, register):
        self.drop(program, thread, register, "own")

    def drop(self, program, thread, register, kind):
        """A pointer of this kind leaves its register. With the last one the object goes."""
        held = self.registers.get((thread, register))
        if held and held[0] == kind:
            self.registers[thread, register] = None
            self.pointers[held[1]] -= 1
            if not self.pointers[held[1]]:
                program.end(thread, held[1])

    def X(self, _, thread, cell, register):
        found = self.cells.get(cell)
        self.cells[cell], self.registers[thread, register] = self.registers.get((thread, register)), found


def reader_of(data):
    """The reader of a text log, and its lines."""
    try:
        text = data.decode("ascii")
    except UnicodeDecodeError as error:
        text = data[: error.start].decode("ascii")
        if reader_of_line(text) is None:
            raise BadLog("no log that I know") from error
        raise BadLog(f"line {text.count(chr(10)) + 1}: there is a byte that isn't ASCII") from error
    reader = reader_of_line(text)
    if reader is None:
        raise BadLog("no log that I know")
    lines = text.split("\n")
    if lines.pop():
        raise BadLog(f"cut: line {len(lines) + 1} has no line feed")
    return reader, lines


def reader_of_line(text):
    """The reader for the first line of a text, if there is one."""
    first = text[: text.find("\n") + 1].rstrip("\n")
    return next((reader() for reader, head in HEADS if re.fullmatch(head, first)), None)


# Each kind of text, by its first line.
HEADS = (
    (Text, "log 1"),
    (Trace, HEAD),
    (Heaptrack, "v [0-9a-f]+ [0-9a-f]+"),
    (Mtrace, "= Start"),
    (Valgrind, r"(==|--)[0-9]+\1 .*"),
    (Ltrace, Ltrace.CALL),
)

"""The heap at every line of a run, computed from its records and journals. `Heap` follows them in the order of `order.py`
and keeps what changed at which moment; a moment is one line of the trace. Where an entry isn't the one that the rules give,
the text is no run."""

from order import RECORD, has_slot, in_order, is_step
from placement import NONE, SUPER_PAGE, Pool, Root, Wrong
from texts import PHASE, NoRun

PLACES = ROOT, LIVE, QUARANTINED, CACHED, GONE, HELD = range(6)
EMPTY, OWN, REF, FREED, CLEARED = range(5)
TELLS = {"made": "A", "done": "CRFW", "word": "D", "dangling": "D", "second-free": "F", "not-owner": "FW", "stale-use": "W", "shared": "W"}
FINDS = {"word": 1, "dangling": 0, "second-free": 0, "not-owner": 1, "stale-use": 0}
MAKES = {"fill": "A", "map": "A", "full": "A", "give": "RFP", "unmap": "RF", "purge": "P"}
STEPS = {"A": 1, "C": 2, "R": -2, "F": -1, "W": 0}
ONE = 1 << 24
BIT = 1
COUNTED = {LIVE: 0, QUARANTINED: 2, CACHED: 4, ROOT: 6}
COMMITTED, RESERVED = 8, 9


def is_enabled(op, word):
    """Whether the step of this op is enabled at the word."""
    bit, refs = word & BIT, (word % ONE) >> 1
    return {"A": not bit and not refs, "C": bit or refs, "R": refs > 0, "F": bit, "W": bit and not refs}[op]


class Slot:
    """A slot that left its root at least once, or a direct map."""

    def __init__(self, index, name, partition, length, span, number):
        self.index, self.name, self.partition, self.len = index, name, partition, length
        self.span, self.number = span, number
        self.word, self.place, self.who = 0, ROOT, 0


class Heap:
    """What stands at the moment reached, and lists of all changes with their moments."""

    def __init__(self, trace, run):
        self.trace, self.run = trace, run
        self.slots, self.named, self.spans = [], {}, []
        self.roots = [Root(self.spans) for _ in range(4)]
        self.pool, self.pool_done = Pool(trace.region), 0
        self.supers = [(-1, 0)] * trace.region
        self.registers, self.cells = {}, {}
        self.span_seen, self.record_seen, self.sums = [], {}, [[0] * 10 for _ in range(4)]
        self.moment, self.lines, self.quarantine, self.waiting = 0, [1], [], {}
        self.changes = {name: [] for name in ("slots", "spans", "records", "supers", "registers", "cells", "sums")}
        self.phase_sums = []

    def play(self):
        """Follows the whole run."""
        self.are_records()
        pending = []
        for event in in_order(self.trace, self.run):
            line, place, partition, j = event
            if place == 0:
                pending.append(event)
                continue
            if place == RECORD:
                self.moment += 1
                self.lines.append(line)
            for before in pending:
                self.entry(*before)
            pending.clear()
            self.record(line) if place == RECORD else self.entry(*event)
        if self.pool_done != len(self.run.pool):
            raise NoRun(0, f"no journal names entry {self.pool_done} of the pool")
        self.end_phase()
        self.report_is_told()
        return self

    def are_records(self):
        due = [n for n, op in enumerate(self.trace.lines, 1) if n > 1 and op is not PHASE]
        if list(self.run.records) != due:
            missing = next((n for n, line in zip(due, [*self.run.records, 0]) if n != line), 0)
            raise NoRun(0, f"the records aren't the trace's lines, each once and in order: line {missing or len(due) + 2}")
        for line, record in self.run.records.items():
            if record.thread != self.trace.lines[line - 1].thread:
                raise NoRun(0, f"the record of line {line} names another thread")
        for cell, history in enumerate(self.run.cells):
            for j, entry in enumerate(history):
                record = self.run.records.get(entry.line)
                op = self.trace.lines[entry.line - 1] if record else None
                if op is None or op.name != "X" or op.fields[0] != cell or (record.answer, record.fields) != ("swapped", (j,)):
                    raise NoRun(0, f"no record names exchange {j} of cell {cell}")
        if any(self.run.journals[self.trace.partitions :]):
            raise NoRun(0, "there is a journal of a partition that the trace doesn't have")

    def record(self, line):
        op = self.trace.lines[line - 1]
        if op is PHASE:
            return self.end_phase()
        record = self.run.records[line]
        if (record.answer == "swapped") != (op.name == "X") or (has_slot(record) and op.name not in TELLS[record.answer]):
            self.refuse(line, f"an op {op.name} has no such answer")
        if record.answer == "swapped":
            return self.exchange(op, record)
        if has_slot(record):
            self.use(op, record)

    def refuse(self, line, why):
        raise NoRun(0, f"the record of line {line} isn't the one that the run asks for: {why}")

    def use(self, op, record):
        """A record that names a slot: a step, or a look."""
        name, found = record.fields
        slot = self.named.get(name)
        if slot is None:
            self.refuse(record.line, f"no journal names {name}")
        held = self.registers.get((op.thread, op.fields[0]), (EMPTY, None))
        if record.answer != "made" and (held[0] not in (OWN, REF) or held[1] is not slot):
            self.refuse(record.line, f"register {op.fields[0]} doesn't hold {name}")
        if found != slot.word:
            self.refuse(record.line, f"{name} has the count word {slot.word:016x}")
        if slot in self.waiting:
            self.quarantine[self.waiting[slot]][4].append(self.moment)
        if not is_step(record):
            if FINDS.get(record.answer, found & BIT) != found & BIT or (record.answer == "shared" and not found % ONE >> 1):
                self.refuse(record.line, f"a look that finds {found:016x} isn't told so")
            return self.note_slot(slot)
        if not is_enabled(op.name, found):
            self.refuse(record.line, "its step isn't enabled")
        if op.name == "C" and held[0] == OWN and slot.partition >= self.trace.partitions - self.trace.plain:
            self.refuse(record.line, f"{name} is in a plain partition")
        if op.name == "A" and (slot.place not in (CACHED, HELD) or slot.who != op.thread):
            self.refuse(record.line, f"thread {op.thread} doesn't hold {name}")
        slot.word += ONE + STEPS[op.name]
        self.set_register(op, slot)
        self.settle(op, record.line, slot)

    def set_register(self, op, slot):
        made = {"A": (OWN, slot), "C": (REF, slot), "R": (CLEARED, None), "F": (FREED, None)}.get(op.name)
        if made is not None:
            self.put("registers", self.registers, (op.thread, op.fields[1 if op.name == "C" else 0]), made)

    def settle(self, op, line, slot):
        """Where the slot is after a step, and whether that began or ended a quarantine."""
        bit, refs = slot.word & BIT, (slot.word % ONE) >> 1
        if op.name == "F" and refs:
            self.waiting[slot] = len(self.quarantine)
            self.quarantine.append([slot.index, self.moment, refs, -1, []])
        if bit or refs:
            return self.move(slot, LIVE if bit else QUARANTINED, 0)
        if slot in self.waiting:
            self.quarantine[self.waiting.pop(slot)][3] = self.moment
        self.move(slot, HELD if slot.span is None else CACHED, op.thread)

    def exchange(self, op, record):
        cell, register = op.fields
        key = op.thread, register
        given, kept = self.registers.get(key, (EMPTY, None)), self.cells.get(cell, (EMPTY, None))
        given = given if given[0] in (OWN, REF) else (EMPTY, None)
        history, j = self.run.cells[cell], record.fields[0]
        told = (history[j].line, history[j].gave, history[j].found) if j < len(history) else None
        if told != (record.line, spelled(given), spelled(kept)):
            self.refuse(record.line, f"exchange {j} of cell {cell} isn't its exchange")
        self.put("cells", self.cells, (cell,), given)
        self.put("registers", self.registers, key, kept)

    def put(self, kind, handles, key, handle):
        handles[key if kind == "registers" else key[0]] = handle
        self.changes[kind] += [self.moment, *key, handle[0], handle[1].index if handle[1] else -1]

    def entry(self, line, _, partition, j):
        """Entry j of a partition's journal."""
        entry = self.run.journals[partition][j]
        op = self.trace.lines[line - 1]
        if op.name not in MAKES[entry.act] or (op.name == "A" and op.fields[1] != partition):
            raise NoRun(0, f"entry {j} of partition {partition}'s journal: line {line} doesn't make it")
        try:
            getattr(self, entry.act)(self.roots[partition], partition, entry)
        except Wrong as wrong:
            raise NoRun(0, f"entry {j} of partition {partition}'s journal, of line {line}: {wrong}") from None

    def ask(self, partition, entry, act):
        """The entry of the pool that a journal's entry names, which is the next one."""
        if entry.pool != self.pool_done or entry.pool >= len(self.run.pool):
            raise Wrong(f"the next entry of the pool is {self.pool_done}")
        asked = self.run.pool[entry.pool]
        if (asked.line, asked.partition, asked.act) != (entry.line, partition, act):
            raise Wrong(f"entry {entry.pool} of the pool is no {act} of this line and partition")
        self.pool.follow(entry.pool, asked)
        self.pool_done += 1
        return asked

    def use_supers(self, partition, asked, use):
        for super_page in range(asked.first, asked.first + asked.count):
            self.changes["supers"] += [self.moment, super_page, partition if use else -1, use]
        self.add(partition, RESERVED, SUPER_PAGE * asked.count * (1 if use else -1))

    def fill(self, root, partition, entry):
        if root.asks(entry.size_class) != (entry.pool is not None):
            raise Wrong("it asks the pool where it need not, or doesn't where it must")
        if entry.pool is not None:
            asked = self.ask(partition, entry, "take")
            if asked.first is None or asked.count != 1:
                raise Wrong(f"entry {entry.pool} of the pool got no super page for it")
            root.open(asked.first, entry.pool)
            self.use_supers(partition, asked, 1)
        for name, number in entry.slots:
            if root.asks(entry.size_class):
                raise Wrong("there are no more slots")
            span, place = root.take(entry.size_class)
            if span.slot(place) != name:
                raise Wrong(f"it names {name} where the rules give {span.slot(place)}")
            self.note_spans(partition, [span])
            self.leave(self.slot(name, partition, span.size, span, place), number, entry, CACHED)

    def map(self, root, partition, entry):
        asked = self.ask(partition, entry, "take")
        (name, number), = entry.slots
        if asked.first is None or name != f"{asked.first * SUPER_PAGE + 16384:08x}.{entry.pool}":
            raise Wrong("it isn't where the pool's entry has it")
        if asked.count != -(-(entry.len + 32768) // SUPER_PAGE):
            raise Wrong(f"{entry.len} bytes and its guards don't need {asked.count} super pages")
        self.use_supers(partition, asked, 2)
        root.maps[name] = asked.first, asked.count
        self.add(partition, COMMITTED, entry.len)
        self.leave(self.slot(name, partition, entry.len, None, 0), number, entry, HELD)

    def full(self, root, partition, entry):
        if self.ask(partition, entry, "take").first is not None:
            raise Wrong("the pool found super pages for it")

    def leave(self, slot, number, entry, place):
        """A slot goes from its root to the thread of the line."""
        if slot.place != ROOT or slot.word >> 24 != number:
            raise Wrong(f"{slot.name} isn't with the root at number {number}")
        self.move(slot, place, self.trace.lines[entry.line - 1].thread)

    def come_back(self, root, name, number, entry, place):
        """A slot that the thread of the line holds."""
        slot, thread = self.named.get(name), self.trace.lines[entry.line - 1].thread
        if slot is None or (slot.place, slot.who, slot.word >> 24) != (place, thread, number):
            raise Wrong(f"thread {thread} doesn't hold {name} at number {number}")
        return slot

    def give(self, root, partition, entry):
        for name, number in entry.slots:
            slot = self.come_back(root, name, number, entry, CACHED)
            if name not in root.homes:
                raise Wrong(f"{name} isn't this partition's")
            self.move(slot, ROOT, 0, counts=False)
            self.note_spans(partition, root.put_back(name))

    def unmap(self, root, partition, entry):
        (name, number), = entry.slots
        slot = self.come_back(root, name, number, entry, HELD)
        asked = self.ask(partition, entry, "give")
        if root.maps.pop(name, None) != (asked.first, asked.count):
            raise Wrong("the pool's entry gives back other super pages")
        self.use_supers(partition, asked, 0)
        self.add(partition, COMMITTED, -slot.len)
        self.move(slot, GONE, 0)

    def purge(self, root, partition, entry):
        self.note_spans(partition, root.purge())

    def slot(self, name, partition, length, span, number):
        if name not in self.named:
            self.named[name] = Slot(len(self.slots), name, partition, length, span, number)
            self.slots.append(self.named[name])
        return self.named[name]

    def move(self, slot, place, who, counts=True):
        """The slot is in another place. What a root has is summed up from its spans, so it isn't counted here."""
        for at, by in ((slot.place, -1), (place, 1)):
            if at in (LIVE, QUARANTINED, CACHED):
                self.add(slot.partition, COUNTED[at], by)
                self.add(slot.partition, COUNTED[at] + 1, by * slot.len)
        slot.place, slot.who = place, who
        self.note_slot(slot)

    def note_slot(self, slot):
        self.changes["slots"] += [self.moment, slot.index, slot.place, slot.who, slot.word]

    def note_spans(self, partition, spans):
        """What changed of these spans, and of the sums over them."""
        for span in spans:
            now = span.state, span.allocated, span.provisioned, span.made, span.committed
            if span.index == len(self.span_seen):
                self.span_seen.append((NONE, 0, 0, 0, 0, partition))
            old = self.span_seen[span.index]
            kept = (span.made - span.allocated) - (old[3] - old[1])
            self.add(partition, COUNTED[ROOT], kept)
            self.add(partition, COUNTED[ROOT] + 1, kept * span.size)
            self.add(partition, COMMITTED, 4096 * (span.committed - old[4]))
            self.span_seen[span.index] = (*now, partition)
            self.changes["spans"] += [self.moment, span.index, *now]
        self.note_records(spans, self.roots[partition].relinked)

    def note_records(self, spans, relinked):
        """What changed of the records of these spans, and of those whose neighbours changed: each word as its two halves."""
        for span in dict.fromkeys([*spans, *relinked]):
            record = span.record()
            if self.record_seen.get(span.index) != record:
                self.record_seen[span.index] = record
                self.changes["records"] += [self.moment, span.index, *(half for word in record for half in divmod(word, 1 << 32))]
        relinked.clear()

    def add(self, partition, at, by):
        if by == 0:
            return
        sums = self.sums[partition]
        sums[at] += by
        changes = self.changes["sums"]
        if len(changes) >= 12 and changes[-12] == self.moment and changes[-11] == partition:
            changes[-10:] = sums
        else:
            changes += [self.moment, partition, *sums]

    def end_phase(self):
        """The numbers of the report at the end of a phase."""
        phase = len(self.phase_sums) // self.trace.partitions + 1
        for partition in range(self.trace.partitions):
            states = [seen[0] for seen in self.span_seen if seen[5] == partition]
            counts = [states.count(state) for state in (4, 1, 2, 3)]
            self.phase_sums.append((phase, partition, *self.sums[partition], *counts))

    def report_is_told(self):
        if self.phase_sums != self.run.report:
            wrong = next((due for due, told in zip(self.phase_sums, self.run.report) if due != told), None)
            where = "its lines aren't one for each phase and partition" if wrong is None else f"phase {wrong[0]}, partition {wrong[1]}"
            raise NoRun(0, f"the report doesn't tell the sums of the run: {where}")


def spelled(handle):
    """A handle as a `c` line spells it."""
    kind, slot = handle
    return "-" if kind == EMPTY else f"{'own' if kind == OWN else 'ref'}:{slot.name}"

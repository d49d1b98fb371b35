"""A timeline of a run: an order of all steps in which it could have been played, one after another, as
`crates/pa_timeline/specs/Timeline.antt` defines it. `timeline_of` looks for one, and `fault` says whether an order of steps is one."""

from collections import defaultdict, namedtuple

from order import is_step
from texts import PHASE, NoRun

POISON = 0xEFEFEFEFEFEFEFEF

# A step: the line of its record, its kind, and what it has besides: the partition of an entry and its place in the journal, the word of
# one that becomes poison.
Moment = namedtuple("Moment", "line part detail")
ASKING, ENTERING, SWAPPING, LOOKING, LOADING, SPOILING, COUNTING = "asking entering swapping looking loading spoiling counting".split()
TOUCHES = (LOOKING, COUNTING)
READS = ("word", "dangling")


class Steps:
    """The steps of each record, in their order, and what they read and leave. Of the words that a free poisons only those are kept that
    some read of the slot names: the others can be next to these in any order."""

    def __init__(self, trace, run):
        self.trace, self.run = trace, run
        self.phases, self.read_words = {}, defaultdict(set)
        phase = 1
        for line, op in enumerate(trace.lines, 1):
            self.phases[line] = phase
            phase += op is PHASE
        usable = {}
        for record in run.records.values():
            if record.answer == "made":
                usable.setdefault(record.fields[0], record.given)
            elif record.answer in READS:
                self.read_words[record.fields[0]].add(self.op(record.line).fields[1])
        self.words = {slot: given // 8 for slot, given in usable.items()}
        self.entries = defaultdict(list)
        for partition, journal in enumerate(run.journals):
            for place, entry in enumerate(journal):
                self.entries[entry.line].append((partition, place, entry))
        self.parts = {line: [Moment(line, *part) for part in self.parts_of(record)] for line, record in run.records.items()}

    def op(self, line):
        return self.trace.lines[line - 1]

    def parts_of(self, record):
        """The steps of a record by its answer: kinds and details."""
        entries = []
        for partition, place, entry in sorted(self.entries[record.line], key=lambda e: e[:2]):
            entries += [(ASKING, None)] if entry.pool is not None else []
            entries.append((ENTERING, (partition, place)))
        if record.answer == "made":
            return [*entries, (COUNTING, None)]
        if record.answer == "done":
            return [*self.spoilings(record), (COUNTING, None), *entries]
        if record.answer in READS:
            return [(LOOKING, None), (LOADING, None)]
        if record.answer in ("full", "purged"):
            return entries
        if record.answer == "swapped":
            return [(SWAPPING, None)]
        return [(LOOKING, None)] if self.slot_of(record) else []

    def spoilings(self, record):
        slot = record.fields[0]
        freed = self.op(record.line).name == "F"
        return [(SPOILING, word) for word in sorted(self.read_words[slot]) if word < self.words[slot]] if freed else []

    @staticmethod
    def slot_of(record):
        return record.fields[0] if record.fields and isinstance(record.fields[0], str) else None

    def left(self, moment, word):
        """What a step leaves in a word of its slot, or None."""
        record = self.run.records[moment.line]
        if moment.part == SPOILING:
            return POISON if moment.detail == word else None
        if moment.part == COUNTING and record.answer == "made":
            return 0
        if moment.part == COUNTING and self.op(moment.line).name == "W":
            return int(self.op(moment.line).fields[1], 16)
        return None


def fault(steps, moments):
    """What of the definition the order of steps breaks, or None."""
    trace, run = steps.trace, steps.run
    by_line, journals, asked, swaps = defaultdict(list), defaultdict(list), [], defaultdict(list)
    latest, contents, counted = {}, {}, defaultdict(int)
    reached = 0
    for moment in moments:
        record = run.records[moment.line]
        thread, phase = steps.op(moment.line).thread, steps.phases[moment.line]
        if phase < reached or latest.get(thread, 0) > moment.line:
            return f"line {moment.line} isn't in order"
        reached, latest[thread] = phase, moment.line
        by_line[moment.line].append(moment)
        slot = steps.slot_of(record)
        if moment.part in TOUCHES and record.fields[1] >> 24 != counted[slot]:
            return f"line {moment.line} finds number {record.fields[1] >> 24} after {counted[slot]} steps"
        if moment.part == COUNTING:
            counted[slot] += 1
        if moment.part == ENTERING:
            journals[moment.detail[0]].append(moment.detail[1])
        if moment.part == ASKING:
            asked.append(moment.line)
        if moment.part == SWAPPING:
            swaps[steps.op(moment.line).fields[0]].append(moment.line)
        if moment.part == LOADING:
            place = (slot, steps.op(moment.line).fields[1])
            if contents.get(place, 0) != record.given:
                return f"line {moment.line} reads {record.given:016x}, and the steps before it leave {contents.get(place, 0):016x}"
        for word in steps.read_words[slot] if slot else ():
            left = steps.left(moment, word)
            if left is not None:
                contents[slot, word] = left
    if any(by_line[line] != parts for line, parts in steps.parts.items()):
        return "the steps of a record aren't there in their order"
    if any(journals[p] != list(range(len(journal))) for p, journal in enumerate(run.journals)):
        return "a journal's entries aren't in their order"
    if asked != [entry.line for entry in run.pool]:
        return "the pool's entries aren't in their order"
    if any(swaps[k] != [entry.line for entry in cell] for k, cell in enumerate(run.cells)):
        return "a cell's exchanges aren't in their order"
    return None


def chains(steps):
    """Lists of steps of which each comes after the one before it, but for what was read."""
    run = steps.run
    threads, journals, asked, cells = defaultdict(list), defaultdict(list), defaultdict(list), defaultdict(list)
    for line in sorted(steps.parts):
        threads[steps.op(line).thread] += steps.parts[line]
        for moment in steps.parts[line]:
            if moment.part == ENTERING:
                journals[moment.detail[0]].append(moment)
            if moment.part == ASKING:
                asked[line].append(moment)
            if moment.part == SWAPPING:
                cells[line].append(moment)
    yield from threads.values()
    for journal in journals.values():
        yield sorted(journal, key=lambda moment: moment.detail[1])
    yield [taken(asked, entry.line) for entry in run.pool]
    for cell in run.cells:
        yield [taken(cells, entry.line) for entry in cell]


def taken(moments, line):
    if not moments[line]:
        raise NoRun(0, f"an entry of line {line} is none of the steps of its record")
    return moments[line].pop(0)


class SlotSteps:
    """The touches of one slot by the numbers that they found, and what those leave in its words."""

    def __init__(self, slot, steps):
        self.slot, self.steps = slot, steps
        self.counted, self.looks = {}, defaultdict(list)

    def add(self, record):
        number = record.fields[1] >> 24
        at = next(moment for moment in self.steps.parts[record.line] if moment.part in TOUCHES)
        if not is_step(record):
            self.looks[number].append(at)
        elif self.counted.setdefault(number, at) != at:
            raise NoRun(0, f"line {record.line} finds number {number} of {self.slot}, as another step did")

    def links(self):
        """A look comes after the step before it by number, and before the next."""
        if sorted(self.counted) != list(range(len(self.counted))) or any(number > len(self.counted) for number in self.looks):
            raise NoRun(0, f"a number of {self.slot} was left by no step")
        for number, step in self.counted.items():
            yield from ((step, later) for later in [self.counted.get(number + 1), *self.looks[number + 1]] if later)
            yield from ((look, step) for look in self.looks[number])

    def is_free(self, number):
        moment = self.counted.get(number)
        return moment is not None and self.steps.op(moment.line).name == "F"

    def content(self, number, word):
        """What steps with lesser numbers leave, but for poison."""
        for earlier in range(number - 1, -1, -1):
            left = self.steps.left(self.counted[earlier], word)
            if left is not None:
                return left
        return 0

    def read_links(self, record):
        """What a read gave says which steps come before it and which after: it comes before the next step that stores, and if the slot
        was still held it comes before the poison of the next free, or after it. If the content is poison itself, any place will do."""
        number, held, word = record.fields[1] >> 24, record.fields[1] & 1, self.steps.op(record.line).fields[1]
        load = self.steps.parts[record.line][-1]
        later = range(number, len(self.counted))
        store = next((self.counted[n] for n in later if self.steps.left(self.counted[n], word) is not None), None)
        if store:
            yield load, store
        spoiling = next((Moment(self.counted[n].line, SPOILING, word) for n in later if self.is_free(n)), None)
        content = self.content(number, word) if held else POISON
        if record.given == content:
            if held and content != POISON and spoiling:
                yield load, spoiling
        elif record.given == POISON and spoiling:
            yield spoiling, load
        else:
            raise NoRun(0, f"line {record.line} reads {record.given:016x}, which no step can have left")


def links(steps):
    for chain in chains(steps):
        yield from zip(chain, chain[1:])
    slots = {}
    for record in steps.run.records.values():
        slot = steps.slot_of(record)
        if slot:
            slots.setdefault(slot, SlotSteps(slot, steps)).add(record)
    for slot in slots.values():
        yield from slot.links()
    for record in steps.run.records.values():
        if record.answer in READS:
            yield from slots[record.fields[0]].read_links(record)


def timeline_of(trace, run):
    """A timeline of the run, as the list of its steps. If it has none the reason is raised."""
    steps = Steps(trace, run)
    moments = [moment for line in sorted(steps.parts) for moment in steps.parts[line]]
    after, waits = defaultdict(list), dict.fromkeys(moments, 0)
    for first, second in links(steps):
        if steps.phases[first.line] > steps.phases[second.line]:
            raise NoRun(0, f"line {second.line} comes after line {first.line}, which is of a later phase")
        if steps.phases[first.line] == steps.phases[second.line]:
            after[first].append(second)
            waits[second] += 1
    ordered = sorted_by(moments, after, waits, steps.phases)
    wrong = fault(steps, ordered)
    if wrong:
        raise NoRun(0, wrong)
    return ordered


def sorted_by(moments, after, waits, phases):
    """The steps phase by phase, each after those that it waits for."""
    ready = defaultdict(list)
    for moment in reversed(moments):
        if waits[moment] == 0:
            ready[phases[moment.line]].append(moment)
    ordered = []
    for phase in sorted(set(phases.values())):
        while ready[phase]:
            moment = ready[phase].pop()
            ordered.append(moment)
            for later in after[moment]:
                waits[later] -= 1
                if waits[later] == 0:
                    ready[phase].append(later)
    if len(ordered) < len(moments):
        line = min(moment.line for moment, n in waits.items() if n)
        raise NoRun(0, f"line {line} waits for itself: the steps can't be put into one order")
    return ordered

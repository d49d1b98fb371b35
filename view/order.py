"""The moments of a run. Threads step beside each other, so what a run tells of one line may have come before what it tells
of a line above. Here its records and entries are put into one order that keeps what the run says: the order of each
thread's lines, of phases, of each journal, of the pool, of each cell, and of each slot by the numbers in its count word.
Of what may come next the least line comes first, so a run in the order of its lines keeps that order."""

import heapq
from collections import defaultdict

from texts import PHASE, NoRun

RECORD = 1
BEFORE = ("fill", "map", "full")


def is_step(record):
    """Whether the record reports a counted step, and not a look."""
    return record.answer in ("made", "done")


def has_slot(record):
    return bool(record.fields) and isinstance(record.fields[0], str)


def events(trace, run):
    """Every record, `phase` and journal entry as (line, place in the line, partition, index), by line."""
    found = [(n, RECORD, 0, 0) for n in range(2, len(trace.lines) + 1)]
    for partition, journal in enumerate(run.journals):
        for j, entry in enumerate(journal):
            found.append((entry.line, 0 if entry.act in BEFORE else 2, partition, j))
    found.sort()
    return found


def chains(trace, run, found):
    """The lists of events of which each comes after the one before it."""
    yield from by_thread(trace, found)
    journals = [[None] * len(journal) for journal in run.journals]
    pool = [[] for _ in run.pool]
    for event in found:
        line, place, partition, j = event
        if place != RECORD:
            journals[partition][j] = event
            index = run.journals[partition][j].pool
            if index is not None and index < len(pool):
                pool[index].append(event)
    yield from journals
    yield [event for events_of in pool for event in events_of[:1]]
    for cell in run.cells:
        yield [(entry.line, RECORD, 0, 0) for entry in cell]
    yield from by_slot(run)


def by_thread(trace, found):
    lists = defaultdict(list)
    for event in found:
        op = trace.lines[event[0] - 1] if 1 < event[0] <= len(trace.lines) else None
        if op is None or (op is PHASE and event[1] != RECORD):
            raise NoRun(0, f"an entry of partition {event[2]}'s journal is of line {event[0]}, which has no op")
        if op is not PHASE:
            lists[op.thread].append(event)
    return lists.values()


def by_slot(run):
    """By the number found: the looks at a number come before the step that found it, and after the step before."""
    slots = defaultdict(list)
    for record in run.records.values():
        if has_slot(record):
            slot, found = record.fields
            slots[slot].append((found >> 24, is_step(record), record.line))
    for slot, uses in slots.items():
        uses.sort()
        step, looks, due = None, [], 0
        for number, counted, line in uses:
            if number != due:
                raise NoRun(0, f"the record of line {line} found number {number} of {slot}, {apart(number, due)}")
            event = (line, RECORD, 0, 0)
            yield [step, event] if step else [event]
            if counted:
                yield from ([look, event] for look in looks)
                step, looks, due = event, [], due + 1
            else:
                looks.append(event)


def apart(number, due):
    return "as another step did" if number < due else f"but no record tells the step that found number {due}"


def in_order(trace, run):
    """The events in one order that every chain keeps."""
    found = events(trace, run)
    links = [pair for chain in chains(trace, run, found) for pair in zip(chain, chain[1:])]
    if all(first < second for first, second in links):
        return found
    return sorted_by(links, found, trace)


def sorted_by(links, found, trace):
    """Phase by phase, of the events that may come next the least."""
    phase_of, phase = {}, 0
    for n, op in enumerate(trace.lines, 1):
        phase_of[n] = phase
        phase += op is PHASE
    after, waits = defaultdict(list), dict.fromkeys(found, 0)
    for first, second in links:
        if phase_of[first[0]] > phase_of[second[0]]:
            raise NoRun(0, f"what line {second[0]} tells comes after line {first[0]}, which is of a later phase")
        if phase_of[first[0]] == phase_of[second[0]]:
            after[first].append(second)
            waits[second] += 1
    ready = [(phase_of[event[0]], trace.lines[event[0] - 1] is PHASE, event) for event, n in waits.items() if n == 0]
    heapq.heapify(ready)
    ordered = []
    while ready:
        event = heapq.heappop(ready)[2]
        ordered.append(event)
        for later in after[event]:
            waits[later] -= 1
            if waits[later] == 0:
                heapq.heappush(ready, (phase_of[later[0]], trace.lines[later[0] - 1] is PHASE, later))
    if len(ordered) < len(found):
        line = min(event for event, n in waits.items() if n)[0]
        raise NoRun(0, f"line {line} waits for itself: the records can't be put into one order")
    return ordered

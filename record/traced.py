"""The trace of a program: which objects it keeps, its text, and one line of what it keeps and loses."""

from heap import ALLOCATE, FREE, RESIZE, Heap
from keep import HASH, Room, by_classes, by_hash
from logs import BadLog
from placement import SUPER_PAGE
from script import COPY, MOST_LIVE, RESET, THREADS, Script, renumbered, with_refs
from texts import MOST_SUPER_PAGES

MOST_LINES, MOST_BYTES = 65_536, 4_194_304
PICTURE = 70
TRIES = 40


class TooMuch(Exception):
    """A trace passes a limit: by which measure, and how."""

    def __init__(self, measure, what, number, room):
        super().__init__(f"too many {what}: {number}, room for {room}")
        self.measure = measure


def fit(measure, what, number, room):
    if number > room:
        raise TooMuch(measure, what, number, room)


def most_live(events):
    """The most objects and assumed raw_ptrs that there are at once."""
    live = most = 0
    for act, *_ in events:
        live += {ALLOCATE: 1, COPY: 1, FREE: -1, RESET: -1}.get(act, 0)
        most = max(most, live)
    return most


def filled(rules, events):
    """The heap after these events. An object that a raw_ptr points to goes back when the raw_ptr is reset."""
    heap, pointed, waiting = Heap(rules), {}, set()
    for act, thread, made, size in events:
        if act == COPY:
            pointed[made] = size
            waiting.add(size)
        elif act == RESET:
            heap.step(FREE, thread, pointed.pop(made), 0)
        elif act == FREE and made in waiting:
            heap.step(RESIZE, thread, made, 0)
        else:
            heap.step(act, thread, made, size)
    return heap


def region(least, threads, most):
    """The super pages of the head: the least that `model` needs; more with several threads, whose order `replay` may choose."""
    return max(least, 1) if threads == 1 else min(least + least // 4 + 1, most)


def made_of(program, kept, how, refs):
    """The trace of these objects, and the line about it."""
    events = renumbered(program.events if kept is None else [event for event in program.events if event[2] in kept])
    if not events:
        raise BadLog("no objects fit")
    events = list(with_refs(events, *refs)) if refs else events
    fit("live", "live objects", most_live(events), MOST_LIVE)
    fit("events", "events", len(events), MOST_LINES)
    heap, script = filled(program.rules, events), Script(events).play()
    version, least = program.rules.version, len(heap.pool.taken)
    text = script.text(version, region(least, script.own, MOST_SUPER_PAGES[version]))
    fit("size", "super pages", least, MOST_SUPER_PAGES[version])
    fit("events", "lines", len(script.lines) + 1, MOST_LINES)
    fit("events", "bytes", len(text), MOST_BYTES)
    told = f"{about(program, kept, heap, script, len(text))}; {how}{assumed(events, refs)}"
    whole = how != HASH and share(program, heap) >= PICTURE
    return text, told if whole else f"{told}; no picture of the program's fragmentation"


def about(program, kept, heap, script, size):
    """What the trace keeps of the program, and what it cost."""
    objects, count = len(program.sizes), len(program.sizes if kept is None else kept)
    told = f"objects {objects} kept {count} ({100 * count / objects:.2f} of 100); greatest asked bytes {program.most_asked}"
    told += f" kept {heap.most_asked} ({share(program, heap):.1f} of 100); threads {len(program.threads)}"
    told += f", which share {THREADS}" if len(program.threads) > THREADS else ""
    return f"{told}; {program.lost()}; lines {len(script.lines) + 1} bytes {size} boundaries {script.boundaries} moves {script.moves}"


def share(program, heap):
    return 100 * heap.most_asked / program.most_asked if program.most_asked else 100


def assumed(events, refs):
    copies = sum(act == COPY for act, *_ in events)
    return f"; raw_ptrs {copies}, assumed: one at every free number {refs[0]}, for {refs[1]} events" if refs else ""


def chosen(program, policy, refs):
    """The trace by this policy; without one all objects if they fit, else whole classes."""
    if policy in (None, "all"):
        try:
            return made_of(program, None, "all objects", refs)
        except TooMuch:
            if policy:
                raise
    size = MOST_SUPER_PAGES[program.rules.version] * SUPER_PAGE * 3 // 4
    room, choose = Room(MOST_LIVE, 60_000, size), by_hash if policy == "hash" else by_classes
    for last in range(TRIES, -1, -1):
        kept, how = choose(program, room)
        try:
            return made_of(program, kept, how, refs)
        except TooMuch as much:
            if last == 0:
                raise
            room.less(much.measure)

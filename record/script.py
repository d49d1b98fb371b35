"""Writes the events of a program as a trace: objects into registers, threads that only hold what doesn't fit, and moves between
them. Both ends of every object are known, so the registers are a cache whose future is known."""

from heap import ALLOCATE, FREE

COPY, RESET = "copy", "reset"
THREADS, REGISTERS, CELLS = 16, 64, 64
MOST_LIVE = 900
MOST_MOVES = CELLS // 2
ROOM = 24
REPORTS = 20
NEVER = float("inf")


def renumbered(events):
    """The events by the threads of a trace, in the order of their first events. Past sixteen, threads share."""
    numbers = {}
    return [(act, numbers.setdefault(thread, len(numbers)) % THREADS, made, size) for act, thread, made, size in events]


def with_refs(events, every, delay):
    """The events with assumed raw_ptrs: before every so manyth free a copy, which is reset so many events later by the same thread."""
    due, frees, ref = {}, 0, -1
    for n, (act, thread, made, size) in enumerate(events):
        if act == FREE:
            frees += 1
            if frees % every == 0:
                yield COPY, thread, ref, made
                due.setdefault(n + delay, []).append((RESET, thread, ref, 0))
                ref -= 1
        yield act, thread, made, size
        yield from due.pop(n, ())


class Script:
    """The lines so far, and where each handle is. The first threads are the program's own; those after them are banks: registers, and
    no ops but exchanges, so their caches stay empty."""

    def __init__(self, events):
        self.events = events
        self.own = max(thread for _, thread, *_ in events) + 1
        self.ends = {made: (n, thread) for n, (act, thread, made, _) in enumerate(self.events) if act in (FREE, RESET)}
        self.lines, self.used = [], self.own
        self.free = [list(range(REGISTERS - 1, -1, -1)) for _ in range(THREADS)]
        self.place = {}
        self.moves = self.boundaries = 0

    def play(self):
        """All events, and as many phases more as the report is to have."""
        step = max(len(self.events) // REPORTS, 1)
        for n, (act, thread, made, size) in enumerate(self.events, 1):
            if act == ALLOCATE:
                self.make_room(thread)
                self.lines.append(f"{thread} A r{self.put(made, thread)} p0 {size}")
            elif act == COPY:
                self.copy(thread, made, size)
            elif act in (FREE, RESET):
                self.bring(thread, made)
                self.lines.append(f"{thread} {'F' if act == FREE else 'R'} r{self.drop(made)}")
            if n % step == 0 and n < len(self.events):
                self.lines.append("phase")
        return self

    def copy(self, thread, ref, owned):
        """A raw_ptr beside the owner that is freed next."""
        self.bring(thread, owned)
        self.make_room(thread)
        source = self.place[owned][1]
        self.lines.append(f"{thread} C r{source} r{self.put(ref, thread)}")

    def put(self, handle, thread):
        """The register that a handle comes into: the lowest that is free."""
        register = self.free[thread].pop()
        self.place[handle] = thread, register
        self.used = max(self.used, thread + 1)
        return register

    def drop(self, handle):
        """The register that a handle leaves."""
        thread, register = self.place.pop(handle)
        self.free[thread].append(register)
        return register

    def make_room(self, thread):
        if not self.free[thread]:
            self.boundary(thread, None)

    def bring(self, thread, handle):
        if self.place[handle][0] != thread:
            self.boundary(thread, handle)

    def end(self, handle):
        """When a handle ends, and by which thread."""
        return self.ends.get(handle, (NEVER, None))

    def boundary(self, thread, asked):
        """One phase ends: handles move, all gives before it and all takes after it. Boundaries use the two halves of the cells by turns,
        so a cell has one exchange a phase."""
        room = [len(free) for free in self.free]
        moves = self.moves_out(thread, room) if room[thread] < 2 else {}
        if asked is not None:
            moves[asked] = thread
            room[thread] -= 1
        self.moves_ahead(moves, room)
        first = MOST_MOVES * (self.boundaries % 2)
        moves = list(moves.items())
        for n, (handle, _) in enumerate(moves, first):
            giver = self.place[handle][0]
            self.lines.append(f"{giver} X c{n} r{self.drop(handle)}")
        self.lines.append("phase")
        for n, (handle, taker) in enumerate(moves, first):
            self.lines.append(f"{taker} X c{n} r{self.put(handle, taker)}")
        self.boundaries += 1
        self.moves += len(moves)

    def moves_out(self, thread, room):
        """Out of a full thread go those that end last: to the first bank with room, else to the thread that has most."""
        held = [handle for handle, (holder, _) in self.place.items() if holder == thread]
        held.sort(key=lambda handle: self.end(handle)[0], reverse=True)
        moves = {}
        for handle in held[:ROOM]:
            bank = next((t for t in range(self.own, THREADS) if room[t]), None)
            to = max((t for t in range(self.own) if t != thread), key=lambda t: room[t], default=None) if bank is None else bank
            if to is None or room[to] < 2 and bank is None:
                break
            moves[handle] = to
            room[to] -= 1
            room[thread] += 1
        return moves

    def moves_ahead(self, moves, room):
        """While cells are left, what ends soonest goes to the thread that ends it, where this has more than enough room."""
        soon = [handle for handle, (holder, _) in self.place.items() if handle not in moves and self.end(handle)[1] not in (None, holder)]
        for handle in sorted(soon, key=self.end):
            to = self.end(handle)[1]
            if len(moves) < MOST_MOVES and room[to] > ROOM:
                moves[handle] = to
                room[to] -= 1
                room[self.place[handle][0]] += 1

    def text(self, version, region):
        return "\n".join([f"trace {version} region {region} partitions 1 threads {self.used}", *self.lines, ""])

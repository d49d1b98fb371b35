"""The placement, by the rules that docs/DEFINITIONS.md lists rule by rule: the pool of super pages and the root of each
partition. What the journals of a run name is what these rules give, or the text is no run."""

from fractions import Fraction

SYSTEM_PAGE, PARTITION_PAGE, SUPER_PAGE = 4096, 16384, 2097152
LARGEST_CLASS = {1: 917504, 2: 983040, 3: 983040}
MOST_EMPTY = 16
STATES = NONE, ACTIVE, EMPTY, DECOMMITTED, FULL = range(5)


def slot_sizes(version):
    """The slot sizes of a version's classes: eight steps of 16 bytes, and then four steps to each doubling in version 1, and eight in
    versions 2 and 3."""
    steps = 4 if version == 1 else 8
    sizes = list(range(16, 129, 16))
    while sizes[-1] < LARGEST_CLASS[version]:
        sizes += [doubled // steps * step for doubled in sizes[-1:] for step in range(steps + 1, 2 * steps + 1)]
    return sizes[: sizes.index(LARGEST_CLASS[version]) + 1]


def span_shape(size):
    """Partition pages, system pages and slots of a span: the first pair of pages that leaves at most 64 bytes over, else the first of
    those that leave the least part of themselves over."""
    if size > PARTITION_PAGE:
        system = -(-size // SYSTEM_PAGE)
        return -(-system // 4), system, 1
    pairs = [(pages, system) for pages in range(1, 5) for system in range(4 * pages, 4 * pages - pages // 2 - 1, -1)]
    tight = [pair for pair in pairs if SYSTEM_PAGE * pair[1] % size <= 64]
    pages, system = tight[0] if tight else min(pairs, key=lambda pair: Fraction(SYSTEM_PAGE * pair[1] % size, pair[1]))
    return pages, system, SYSTEM_PAGE * system // size


# The classes of version 1, and then those of versions 2 and 3; and which of them is the first of a version.
SIZES = slot_sizes(1) + slot_sizes(2)
FIRST_CLASS = {1: 0, 2: len(slot_sizes(1)), 3: len(slot_sizes(1))}
SHAPES = [span_shape(size) for size in SIZES]


class Wrong(Exception):
    """An entry isn't the one that the rules give."""


class Span:
    """A run of partition pages with slots of one class. The front of the free list is the last of `free`."""

    def __init__(self, index, size_class, start, born):
        self.index, self.size_class, self.start, self.born = index, size_class, start, born
        self.size = SIZES[size_class]
        self.pages, self.system_pages, self.slots = SHAPES[size_class]
        self.state, self.turn = NONE, 0
        self.allocated = self.provisioned = self.made = self.committed = 0
        self.free = []
        self.previous = self.next = None

    def slot(self, number):
        return f"{self.start + number * self.size:08x}.{self.born}"

    def record(self):
        """The four words of its record: 32 bytes of the metadata page of its super page."""
        front = self.start + self.free[-1] * self.size if self.free else 0
        before, after = (near.start if near else 0 for near in (self.previous, self.next))
        counts = self.size_class | self.state << 8 | self.allocated << 16 | self.provisioned << 32 | self.committed << 48
        return counts, front | self.made << 32, before | after << 32, self.turn

    def record_place(self):
        """Where its record begins: there are 32 bytes for each partition page, from the second system page of the super page on."""
        return self.start // SUPER_PAGE * SUPER_PAGE + SYSTEM_PAGE + 32 * (self.start % SUPER_PAGE // PARTITION_PAGE)

    def provision(self):
        """One system page more, or as many as one slot more needs, and the slots that fit, in the order of their places."""
        needed = -(-self.size * (self.provisioned + 1) // SYSTEM_PAGE)
        self.committed = max(self.committed + 1, needed)
        slots = min(SYSTEM_PAGE * self.committed // self.size, self.slots)
        self.free = list(range(slots - 1, self.provisioned - 1, -1))
        self.provisioned = slots
        self.made = max(self.made, slots)


class Root:
    """What a partition has: spans, the current super page with its next free page, and direct maps. The spans of a class and state
    are a list, of which the one that came last is the first; a full span is in none."""

    def __init__(self, spans):
        self.all_spans = spans
        self.by_class = {}
        self.empty = set()
        self.homes = {}
        self.maps = {}
        self.current, self.next_page, self.turn = None, 1, 0
        self.firsts, self.relinked = {}, []

    def enter(self, span, state):
        """A span that enters another state takes the next turn, leaves its list and becomes the first of another."""
        if span.state == state:
            return
        self.leave(span)
        self.empty.discard(span)
        span.state, span.turn = state, self.turn
        self.turn += 1
        if state == EMPTY:
            self.empty.add(span)
        if state != FULL:
            self.join(span)

    def leave(self, span):
        """Its neighbours in its list become each other's."""
        if span.previous:
            span.previous.next = span.next
            self.relinked.append(span.previous)
        elif self.firsts.get((span.size_class, span.state)) is span:
            self.firsts[span.size_class, span.state] = span.next
        if span.next:
            span.next.previous = span.previous
            self.relinked.append(span.next)
        span.previous = span.next = None

    def join(self, span):
        """It becomes the first of its list."""
        span.next = self.firsts.get((span.size_class, span.state))
        if span.next:
            span.next.previous = span
            self.relinked.append(span.next)
        self.firsts[span.size_class, span.state] = span

    def listed(self, size_class):
        """The span that a take uses: active before empty before decommitted, the greatest turn first."""
        for state in (ACTIVE, EMPTY, DECOMMITTED):
            spans = [span for span in self.by_class.get(size_class, ()) if span.state == state]
            if spans:
                return max(spans, key=lambda span: span.turn)
        return None

    def asks(self, size_class):
        """Whether a take of this class needs a new super page."""
        if self.listed(size_class) is not None:
            return False
        return self.current is None or self.next_page + SHAPES[size_class][0] > 127

    def open(self, super_page, born):
        """The pool gave a super page: it becomes the current one."""
        self.current, self.next_page = (super_page, born), 1

    def take(self, size_class):
        """The span and the number of the slot that one take gives."""
        span = self.listed(size_class) or self.new_span(size_class)
        if not span.free:
            span.provision()
        number = span.free.pop()
        span.allocated += 1
        self.enter(span, FULL if span.allocated == span.slots else ACTIVE)
        self.homes[span.slot(number)] = span, number
        return span, number

    def new_span(self, size_class):
        """A new span at the next free page of the current super page."""
        super_page, born = self.current
        start = super_page * SUPER_PAGE + self.next_page * PARTITION_PAGE
        span = Span(len(self.all_spans), size_class, start, born)
        self.next_page += span.pages
        self.all_spans.append(span)
        self.by_class.setdefault(size_class, []).append(span)
        return span

    def put_back(self, slot):
        """The slot of this name goes back. The spans that changed."""
        return self.give(*self.homes[slot])

    def give(self, span, number):
        """A slot goes back to the front of its span's list. The spans that changed."""
        span.free.append(number)
        span.allocated -= 1
        if span.allocated == 0:
            self.enter(span, EMPTY)
        elif span.state == FULL:
            self.enter(span, ACTIVE)
        return [span, *self.decommit_oldest()] if len(self.empty) > MOST_EMPTY else [span]

    def decommit_oldest(self):
        """The empty span with the least turn is decommitted. The spans that changed."""
        span = min(self.empty, key=lambda span: span.turn)
        span.free, span.provisioned, span.committed = [], 0, 0
        self.enter(span, DECOMMITTED)
        return [span]

    def purge(self):
        """Every empty span is decommitted, the least turn first. The spans that changed."""
        return [span for _ in range(len(self.empty)) for span in self.decommit_oldest()]


class Pool:
    """The super pages of the region: for each the entry that took it, or none."""

    def __init__(self, region):
        self.taken = [None] * region

    def lowest(self, count):
        """The first of the lowest run of so many free super pages, or none."""
        for first in range(len(self.taken) - count + 1):
            if not any(owner is not None for owner in self.taken[first : first + count]):
                return first
        return None

    def follow(self, j, entry):
        """Entry j, which must be the one that the rules give."""
        run = slice(entry.first or 0, (entry.first or 0) + entry.count)
        if entry.act == "take":
            if entry.first != self.lowest(entry.count):
                raise Wrong(f"entry {j} of the pool doesn't name the lowest run of {entry.count} free super pages")
            if entry.first is not None:
                self.taken[run] = [(j, entry.partition)] * entry.count
            return
        owner = self.taken[entry.first] if entry.first < len(self.taken) else None
        one_take = owner is not None and owner[1] == entry.partition and self.taken.count(owner) == entry.count
        if not one_take or self.taken[run] != [owner] * entry.count:
            raise Wrong(f"entry {j} of the pool gives back what no take of its partition took")
        self.taken[run] = [None] * entry.count

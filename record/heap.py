"""A heap of one partition as a program fills it: the placement of `view/placement.py`, with a cache for each thread. The region has
as many super pages as are asked for."""

from bisect import bisect_left
from collections import defaultdict

from figures import DIRECT, new_rows
from placement import ACTIVE, DECOMMITTED, EMPTY, FIRST_CLASS, FULL, PARTITION_PAGE, SIZES, SUPER_PAGE, SYSTEM_PAGE, Pool, Root, slot_sizes

ALLOCATE, FREE, RESIZE = range(3)
COUNT_WORD = 8
GREATEST = 33_521_656


class Rules:
    """Which slots a program gets: by the classes of a version. To compare, without the count word or without caches."""

    def __init__(self, version, count_word=COUNT_WORD, caches=True):
        self.version, self.count_word = version, count_word
        self.first, self.sizes, self.known = FIRST_CLASS[version], slot_sizes(version), {}
        # By class, the slots that a thread keeps at most, and those that it asks for at once.
        self.limits = [(64, 32, 16, 0)[bisect_left((128, 1024, 32_768), size)] if caches else 0 for size in SIZES]
        self.fills = [max(limit // 8, 1) for limit in self.limits]

    def slot(self, size):
        """The class of a request, or `DIRECT`, and the bytes of the slot or direct map that it gets."""
        if size not in self.known:
            raw = max(size, 1) + self.count_word
            number = bisect_left(self.sizes, raw)
            classed = number < len(self.sizes)
            self.known[size] = (self.first + number, self.sizes[number]) if classed else (DIRECT, -(-raw // SYSTEM_PAGE) * SYSTEM_PAGE)
        return self.known[size]

    def slot_size(self, size):
        return self.slot(size)[1]


# By version. A trace of version 3 has the classes of version 2.
RULES = {version: Rules(version) for version in (1, 2)}


class Heap:
    """What stands after the events so far: `rows` by class, the caches by thread and class with their fronts last, and of each live
    object its class, where it is, the size that was asked for, and the bytes of its slot."""

    def __init__(self, rules):
        self.rules, self.root, self.pool = rules, Root([]), Pool(0)
        self.caches, self.live, self.seen = defaultdict(list), {}, {}
        self.rows = new_rows()
        self.committed = self.reserved = self.most = self.most_at = self.events = 0
        self.asked = self.most_asked = 0

    def step(self, act, thread, made, size):
        """One event of a program."""
        if act == ALLOCATE:
            self.allocate(thread, made, size)
        elif act == FREE:
            self.free(thread, made)
        elif act == RESIZE:
            self.resize(made, size)
        self.most_asked = max(self.most_asked, self.asked)
        if self.committed > self.most:
            self.most, self.most_at = self.committed, self.events
        self.events += 1

    def allocate(self, thread, made, size):
        number, length = self.rules.slot(size)
        if number == DIRECT:
            place = self.map(length)
        else:
            cache = self.caches[thread, number]
            if not cache:
                self.fill(number, cache)
            place = cache.pop()
            self.rows[number].cached -= SIZES[number]
        self.live[made] = number, place, size, length
        self.rows[number].allocate(size, length)
        self.asked += size

    def free(self, thread, made):
        number, place, size, length = self.live.pop(made)
        self.rows[number].free(size, length)
        self.asked -= size
        if number == DIRECT:
            self.unmap(place, length)
        else:
            self.to_cache(number, self.caches[thread, number], place)

    def resize(self, made, size):
        """A realloc that keeps its slot."""
        number, place, old, length = self.live[made]
        self.live[made] = number, place, size, length
        self.rows[number].asked += size - old
        self.asked += size - old

    def take_super_pages(self, count):
        """The lowest run of free super pages, in a region that grows if there is none."""
        while (first := self.pool.lowest(count)) is None:
            self.pool.taken.append(None)
        self.pool.taken[first : first + count] = [self] * count
        self.reserved += SUPER_PAGE * count
        return first

    def map(self, length):
        count = -(-(length + 2 * PARTITION_PAGE) // SUPER_PAGE)
        self.commit(DIRECT, length)
        return self.take_super_pages(count), count

    def unmap(self, place, length):
        first, count = place
        self.pool.taken[first : first + count] = [None] * count
        self.reserved -= SUPER_PAGE * count
        self.commit(DIRECT, -length)

    def fill(self, number, cache):
        if self.root.asks(number):
            self.root.open(self.take_super_pages(1), 0)
        taken = []
        while not taken or (len(taken) < self.rules.fills[number] and not self.root.asks(number)):
            taken.append(self.root.take(number))
            self.note(taken[-1][0])
        cache.extend(reversed(taken))
        self.rows[number].cached += SIZES[number] * len(taken)

    def to_cache(self, number, cache, place):
        """A slot to the front of a list. Past the limit all but the first half of the limit go back, from the front on."""
        cache.append(place)
        self.rows[number].cached += SIZES[number]
        limit = self.rules.limits[number]
        if len(cache) > limit:
            over = len(cache) - limit // 2
            self.rows[number].cached -= SIZES[number] * over
            for span, slot in reversed(cache[:over]):
                for changed in self.root.give(span, slot):
                    self.note(changed)
            del cache[:over]

    def note(self, span):
        """What a span has committed may have changed."""
        if span.committed != self.seen.get(span, 0):
            self.commit(span.size_class, SYSTEM_PAGE * (span.committed - self.seen.get(span, 0)))
            self.seen[span] = span.committed

    def commit(self, number, more):
        self.rows[number].committed += more
        self.committed += more

    def places(self):
        """The four pairs of slots and bytes, and the spans by state, as a report has them."""
        spans = self.root.all_spans
        live = len(self.live), sum(row.slots for row in self.rows)
        cached = sum(map(len, self.caches.values())), sum(row.cached for row in self.rows)
        left = [(span.made - span.allocated, span.size) for span in spans]
        states = [sum(span.state == state for span in spans) for state in (FULL, ACTIVE, EMPTY, DECOMMITTED)]
        return live, (0, 0), cached, (sum(n for n, _ in left), sum(n * size for n, size in left)), states

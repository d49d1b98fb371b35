"""The sums of a run that was played: by class at each line, and those of the line where most bytes were asked for."""

from figures import DIRECT, end_line, kept, new_rows, peak_line, table
from replay import CACHED, COMMITTED, GONE, LIVE, RESERVED


class Sums:
    """The rows of a heap that was played, line by line, and those of the line where most bytes were asked for."""

    def __init__(self, trace, heap):
        self.trace, self.heap = trace, heap
        self.rows, self.then = new_rows(), new_rows()
        self.places, self.asked, self.committed = {}, {}, {}
        self.most_asked = self.asked_now = self.peak = self.reserved = self.most = self.most_at = 0
        self.parts = [[0] * 10 for _ in range(trace.partitions)]

    def play(self):
        """Follows all changes, and looks at the end of each line."""
        changes = self.by_moment()
        for n, (moment, kind, row) in enumerate(changes):
            (self.slot, self.span, self.sums)[kind](moment, row)
            if n + 1 == len(changes) or changes[n + 1][0] != moment:
                self.look(moment)
        return self

    def by_moment(self):
        kinds = (("slots", 5), ("spans", 7), ("sums", 12))
        flat = [(kind, width, self.heap.changes[name]) for kind, (name, width) in enumerate(kinds)]
        found = [(row[at], kind, row[at + 1 : at + width]) for kind, width, row in flat for at in range(0, len(row), width)]
        return sorted(found, key=lambda change: change[0])

    def slot(self, moment, change):
        index, place, *_ = change
        slot, before = self.heap.slots[index], self.places.get(index)
        row = self.rows[DIRECT if slot.span is None else slot.span.size_class]
        if place == LIVE and before != LIVE:
            self.asked[index] = self.trace.lines[self.heap.lines[moment] - 1].fields[2]
            self.asked_now += self.asked[index]
            row.allocate(self.asked[index], slot.len)
        elif place != LIVE and before == LIVE:
            self.asked_now -= self.asked[index]
            row.free(self.asked[index], slot.len)
        row.cached += slot.len * ((place == CACHED) - (before == CACHED))
        self.places[index] = place
        if slot.span is None:
            self.commit(("map", index), row, slot.len if place != GONE else 0)

    def span(self, _, change):
        index, *_, committed = change
        self.commit(("span", index), self.rows[self.heap.spans[index].size_class], 4096 * committed)

    def commit(self, what, row, committed):
        row.committed += committed - self.committed.get(what, 0)
        self.committed[what] = committed

    def sums(self, _, change):
        self.parts[change[0]] = change[1:]

    def look(self, moment):
        committed, reserved = (sum(part[at] for part in self.parts) for at in (COMMITTED, RESERVED))
        if self.asked_now > self.most_asked:
            self.most_asked, self.peak, self.then, self.reserved = self.asked_now, moment, kept(self.rows), reserved
        if committed > self.most:
            self.most, self.most_at = committed, moment

    def lines(self):
        """What is printed."""
        made = sum(row.made for row in self.rows)
        yield f"lines {len(self.trace.lines)} objects {made} threads {self.trace.threads}"
        peak, most = (f"line {self.heap.lines[moment]}" for moment in (self.peak, self.most_at))
        yield peak_line(peak, self.then, self.reserved, self.most, most)
        yield from table(self.rows, self.then)
        last = self.heap.phase_sums[-self.trace.partitions :]
        figures = [sum(column) for column in zip(*(line[2:] for line in last))]
        pairs = [tuple(figures[at : at + 2]) for at in range(0, 8, 2)]
        yield end_line(*pairs, figures[8], figures[9], figures[10:])

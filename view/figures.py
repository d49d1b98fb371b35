"""The table of sums of a whole heap: what `view/sums` prints of a trace and its run, and `record/sums` of a log."""

from copy import copy

from placement import SIZES

DIRECT = len(SIZES)
HEAD = "class   slot      made  greatest live |     live       asked waste     cached  committed"


class Row:
    """What is told of one class, or of all direct maps: objects made so far, the most that were live at once, and what is there
    now. All but the counts of objects are bytes; `slots` are those of the live objects."""

    def __init__(self):
        self.made = self.greatest = self.live = self.asked = self.slots = self.cached = self.committed = 0

    def allocate(self, size, slot):
        self.made += 1
        self.live += 1
        self.greatest = max(self.greatest, self.live)
        self.asked += size
        self.slots += slot

    def free(self, size, slot):
        self.live -= 1
        self.asked -= size
        self.slots -= slot


def new_rows():
    """A row for each class, and the last one for direct maps."""
    return [Row() for _ in range(DIRECT + 1)]


def kept(rows):
    """The rows as they stand."""
    return [copy(row) for row in rows]


def waste(row):
    """Of 100 bytes of the slots of live objects, how many nobody asked for."""
    return 100 * (row.slots - row.asked) / row.slots if row.slots else 0.0


def total(rows):
    """One row that adds up those of all classes."""
    whole = Row()
    for row in rows:
        for name, number in vars(row).items():
            setattr(whole, name, getattr(whole, name) + number)
    return whole


def peak_line(moment, then, reserved, most, most_moment):
    """The whole heap where most bytes were asked for."""
    whole = total(then)
    told = f"at {moment}: asked {whole.asked} slots {whole.slots} waste {waste(whole):.1f} cached {whole.cached}"
    return f"{told} committed {whole.committed} reserved {reserved}; greatest committed {most}, at {most_moment}"


def table(rows, then):
    """A line for each class in use: of the whole run, and of that moment."""
    yield HEAD
    for number, (row, at) in enumerate(zip(rows, then)):
        if row.made or row.committed or at.committed:
            name, slot = ("direct", "-") if number == DIRECT else (number, SIZES[number])
            yield (f"{name:>6}{slot:>7}{row.made:>10}{row.greatest:>15} |{at.live:>9}{at.asked:>12}{waste(at):>6.1f}"
                   f"{at.cached:>11}{at.committed:>11}")


def end_line(live, quarantined, cached, root, committed, reserved, states):
    """The heap at the end, in the words of a report: four pairs of slots and bytes, and the full, active, empty and decommitted
    spans."""
    places = zip(("live", "quarantined", "cached", "root"), (live, quarantined, cached, root))
    told = " ".join(f"{name} {slots} {size}" for name, (slots, size) in places)
    spans = " ".join(f"{name} {count}" for name, count in zip(("full", "active", "empty", "decommitted"), states))
    return f"at the end: {told} committed {committed} reserved {reserved} {spans}"

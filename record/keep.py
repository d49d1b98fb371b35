"""Which objects of a program go into a trace, if not all fit: whole classes, or a hash of the objects."""

from heap import ALLOCATE, FREE, RESIZE

WINDOWS = 1000
HASH = "a hash of the objects"
SIGNS = {ALLOCATE: 1, FREE: -1, RESIZE: 0}


class Room:
    """What a trace has room for: objects live at once, events, and bytes of their slots."""

    def __init__(self, live, events, size):
        self.live, self.events, self.size = live, events, size

    def parts(self, needs):
        """By how much the room exceeds these needs."""
        return [have / max(need, 1) for have, need in zip((self.live, self.events, self.size), needs)]

    def less(self, name):
        """A tenth less of one measure, after a trace came out too large."""
        setattr(self, name, getattr(self, name) * 9 // 10)


class Share:
    """What the objects of one class need: the most that are live in each window of time, their events, and at the event where the
    program asked for most their bytes and those of their slots."""

    def __init__(self):
        self.live = self.events = self.asked = self.slots = 0
        self.most = [0] * (WINDOWS + 1)

    def step(self, act, window):
        self.events += 1
        self.live += SIGNS[act]
        self.most[window] = max(self.most[window], self.live)

    def need(self, room):
        """The greatest part of the room that they take."""
        needs = (max(self.most), room.live), (self.events, room.events), (self.slots, room.size)
        return max(need / max(most, 1) for need, most in needs)


def shares(program):
    """Each class with what its objects need, and of each object its class."""
    found, classes, sizes, width = {}, [], {}, -(-len(program.events) // WINDOWS)
    for n, (act, _, made, size) in enumerate(program.events):
        if act == ALLOCATE:
            classes.append(program.rules.slot(size)[0])
        if n % width == 0:
            for each in found.values():
                each.most[n // width] = each.live
        share = found.setdefault(classes[made], Share())
        share.step(act, n // width)
        if n <= program.peak:
            at_peak(share, sizes, program.rules.slot_size, act, made, size)
    return found, classes


def at_peak(share, sizes, slot_size, act, made, size):
    """An event up to the one where most is asked for."""
    before, now = sizes.get(made, 0), 0 if act == FREE else size
    share.asked += now - before
    share.slots += (slot_size(now) if act != FREE else 0) - (slot_size(before) if act != ALLOCATE else 0)
    sizes[made] = now


def by_classes(program, room):
    """The objects of whole classes, those first that have most bytes for the room they take, and how many classes of how many."""
    found, classes = shares(program)
    kept, live, events, slots = set(), [0] * (WINDOWS + 1), 0, 0
    for number in sorted(found, key=lambda number: -found[number].asked / found[number].need(room)):
        share = found[number]
        more = [a + b for a, b in zip(live, share.most)]
        if max(more) <= room.live and events + share.events <= room.events and slots + share.slots <= room.size:
            kept.add(number)
            live, events, slots = more, events + share.events, slots + share.slots
    return {made for made, number in enumerate(classes) if number in kept}, f"classes {len(kept)} of {len(found)}"


def by_hash(program, room):
    """As many objects as fit, drawn by their numbers."""
    part = min(room.parts(needs(program, range(len(program.sizes)))))
    while True:
        kept = {made for made in range(len(program.sizes)) if (made + 1) * 0x9E3779B97F4A7C15 % (1 << 64) < part * (1 << 64)}
        if min(room.parts(needs(program, kept))) >= 1:
            return kept, HASH
        part *= 0.95


def needs(program, kept):
    """The most objects that are live at once, the events, and the most bytes of slots, of these objects alone."""
    live = events = size = most = greatest = 0
    for act, _, made, asked in program.events:
        if made in kept:
            events += 1
            live += SIGNS[act]
            size += SIGNS[act] * program.rules.slot_size(asked)
            most, greatest = max(most, live), max(greatest, size)
    return most, events, greatest

"""What `versions` prints: programs by the classes of both versions, each at the event at which it asked for most bytes."""

from pathlib import Path

from heap import RULES, Heap, Rules
from logs import read

COLUMNS = ("Program", "Asked, MB", "Waste: 59 classes", "111", "59, no count word", "111, no count word")
COLUMNS += ("Committed, MB: 59", "111", "Change", "Without caches: 59", "111", "Change")


def table_of(logs):
    """A row for each log."""
    yield row(COLUMNS)
    yield row(["---"] * len(COLUMNS)).replace(" ", "")
    for log in logs:
        yield row(figures_of(log))


def row(fields):
    return f"| {' | '.join(fields)} |"


def figures_of(log):
    """The name of a log, and the figures of its program."""
    programs = [read(log, version) for version in RULES]
    heaps = [heap_at_peak(program, Rules(program.version)) for program in programs]
    alone = [heap_at_peak(program, Rules(program.version, caches=False)) for program in programs]
    yield Path(log).name.split(".")[0]
    yield megabytes(heaps[0].asked)
    yield from (waste(heap, heap.rules) for heap in heaps)
    yield from (waste(heap, Rules(heap.rules.version, count_word=0)) for heap in heaps)
    for one, other in (heaps, alone):
        yield from (megabytes(one.committed), megabytes(other.committed))
        yield f"{100 * other.committed / one.committed - 100:+.0f} %"


def heap_at_peak(program, rules):
    """The heap by these rules after the event at which most bytes were asked for."""
    heap = Heap(rules)
    for event in program.events[: program.peak + 1]:
        heap.step(*event)
    return heap


def waste(heap, rules):
    """What of 100 bytes nobody asked for, if the live objects had the slots that these rules give."""
    slots = sum(rules.slot_size(size) for _, _, size, _ in heap.live.values())
    return f"{100 * (slots - heap.asked) / slots:.1f}"


def megabytes(size):
    return f"{size / 1e6:.2f}"

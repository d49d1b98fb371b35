"""What `sums` and `text` print of a program."""

from figures import end_line, kept, peak_line, table
from heap import ALLOCATE, FREE, RESIZE, Heap


def sums_of(program):
    """The table of sums of a program, and the heap at its end."""
    heap = Heap(program.rules)
    then, reserved = kept(heap.rows), 0
    for n, event in enumerate(program.events):
        heap.step(*event)
        if n == program.peak:
            then, reserved = kept(heap.rows), heap.reserved
    yield f"events {len(program.events)} objects {len(program.sizes)} threads {len(program.threads)}; {program.lost()}"
    yield peak_line(f"event {program.peak + 1}", then, reserved, heap.most, f"event {heap.most_at + 1}")
    yield from table(heap.rows, then)
    *places, states = heap.places()
    yield end_line(*places, heap.committed, heap.reserved, states)


def text_of(program):
    """The log as text, with the numbers of objects in place of addresses, from 1."""
    yield "log 1"
    for n, (act, thread, made, size) in enumerate(program.events):
        if n in program.moves:
            continue
        if n + 1 in program.moves:
            yield f"r {thread} {program.events[n + 1][2] + 1:x} {made + 1:x} {size}"
        elif act == ALLOCATE:
            yield f"a {thread} {made + 1:x} {size}"
        elif act == FREE:
            yield f"f {thread} {made + 1:x}"
        elif act == RESIZE:
            yield f"r {thread} {made + 1:x} {made + 1:x} {size}"

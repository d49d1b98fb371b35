"""Makes the page of a heap: what changed at which moment, as data, and the template's parts around it."""

import html
import json
from pathlib import Path

from replay import Heap
from texts import read

FOLDER = Path(__file__).resolve().parent / "page"
SCRIPTS = ("state.js", "words.js", "map.js", "plot.js", "panels.js", "page.js")


def part(name):
    return (FOLDER / name).read_text()


def data_of(text):
    """What the page is told: the texts as they are, and what changed at which moment."""
    trace, run, start = read(text)
    heap = Heap(trace, run).play()
    lines = text.split("\n")[:-1]
    in_file_order = heap.lines == list(range(1, len(heap.lines) + 1))
    return {
        "region": trace.region,
        "partitions": trace.partitions,
        "threads": trace.threads,
        "trace": lines[:start],
        "run": lines[start:],
        "lines": None if in_file_order else heap.lines,
        "slots": [[int(s.name[:8], 16), s.partition, s.len, s.span.index if s.span else -1, s.number] for s in heap.slots],
        "names": [s.name for s in heap.slots],
        "spans": [[s.start, s.born, s.pages, s.system_pages, s.size_class, s.size, s.slots, s.record_place()] for s in heap.spans],
        "owners": [seen[5] for seen in heap.span_seen],
        "quarantine": heap.quarantine,
        "changes": heap.changes,
    }


def page(data):
    """The page of these data."""
    told = json.dumps(data, separators=(",", ":")).replace("<", "\\u003c")
    text = part("page.html").replace("/*style*/", part("page.css"))
    text = text.replace("/*script*/", "\n".join(part(name) for name in SCRIPTS))
    return text.replace("/*data*/", told)


def refusal(why):
    """A page that says that the text is no run."""
    return part("refused.html").replace("/*style*/", part("page.css")).replace("<!--why-->", html.escape(why))

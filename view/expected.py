"""Why a trace, or a trace and its run, is refused: the first faulty line, the column in it, and what was expected there. The forms of
lines are those of docs/FORMATS.md, and a faulty line is the one that the program names; `view/check` compares them."""

import re
from collections import namedtuple

# The answer of the program, as `bad line`, with its line; the column, from 1; what is wrong there, and what was expected.
Fault = namedtuple("Fault", "answer line column wrong expected")
BAD, LIMIT = "bad line", "limit at line"

MOST_LINES, MOST_BYTES, MOST_AUDITED = 65_536, 4_194_304, 134_217_728

HEAD = "trace V region N partitions P threads T"
# The form of a head by its version.
HEADS = {"1": HEAD, "2": HEAD, "3": f"{HEAD} plain Q"}
OPS = {
    "A": "T A rI pJ SIZE",
    "C": "T C rI rJ",
    "R": "T R rI",
    "F": "T F rI",
    "W": "T W rI VALUE",
    "D": "T D rI K",
    "X": "T X cK rI",
    "P": "T P",
}
ANSWERS = {
    "made": "made SLOT USABLE FOUND",
    **{name: f"{name} SLOT FOUND" for name in ("done", "not-owner", "shared")},
    **{name: f"{name} SLOT FOUND VALUE" for name in ("word", "dangling")},
    **{name: name for name in ("stale-reset", "nothing", "filled", "not-ref", "out-of-range", "too-large", "uncounted")},
    **{name: f"{name} J" for name in ("full", "swapped")},
    "purged": "purged N",
}
MAYBE_SLOT = ("second-free", "stale-use")
ACTS = {
    "fill": "fill CLASS POOL",
    "map": "map POOL SLOT@0 LEN",
    "full": "full CLASS POOL",
    "give": "give",
    "unmap": "unmap POOL SLOT@J",
    "purge": "purge",
}
MOVES = {"take": "p J LINE P take COUNT FIRST", "give": "p J LINE P give COUNT FIRST"}
CELL = "c CELL J LINE GAVE FOUND"
TALLIES = " ".join(f"{name} SLOTS BYTES" for name in ("live", "quarantined", "cached", "root"))
SPANS = " ".join(f"{name} SPANS" for name in ("full", "active", "empty", "decommitted"))
REPORT = f"s PHASE P {TALLIES} committed BYTES reserved BYTES {SPANS}"
KINDS = {"e": "records", "r": "entries of the journals", "p": "entries of the pool", "c": "exchanges", "s": "report"}

WORDS = ("VALUE", "FOUND")
WIDE = ("SLOTS", "BYTES")
CUT = 60


class Refused(Exception):
    """A line has this fault at this column."""

    def __init__(self, column, wrong, expected, answer=BAD):
        super().__init__(wrong)
        self.column, self.wrong, self.expected, self.answer = column, wrong, expected, answer


def first_fault(data):
    """The first fault of these bytes, or none: of a trace, or of a trace followed by its run."""
    text = data.decode("latin-1")
    lines = text.split("\n")
    unended = lines.pop()
    start = lines.index("run 1") if "run 1" in lines else None
    if start == 0:
        return Fault(BAD, 1, 1, "the run is alone", "a trace, and after it its run: cat NAME.trace NAME.run")
    trace = lines if start is None else lines[:start]
    fault = trace_fault(trace, unended if start is None else "")
    if fault is None and start is not None:
        fault = run_fault(lines[start:], unended, start, sum(len(line) + 1 for line in trace))
    return fault


# ---- a trace


def trace_fault(lines, unended):
    head = None
    before = 0
    for n, line in enumerate([*lines, *([unended] if unended else [])], 1):
        whole = n <= len(lines)
        try:
            within(n, line, before, whole)
            fields = fields_of(line) if n == 1 else trace_fields(line)
            matched = match(head_form(fields), fields, line) if n == 1 else trace_line(fields, line)
            ended(line, whole)
            head = head_of(matched) if n == 1 else head
            in_limits(matched, head)
        except Refused as fault:
            return Fault(fault.answer, n, fault.column, fault.wrong, fault.expected)
        before += len(line) + 1
    return None if head else Fault(BAD, 1, 1, "the file is empty", HEAD)


def head_form(fields):
    """The form of a head with these fields: that of its version, if it has one."""
    return HEADS.get(fields[1][1], HEAD) if len(fields) > 1 else HEAD


def within(n, line, before, whole):
    if n > MOST_LINES:
        raise Refused(1, f"a trace has at most {MOST_LINES:,} lines", "the end of the trace", LIMIT)
    if before + len(line) + whole > MOST_BYTES:
        raise Refused(MOST_BYTES - before + 1, f"a trace has at most {MOST_BYTES:,} bytes", "the end of the trace", LIMIT)


def ended(line, whole):
    if not whole:
        raise Refused(len(line) + 1, "the line has no line feed", "a line feed, on the last line too: echo >> FILE")


def trace_fields(line):
    return None if line == "phase" else fields_of(line)


def trace_line(fields, line):
    """The fields of an op's line by their names, or none of a line `phase`."""
    if fields is None:
        return []
    if fields[0][1].lower() == "phase":
        raise Refused(1, f"{shown(line)} isn't `phase`", "`phase`, in lower case and alone")
    if fields[0][1] == "trace":
        raise Refused(1, "a second head", "one trace in a file, and after it its run")
    if fields[0][1] in KINDS or line.startswith("run ") or line == "end":
        raise Refused(1, f"{shown(fields[0][1])} begins a line of a run", "`run 1` before the lines of a run, or a line of the trace")
    number("T", fields[0][0], fields[0][1], "T OP ..., or `phase`: a line begins with the number of a thread")
    if len(fields) == 1:
        raise Refused(len(line) + 1, "the op is missing", f"one of {' '.join(OPS)}")
    column, name = fields[1]
    if name not in OPS:
        small = f": an op is a capital letter, as `{name.upper()}`" if name.upper() in OPS else ""
        raise Refused(column, f"{shown(name)} is no op{small}", f"one of {' '.join(OPS)}")
    return match(OPS[name], fields, line, (1,))


def head_of(matched):
    return {name: value for name, _, value in matched}


def in_limits(matched, head):
    """Each number is within its limit."""
    for name, column, value in matched:
        least, most, why = bounds(name, head)
        if most is not None and not (len(value) <= len(str(most)) and least <= int(value) <= most):
            raise Refused(column, f"{name} is {cut(value)}", f"{least} to {most}{why}", LIMIT)


def bounds(name, head):
    """The least and the greatest value of a number in a trace, and where that comes from."""
    if name in ("N", "P", "T"):
        return 1, {"N": 16 if head["V"] == "1" else 64, "P": 4, "T": 16}[name], ""
    if name == "Q":
        return 0, int(head["P"]), f": the head has partitions {head['P']}"
    if name in ("thread", "partition"):
        count = int(head["T" if name == "thread" else "P"])
        return 0, count - 1, f": the head has {name}s {count}"
    if name in ("register", "cell"):
        return 0, 63, ""
    return (0, 4_294_967_295, "") if name in ("SIZE", "word") else (0, None, "")


# What a number in a line of a trace is, by its place in the form.
MEANINGS = {"rI": "register", "rJ": "register", "pJ": "partition", "cK": "cell", "T": "thread", "K": "word"}


# ---- a run


def run_fault(lines, unended, start, before):
    """The first fault of a run that begins these lines with `run 1`, after this many lines and bytes."""
    reached = None
    for n, line in enumerate([*lines, *([unended] if unended else [])], start + 1):
        whole = n <= start + len(lines)
        try:
            if before + len(line) + whole > MOST_AUDITED:
                wrong = f"trace and run have at most {MOST_AUDITED:,} bytes"
                raise Refused(MOST_AUDITED - before + 1, wrong, "the end of the run", LIMIT)
            reached = run_line(line, reached) if n > start + 1 else ("", 0, 0)
            ended(line, whole)
        except Refused as fault:
            return Fault(fault.answer, n, fault.column, fault.wrong, fault.expected)
        before += len(line) + 1
    if reached[0] != "end":
        return Fault(BAD, start + len(lines) + 1, 1, "the run breaks off", "one more line: a run's last line is `end`")
    return None


def run_line(line, reached):
    """Where this line leads in the order of a run: its kind, its list and its index in it."""
    if reached[0] == "end":
        raise Refused(1, "a line after `end`", "nothing: `end` is the last line")
    if line == "end":
        return ("end", 0, 0)
    fields = fields_of(line)
    kind = fields[0][1]
    if kind not in KINDS:
        raise Refused(1, f"{shown(kind)} begins no line of a run", f"one of {' '.join(KINDS)}, or `end`")
    kinds = list(KINDS)
    if reached[0] and kinds.index(kind) < kinds.index(reached[0]):
        raise Refused(1, f"`{kind}` after `{reached[0]}`", f"the order of a run: {', '.join(f'{KINDS[k]} ({k})' for k in kinds)}")
    matched = item(kind, fields, line)
    number_in_bits(matched)
    return in_order(kind, matched, reached)


def item(kind, fields, line):
    if kind == "e":
        return answered(fields, line)
    if kind == "r":
        return entered(fields, line)
    if kind == "p":
        name = word_at(fields, 4, line, MOVES)
        return match(MOVES[name], fields, line, (0, 4))
    return match(CELL if kind == "c" else REPORT, fields, line, (0,))


def word_at(fields, place, line, words):
    """The word at this place, which is one of these."""
    if len(fields) <= place:
        raise Refused(len(line) + 1, "the line breaks off", f"one of {' '.join(words)}")
    column, word = fields[place]
    if word not in words:
        raise Refused(column, f"{shown(word)} doesn't belong here", f"one of {' '.join(words)}")
    return word


def answered(fields, line):
    matched = match("e LINE THREAD", fields[:3], line, (0,))
    name = word_at(fields, 3, line, (*ANSWERS, *MAYBE_SLOT))
    form = ANSWERS.get(name) or (name if len(fields) == 4 else f"{name} SLOT FOUND")
    return matched + match(form, fields[3:], line, (0,))


def entered(fields, line):
    matched = match("r P J LINE", fields[:4], line, (0,))
    name = word_at(fields, 4, line, ACTS)
    form = ACTS[name]
    if name in ("fill", "give"):
        count = len(fields) - 4 - len(form.split())
        form += " SLOT@J" * min(max(count, 1), 16)
    return matched + match(form, fields[4:], line, (0,))


def number_in_bits(matched):
    """Each number of a run has the bits of its type."""
    for name, column, value in matched:
        most = {"CLASS": 169, "CELL": 63}.get(name, 2**64 - 1 if name in (*WIDE, "number") else 2**32 - 1)
        if len(value) > len(str(most)) or int(value) > most:
            raise Refused(column, f"{name} is {cut(value)}", f"0 to {most}")


def in_order(kind, matched, reached):
    """The place of this line in the order of its kind: journals, the pool and cells count their entries from 0."""
    if kind in "es":
        return (kind, 0, 0)
    values = {}
    for name, column, value in matched:
        values.setdefault(name, (column, int(value)))
    column, of = values["P" if kind == "r" else "CELL"] if kind in "rc" else (1, 0)
    if kind == "r" and of > 3:
        raise Refused(column, f"P is {of}", "0 to 3")
    last = reached[1:] if reached[0] == kind else (0, -1)
    if of < last[0]:
        raise Refused(column, f"{of} after {last[0]}", f"{last[0]} or more: the {KINDS[kind]} are in the order of this number")
    due = last[1] + 1 if of == last[0] else 0
    column, index = values["J"]
    if index != due:
        raise Refused(column, f"the index is {index}", f"{due}: each list counts from 0, one more on each line")
    return (kind, of, index)


# ---- a line by its form


def fields_of(line):
    """The fields of a line, each with its column; or what is wrong with the spaces between them."""
    for found in re.finditer(r"[^!-~ ]", line):
        raise Refused(found.start() + 1, *strange(line, found))
    if not line:
        raise Refused(1, "the line is blank", "no blank lines")
    if line.startswith("#"):
        raise Refused(1, "a comment", "no comments")
    for pattern, wrong in (("^ ", "a space at the beginning of the line"), ("  ", "two spaces"), (" $", "a space at the end of the line")):
        found = re.search(pattern, line)
        if found:
            raise Refused(found.end() if pattern == "  " else found.start() + 1, wrong, "one space between two fields, and no other")
    return [(found.start() + 1, found.group()) for found in re.finditer("[^ ]+", line)]


def strange(line, found):
    if found.start() == 0 and line.startswith("\xef\xbb\xbf"):
        return "a byte order mark", r"the head itself: sed '1s/^\xef\xbb\xbf//'"
    if found.group() == "\r" and found.end() == len(line):
        return "the line ends in CR LF", r"LF alone: sed 's/\r$//'"
    if found.group() == "\t":
        return "a tab", "one space"
    return f"the byte {ord(found.group()):02x}", "printable ASCII"


def match(form, fields, line, literal=()):
    """The numbers of a line of this form, each with its name and its column. The fields at `literal` are words."""
    matched = []
    forms = form.split()
    for place, (due, (column, text)) in enumerate(zip(forms, fields)):
        if place in literal or due.islower() or due == "1":
            if text != due:
                raise Refused(column, f"{shown(text)} doesn't belong here", f"`{due}`, in {form}")
        else:
            matched += field(due, column, text, form)
    if len(fields) < len(forms):
        raise Refused(len(line) + 1, f"{forms[len(fields)]} is missing", form)
    if len(fields) > len(forms):
        column, text = fields[len(forms)]
        raise Refused(column, f"{shown(text)} is a field too many", form)
    return matched


def field(due, column, text, form):
    """The numbers of one field of this form."""
    if due in ("GAVE", "FOUND") and form == CELL:
        return held(column, text)
    if due == "FIRST" and "take" in form and text == "none" or due == "POOL" and form.startswith("fill") and text == "-":
        return []
    if due == "CLASS" and form.startswith("full") and text == "direct":
        return []
    if due in WORDS:
        return word(due, column, text, form)
    if due.startswith("SLOT") and not due.startswith("SLOTS"):
        return slot(due, column, text, form)
    if due == "V":
        if text not in HEADS:
            raise Refused(column, f"{shown(text)} is no version", f"{', '.join(HEADS)}, in {form}")
        return [("V", column, text)]
    before, name = (due[0], due[1:]) if due[0].islower() else ("", due)
    if not text.startswith(before):
        raise Refused(column, f"{shown(text)} has no `{before}` in front", f"{due}, in {form}")
    number(name, column + len(before), text[len(before) :], f"{due}, in {form}")
    meaning = MEANINGS.get(due, name) if form in OPS.values() else name
    return [(meaning, column + len(before), text[len(before) :])]


def number(name, column, text, expected):
    """The text is a number: decimal, without sign and leading zero."""
    if not text:
        raise Refused(column, f"{name} is missing", expected)
    if text[0] in "+-":
        raise Refused(column, f"{name} has a sign", f"{expected}; a number has decimal digits alone")
    bad = re.search("[^0-9]", text)
    if bad:
        raise Refused(column + bad.start(), f"{shown(text)} is no number", f"{expected}; a number has decimal digits alone")
    if text[0] == "0" and len(text) > 1:
        raise Refused(column, f"{name} has a leading zero", f"{expected}; a number has none")


def word(name, column, text, form):
    """The text is a word: sixteen hexadecimal digits in lower case."""
    expected = f"{name}, in {form}: sixteen hexadecimal digits, 0 to 9 and a to f"
    bad = re.search("[^0-9a-f]", text)
    if bad:
        raise Refused(column + bad.start(), f"{bad.group()!r} is no digit of {name}", expected)
    if len(text) != 16:
        raise Refused(column, f"{name} has {len(text)} of 16 digits", expected)
    return []


def slot(due, column, text, form):
    """The text is a slot, `00004000.0`, or with a number after an `@`; its numbers."""
    name, at, behind = text.partition("@")
    found = re.fullmatch(r"[0-9a-f]{8}\.(.*)", name)
    if found is None:
        raise Refused(column, f"{shown(text)} is no slot", f"{due}, in {form}: a slot is eight hexadecimal digits, a dot and a number")
    number("the slot's entry", column + 9, found[1], f"{due}, in {form}")
    matched = [("the slot's entry", column + 9, found[1])]
    if "@" not in due:
        if at:
            raise Refused(column + len(name), "an `@`", f"{due}, in {form}")
        return matched
    if not at:
        raise Refused(column + len(name), "the number behind the slot is missing", f"{due}, in {form}")
    number("the slot's number", column + len(name) + 1, behind, f"{due}, in {form}")
    if due == "SLOT@0" and behind != "0":
        raise Refused(column + len(name) + 1, f"the slot's number is {cut(behind)}", f"{due}, in {form}")
    return [*matched, ("number", column + len(name) + 1, behind)]


def held(column, text):
    """The text is what a register or a cell holds."""
    kind, colon, name = text.partition(":")
    if text == "-":
        return []
    if kind not in ("own", "ref") or not colon:
        raise Refused(column, f"{shown(text)} doesn't belong here", f"`-`, `own:SLOT` or `ref:SLOT`, in {CELL}")
    return slot("SLOT", column + 4, name, CELL)


def shown(text):
    return f"`{cut(text)}`"


def cut(text):
    return text if len(text) <= CUT else f"{text[:CUT]}..."

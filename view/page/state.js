// The heap at one moment. All changes are told by the data; here they are laid on and taken off again, and nothing is decided.

const data = JSON.parse(document.getElementById("data").textContent);
const SUPER_PAGE = 2097152, PARTITION_PAGE = 16384;
const ROOT = 0, LIVE = 1, QUARANTINED = 2, CACHED = 3, GONE = 4, HELD = 5, NEVER = 6;
const PLACES = ["with the root", "live", "quarantined", "cached", "unmapped", "held", "never made"];
const STATES = ["none", "active", "empty", "decommitted", "full"];
const HANDLES = ["empty", "owner", "raw_ptr", "freed", "reset"];

// Rows of numbers by rising moment. `current` has for each thing its last row up to the moment reached, or -1.
class Log {
  constructor(flat, width, things, thing) {
    this.flat = Float64Array.from(flat);
    this.width = width;
    this.count = flat.length / width;
    this.thing = new Int32Array(this.count);
    this.before = new Int32Array(this.count);
    this.current = new Int32Array(things).fill(-1);
    this.last = new Int32Array(things).fill(-1);
    for (let row = 0; row < this.count; row++) {
      const id = (this.thing[row] = thing(this.flat, row * width));
      this.before[row] = this.last[id];
      this.last[id] = row;
    }
    this.done = 0;
    this.seen = null;
  }
  get(id, field) {
    return this.at(this.current[id], field);
  }
  at(row, field) {
    return row < 0 ? 0 : this.flat[row * this.width + field];
  }
  put(id, row) {
    if (this.seen) this.seen(id, this.current[id], row);
    this.current[id] = row;
  }
  moveTo(moment) {
    while (this.done < this.count && this.flat[this.done * this.width] <= moment) {
      this.put(this.thing[this.done], this.done);
      this.done++;
    }
    while (this.done > 0 && this.flat[(this.done - 1) * this.width] > moment) {
      this.done--;
      this.put(this.thing[this.done], this.before[this.done]);
    }
  }
  // All rows of a thing, first to last.
  rowsOf(id) {
    const rows = [];
    for (let row = this.last[id]; row >= 0; row = this.before[row]) rows.push(row);
    return rows.reverse();
  }
}

const second = (flat, at) => flat[at + 1];
const logs = {
  slots: new Log(data.changes.slots, 5, data.slots.length, second),
  spans: new Log(data.changes.spans, 7, data.spans.length, second),
  records: new Log(data.changes.records, 10, data.spans.length, second),
  supers: new Log(data.changes.supers, 4, data.region, second),
  registers: new Log(data.changes.registers, 5, data.threads * 64, (flat, at) => flat[at + 1] * 64 + flat[at + 2]),
  cells: new Log(data.changes.cells, 4, 64, second),
  sums: new Log(data.changes.sums, 12, 4, second),
};

// How many slots of a span are in each place, so that the map can be drawn without looking at each of them.
// `changed` counts what map and span show.
const placed = new Int32Array(data.spans.length * 6), changed = { map: 0, slots: 0 };
logs.spans.seen = logs.supers.seen = () => {
  changed.map++;
  changed.slots++;
};
logs.slots.seen = (id, from, to) => {
  const span = data.slots[id][3];
  changed.slots++;
  if (logs.slots.at(from, 2) !== logs.slots.at(to, 2) || from < 0 || to < 0) changed.map++;
  if (span < 0) return;
  if (from >= 0) placed[span * 6 + logs.slots.at(from, 2)]--;
  if (to >= 0) placed[span * 6 + logs.slots.at(to, 2)]++;
};

const moments = data.trace.length;
const lineOf = (moment) => (data.lines ? data.lines[moment] : moment + 1);
const momentOf = new Int32Array(moments + 1);
for (let moment = 0; moment < moments; moment++) momentOf[lineOf(moment)] = moment;

// The answer of each line, and the entries that name it.
const answers = [], entries = new Map();
const field = (text, n) => {
  let from = 0;
  for (; n > 0; n--) from = text.indexOf(" ", from) + 1;
  return from;
};
for (const text of data.run) {
  const kind = text[0];
  if (text === "run 1" || kind === "s") continue;
  if (kind === "e") answers[parseInt(text.slice(2), 10)] = text.slice(field(text, 3));
  else if (text !== "end") {
    const line = parseInt(text.slice(field(text, kind === "p" ? 2 : 3)), 10);
    if (entries.has(line)) entries.get(line).push(text);
    else entries.set(line, [text]);
  }
}

// The phase of each moment, counted from 1.
const phases = new Int32Array(moments), phaseStarts = [];
for (let moment = 0, phase = 1; moment < moments; moment++) {
  phases[moment] = phase;
  if (data.trace[lineOf(moment) - 1] === "phase") {
    phase++;
    phaseStarts.push(moment);
  }
}

// Slots by their span and number, spans by their super page, and direct maps.
const slotAt = new Map(), spansIn = Array.from({ length: data.region }, () => []), directs = [];
data.slots.forEach(([, , , span, number], slot) => (span < 0 ? directs.push(slot) : slotAt.set(span * 2048 + number, slot)));
data.spans.forEach(([start], span) => spansIn[Math.floor(start / SUPER_PAGE)].push(span));

// What one slot is now: its index or -1, its place, whose it is, and its count word.
function slotNow(span, number) {
  const slot = slotAt.get(span * 2048 + number);
  if (slot !== undefined && logs.slots.current[slot] >= 0) return namedNow(slot);
  const place = number < logs.spans.get(span, 5) ? ROOT : NEVER;
  return { slot: slot ?? -1, place, who: 0, word: 0 };
}
function namedNow(slot) {
  if (logs.slots.current[slot] < 0) return { slot, place: NEVER, who: 0, word: 0 };
  return { slot, place: logs.slots.get(slot, 2), who: logs.slots.get(slot, 3), word: logs.slots.get(slot, 4) };
}
const nameIn = (span, number) => {
  const [start, born, , , , size] = data.spans[span];
  return `${(start + number * size).toString(16).padStart(8, "0")}.${born}`;
};

// The direct map that covers a super page now, or -1.
function directOver(superPage) {
  let found = -1;
  for (const slot of directs) {
    const place = namedNow(slot).place;
    if (place === NEVER || place === GONE || Math.floor(data.slots[slot][0] / SUPER_PAGE) > superPage) continue;
    if (found < 0 || data.slots[slot][0] > data.slots[found][0]) found = slot;
  }
  return found;
}

// Registers and cells that hold a slot now.
function holders(slot) {
  const found = [];
  for (const [log, field] of [[logs.registers, 3], [logs.cells, 2]]) {
    for (let id = 0; id < log.current.length; id++) {
      const kind = log.get(id, field);
      if ((kind === 1 || kind === 2) && log.get(id, field + 1) === slot) {
        const where = log === logs.cells ? `cell c${id}` : `thread ${id >> 6} r${id & 63}`;
        found.push({ where, kind });
      }
    }
  }
  return found;
}

let moment = -1;
function moveTo(to) {
  moment = Math.max(0, Math.min(moments - 1, to));
  for (const log of Object.values(logs)) log.moveTo(moment);
}

// Numbers and lines in words.

const $ = (id) => document.getElementById(id);
const grouped = new Intl.NumberFormat("en-US");
const count = (n) => grouped.format(n);
const hex = (n, digits) => n.toString(16).padStart(digits, "0");
const plural = (n, word) => `${count(n)} ${word}${n === 1 ? "" : "s"}`;

// An element with a class, and texts or elements in it.
function make(tag, name, ...inside) {
  const made = document.createElement(tag);
  if (name) made.className = name;
  made.append(...inside);
  return made;
}

// The count word's parts.
const wordParts = (word) => ({ number: Math.floor(word / 2 ** 24), refs: Math.floor((word % 2 ** 24) / 2), bit: word % 2 });

// What a line of the trace does.
function gloss(line) {
  const text = data.trace[line - 1];
  if (line === 1) return "the head: super pages of the region, partitions, threads";
  if (text === "phase") return "the next phase begins";
  const [thread, op, ...of] = text.split(" ");
  const by = `thread ${thread} `;
  switch (op) {
    case "A": return `${by}allocates ${count(+of[2])} bytes from partition ${of[1].slice(1)}; ${of[0]} owns them`;
    case "C": return `${by}makes ${of[1]} a raw_ptr to what ${of[0]} holds`;
    case "R": return `${by}resets the raw_ptr in ${of[0]}`;
    case "F": return `${by}frees what ${of[0]} owns`;
    case "W": return `${by}writes ${of[1]} to each word of what ${of[0]} owns`;
    case "D": return `${by}reads word ${of[1]} of what ${of[0]} holds`;
    case "X": return `${by}exchanges what ${of[1]} holds with cell ${of[0]}`;
    default: return `${by}gives back what its caches hold, and empty spans are decommitted`;
  }
}

// Where a slot is, in words.
function placeIn(now, span) {
  if (now.place === CACHED) return `cached by thread ${now.who}`;
  if (now.place === HELD) return `held by thread ${now.who}, within a step`;
  if (now.place === ROOT && span >= 0 && logs.spans.get(span, 2) === 3) return "with the root, decommitted";
  return PLACES[now.place];
}

// Who holds a slot, in words.
function holderOf(now, partition, found) {
  const owner = found.find(({ kind }) => kind === 1);
  switch (now.place) {
    case LIVE: return owner ? `owned by ${owner.where}` : "owned";
    case QUARANTINED: return `nobody owns it; ${plural(wordParts(now.word).refs, "raw_ptr")} keep${wordParts(now.word).refs === 1 ? "s" : ""} it`;
    case CACHED: return `the cache of thread ${now.who}`;
    case HELD: return `thread ${now.who}, within a step`;
    case GONE: return "nobody: its super pages went back to the pool";
    case ROOT: return `the root of partition ${partition}`;
    default: return "nobody: it was never made";
  }
}

function classOf(span) {
  const [, , , , sizeClass, size, slots] = data.spans[span];
  return `class ${sizeClass}, ${plural(slots, "slot")} of ${count(size)} bytes`;
}

// The four words of a span's record, in hexadecimal, and what each says, from its first digit on.
function recordOf(span) {
  const half = (n) => logs.records.get(span, 2 + n), digits = (n) => hex(half(n), 8) + hex(half(n + 1), 8);
  const start = (n) => (half(n) ? hex(half(n), 8) : "none");
  const [state, out, provisioned, made, committed] = [2, 3, 4, 5, 6].map((at) => logs.spans.get(span, at));
  const pages = plural(committed, "system page"), sizeClass = data.spans[span][4];
  return [
    [digits(0), `${pages} committed · ${plural(provisioned, "slot")} provisioned · ${count(out)} out · state ${state}, ${STATES[state]} · class ${sizeClass}`],
    [digits(2), `${plural(made, "slot")} made · first free slot: ${start(3)}`],
    [digits(4), `next span of its list: ${start(4)} · the previous one: ${start(5)}`],
    [digits(6), `turn ${count(half(6) * 2 ** 32 + half(7))}`],
  ];
}

// A list of any length of which only what is in sight is drawn.
class Rows {
  constructor(box, titles, row, none) {
    Object.assign(this, { box, row, none, items: [] });
    this.titles = make("div", "titles");
    titles.forEach((title) => this.titles.append(make("span", title.startsWith(">") ? "right" : "", title.replace(">", ""))));
    this.space = make("div", "space");
    box.replaceChildren(this.titles, this.space);
    box.tabIndex = 0;
    [this.top, this.high] = [0, 0];
    box.addEventListener("scroll", () => {
      this.top = box.scrollTop;
      this.draw();
    });
    new ResizeObserver(() => {
      this.high = box.clientHeight;
      this.draw();
    }).observe(box);
  }
  // Shows these items, and scrolls to one of them where it is out of sight. The box is measured by its observers alone, as
  // to ask it here would lay out the page at each line.
  show(items, near) {
    this.items = items;
    const tall = `${24 * items.length}px`, room = Math.max(24, this.high - 48), at = 24 * near;
    if (this.space.style.height !== tall) this.space.style.height = tall;
    if (this.high && near >= 0 && (at < this.top || at > this.top + room)) this.box.scrollTop = this.top = Math.max(0, at - room / 2);
    this.draw();
  }
  draw() {
    const first = Math.max(0, Math.floor(this.top / 24) - 4);
    const last = Math.min(this.items.length, first + Math.ceil((this.high || 264) / 24) + 8);
    const drawn = [];
    for (let n = first; n < last; n++) {
      const row = this.row(this.items[n], n);
      row.style.top = `${24 * n}px`;
      drawn.push(row);
    }
    if (!this.items.length) drawn.push(make("div", "none", this.none));
    this.space.replaceChildren(...drawn);
    if (!this.items.length) this.space.style.height = "32px";
  }
}

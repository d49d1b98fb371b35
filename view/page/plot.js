// Bytes over the lines: one strip for each place with its own scale, and committed against reserved.

const STRIPS = [
  { name: "live", colour: "live", field: 3, slots: 2 },
  { name: "quarantined", colour: "quarantined", field: 5, slots: 4 },
  { name: "cached", colour: "cached", field: 7, slots: 6 },
  { name: "root", colour: "root", field: 9, slots: 8 },
  { name: "committed", colour: "ink", field: 10, over: 11 },
];
const STRIP = 25, THUMB = 8;
let drawn = null, partition = -1;

// One number of the sums over the moments, of one partition or of all.
function series(field) {
  const values = new Float64Array(moments), log = logs.sums, last = [0, 0, 0, 0];
  let row = 0, sum = 0;
  for (let at = 0; at < moments; at++) {
    for (; row < log.count && log.at(row, 0) <= at; row++) {
      const p = log.thing[row];
      if (partition >= 0 && p !== partition) continue;
      sum += log.at(row, field) - last[p];
      last[p] = log.at(row, field);
    }
    values[at] = sum;
  }
  return values;
}

function sumNow(field) {
  let sum = 0;
  for (let p = 0; p < 4; p++) if (partition < 0 || p === partition) sum += logs.sums.get(p, field);
  return sum;
}

function readSeries() {
  for (const strip of STRIPS) {
    strip.values = series(strip.field);
    strip.above = strip.over ? series(strip.over) : strip.values;
    strip.peak = strip.above.reduce((a, b) => Math.max(a, b), 0);
  }
  $("strip-peaks").replaceChildren(...STRIPS.map(({ peak }) => make("div", "", `peak ${count(peak)}`)));
}

// Where a moment stands from left to right, and the moment that stands there: as the slider's thumb has it.
const xOf = (at, width) => THUMB + (moments > 1 ? at / (moments - 1) : 0) * (width - 2 * THUMB);
const momentAt = (x, width) => Math.round(((x - THUMB) / (width - 2 * THUMB)) * (moments - 1));

function drawStrips() {
  const { ink, width } = pen($("plot"), STRIP * STRIPS.length);
  ink.fillStyle = colours.line;
  if (phaseStarts.length < width / 8) for (const at of phaseStarts) ink.fillRect(Math.round(xOf(at, width)), 0, 1, STRIP * STRIPS.length);
  STRIPS.forEach((strip, n) => {
    const floor = (n + 1) * STRIP - 3, scale = (STRIP - 7) / Math.max(1, strip.peak);
    ink.fillStyle = colours.line;
    ink.fillRect(0, floor, width, 1);
    if (strip.over) columns(ink, strip.above, width, floor, scale, colours.soft, true);
    columns(ink, strip.values, width, floor, scale, colours[strip.colour], false);
  });
}

// One column for each point of the screen: the greatest value of the moments that stand there.
function columns(ink, values, width, floor, scale, colour, outline) {
  ink.fillStyle = colour;
  let before = null;
  for (let x = 0; x < width; x++) {
    const from = Math.max(0, Math.ceil(momentsBefore(x, width))), to = Math.min(moments - 1, Math.floor(momentsBefore(x + 1, width)));
    let top = 0;
    for (let at = Math.min(from, to); at <= to; at++) if (at >= 0 && values[at] > top) top = values[at];
    if (x < THUMB - 1 || x > width - THUMB + 1) top = 0;
    const h = top > 0 ? Math.max(1, top * scale) : 0;
    if (!outline) ink.fillRect(x, floor - h, 1, h);
    else if (h) ink.fillRect(x, floor - Math.max(h, before ?? h), 1, Math.max(1, Math.abs(h - (before ?? h))));
    before = h;
  }
}
const momentsBefore = (x, width) => ((x - THUMB) / (width - 2 * THUMB)) * (moments - 1);

// The strips are drawn once; the line that stands on them moves.
function drawPlot() {
  const width = $("plot").clientWidth;
  if (drawn !== width) {
    drawn = width;
    drawStrips();
  }
  $("cursor").style.transform = `translateX(${Math.round(xOf(moment, width))}px)`;
  for (const strip of STRIPS) {
    const bytes = count(sumNow(strip.field));
    strip.told.textContent = strip.over ? `${bytes} of ${count(sumNow(strip.over))}` : `${plural(sumNow(strip.slots), "slot")} · ${bytes} B`;
  }
}

function makeStrips() {
  const names = STRIPS.map((strip) => {
    const mark = make("i");
    mark.style.background = `var(--${strip.colour})`;
    strip.told = make("span");
    const row = make("div", "", mark, make("b", "", strip.name), strip.told);
    row.title = strip.over ? "bytes committed, filled, of bytes reserved, the line above" : `slots and bytes ${strip.name}`;
    return row;
  });
  $("strip-names").replaceChildren(...names);
}

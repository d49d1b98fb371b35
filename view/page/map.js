// The map of super pages, and the slots of a span.

const GUTTER = 92, GAP = 4, ROW = data.region <= 2 ? 44 : data.region <= 8 ? 30 : 24;
let colours = {};

function readColours() {
  const style = getComputedStyle(document.documentElement);
  patterns = new Map();
  mapDrawn = spanDrawn = "";
  for (const name of ["paper", "card", "ink", "soft", "line", "faint", "live", "quarantined", "cached", "root", "focus", "on-dark", "class-light", "class-rich"])
    colours[name] = style.getPropertyValue(`--${name}`).trim();
}
const classColour = (sizeClass) => `hsl(${185 + Math.round(sizeClass * 2.3)} ${colours["class-rich"]} ${colours["class-light"]})`;

// A canvas of so many points, sharp on any screen.
function pen(canvas, height) {
  const width = canvas.clientWidth, ratio = devicePixelRatio || 1;
  if (canvas.width !== Math.round(width * ratio) || canvas.height !== Math.round(height * ratio)) {
    canvas.style.height = `${height}px`;
    canvas.width = Math.round(width * ratio);
    canvas.height = Math.round(height * ratio);
  }
  const ink = canvas.getContext("2d");
  ink.setTransform(ratio, 0, 0, ratio, 0, 0);
  ink.clearRect(0, 0, width, height);
  return { ink, width };
}

// Slanted lines in a box, as a pattern that is made once for each colour and step.
let patterns = new Map();
function hatch(ink, x, y, w, h, step, colour) {
  const wide = Math.round(step), key = `${wide} ${colour}`;
  if (!patterns.has(key)) patterns.set(key, slanted(ink, wide, colour));
  ink.fillStyle = patterns.get(key);
  ink.fillRect(x, y, w, h);
}
function slanted(ink, step, colour) {
  const ratio = devicePixelRatio || 1, tile = new OffscreenCanvas(step * ratio, step * ratio), on = tile.getContext("2d");
  on.scale(ratio, ratio);
  on.strokeStyle = colour;
  for (const at of [-step, 0, step]) {
    on.moveTo(at, step);
    on.lineTo(at + step, 0);
  }
  on.stroke();
  const made = ink.createPattern(tile, "repeat");
  made.setTransform(new DOMMatrix().scale(1 / ratio));
  return made;
}

const pageWidth = (width) => (width - GUTTER) / 128;

let mapDrawn = "", spanDrawn = "";
function drawMap() {
  const state = `${changed.map} ${chosen.span} ${chosen.slot} ${$("map").clientWidth}`;
  if (state === mapDrawn) return;
  mapDrawn = state;
  const { ink, width } = pen($("map"), data.region * (ROW + GAP));
  const cell = pageWidth(width);
  ink.textBaseline = "middle";
  for (let at = 0; at < data.region; at++) {
    const y = at * (ROW + GAP), use = logs.supers.get(at, 3);
    ink.font = "12px system-ui, sans-serif";
    ink.fillStyle = use ? colours.ink : colours.soft;
    ink.fillText(`${at}`, 0, y + ROW / 2);
    ink.fillStyle = colours.soft;
    ink.fillText(use ? `partition ${logs.supers.get(at, 2)}` : "free", 20, y + ROW / 2);
    if (use === 1) drawSpans(ink, at, GUTTER, y, cell);
    else if (use === 2) drawDirect(ink, at, GUTTER, y, cell);
    ink.strokeStyle = colours.line;
    ink.setLineDash(use ? [] : [2, 3]);
    ink.strokeRect(GUTTER + 0.5, y + 0.5, cell * 128 - 1, ROW - 1);
    ink.setLineDash([]);
  }
  drawChosen(ink, cell);
}

function drawSpans(ink, superPage, x, y, cell) {
  drawGuard(ink, x, y, cell);
  drawGuard(ink, x + 127 * cell, y, cell);
  ink.fillStyle = colours.soft;
  ink.fillRect(x + cell / 4, y, Math.max(1.5, cell / 4), ROW);
  for (const span of spansIn[superPage]) if (logs.spans.get(span, 2)) drawSpan(ink, span, x, y, cell);
}

const drawGuard = (ink, x, y, w) => hatch(ink, x, y, w, ROW, 3.5, colours.soft);

function drawSpan(ink, span, x0, y, cell) {
  const [start, , pages, , sizeClass, , slots] = data.spans[span];
  const x = x0 + ((start % SUPER_PAGE) / PARTITION_PAGE) * cell + 0.75, w = pages * cell - 1.5;
  const parts = [LIVE, CACHED, QUARANTINED].map((place) => [place, placed[span * 6 + place] / slots]);
  drawBox(ink, x, y + 2, w, ROW - 4, sizeClass, logs.spans.get(span, 2), parts);
  if (w >= 17) label(ink, `${sizeClass}`, x + w / 2, y + ROW / 2);
}

// A span as a box that is filled from below by the shares of its slots.
function drawBox(ink, x, y, w, h, sizeClass, state, parts) {
  const colour = classColour(sizeClass);
  ink.globalAlpha = state === 3 ? 0.06 : 0.16;
  ink.fillStyle = colour;
  ink.fillRect(x, y, w, h);
  ink.globalAlpha = 1;
  let top = y + h;
  for (const [place, share] of parts) {
    if (!share) continue;
    const high = Math.min(top - y, Math.max(3, Math.round(share * h)));
    top -= high;
    if (place === CACHED) hatch(ink, x, top, w, high, 3, colour);
    else {
      ink.fillStyle = place === LIVE ? colour : colours.quarantined;
      ink.fillRect(x, top, w, high);
    }
    if (place === QUARANTINED) hatch(ink, x, top, w, high, 3, colours.card);
  }
  ink.strokeStyle = colour;
  ink.setLineDash(state === 3 ? [2, 2] : []);
  ink.strokeRect(x, y, w, h);
  ink.setLineDash([]);
}

// A short text that is readable over any fill.
function label(ink, text, x, y) {
  ink.font = "600 10.5px system-ui, sans-serif";
  ink.textAlign = "center";
  ink.lineWidth = 3;
  ink.strokeStyle = colours.card;
  ink.strokeText(text, x, y);
  ink.fillStyle = colours.ink;
  ink.fillText(text, x, y);
  ink.textAlign = "left";
  ink.lineWidth = 1;
}

function drawDirect(ink, superPage, x, y, cell) {
  const slot = directOver(superPage);
  if (slot < 0) return;
  const [start, , length] = data.slots[slot], now = namedNow(slot);
  const from = Math.max(0, start - superPage * SUPER_PAGE) / PARTITION_PAGE;
  const to = Math.min(SUPER_PAGE, start + length - superPage * SUPER_PAGE) / PARTITION_PAGE;
  if (from > 0) drawGuard(ink, x, y, from * cell);
  if (to < 128) drawGuard(ink, x + Math.max(0, to) * cell, y, (128 - Math.max(0, to)) * cell);
  if (to <= from) return;
  ink.fillStyle = now.place === QUARANTINED ? colours.quarantined : colours.live;
  ink.globalAlpha = 0.75;
  ink.fillRect(x + from * cell, y + 2, (to - from) * cell, ROW - 4);
  ink.globalAlpha = 1;
  if (now.place === QUARANTINED) hatch(ink, x + from * cell, y + 2, (to - from) * cell, ROW - 4, 6, colours.card);
  label(ink, `direct map, ${count(length)} bytes`, x + ((from + to) / 2) * cell, y + ROW / 2);
}

function drawChosen(ink, cell) {
  let at, from, pages;
  if (chosen.span >= 0 && logs.spans.get(chosen.span, 2)) {
    const [start, , wide] = data.spans[chosen.span];
    [at, from, pages] = [Math.floor(start / SUPER_PAGE), (start % SUPER_PAGE) / PARTITION_PAGE, wide];
  } else if (chosen.span < 0 && chosen.slot >= 0 && isThere(namedNow(chosen.slot).place)) {
    const [start, , length] = data.slots[chosen.slot];
    [at, from, pages] = [Math.floor(start / SUPER_PAGE), 1, Math.min(127, length / PARTITION_PAGE)];
  } else return;
  ink.strokeStyle = colours.focus;
  ink.lineWidth = 2;
  ink.strokeRect(GUTTER + from * cell, at * (ROW + GAP) + 1, pages * cell, ROW - 2);
  ink.lineWidth = 1;
}

const isThere = (place) => place !== GONE && place !== NEVER;

// The grid of a span's slots: as large cells as fit.
function gridOf(span, width) {
  const slots = data.spans[span][6];
  for (let size = 46; size > 8; size--) {
    const columns = Math.max(1, Math.floor(width / size));
    if (Math.ceil(slots / columns) * size <= 240) return { size, columns: Math.min(columns, slots), rows: Math.ceil(slots / columns) };
  }
  return { size: 8, columns: Math.floor(width / 8), rows: Math.ceil(slots / Math.floor(width / 8)) };
}

function drawSlots() {
  const canvas = $("span");
  if (chosen.span < 0 || !logs.spans.get(chosen.span, 2)) {
    spanDrawn = "";
    return void pen(canvas, 1);
  }
  const state = `${changed.slots} ${chosen.span} ${chosen.number} ${canvas.clientWidth}`;
  if (state === spanDrawn) return;
  spanDrawn = state;
  const grid = gridOf(chosen.span, canvas.clientWidth), { ink } = pen(canvas, grid.rows * grid.size + 2);
  for (let number = 0; number < data.spans[chosen.span][6]; number++) {
    const x = 1 + (number % grid.columns) * grid.size, y = 1 + Math.floor(number / grid.columns) * grid.size;
    drawSlot(ink, x + 1, y + 1, grid.size - 2, slotNow(chosen.span, number), number >= logs.spans.get(chosen.span, 4));
    if (number === chosen.number) {
      ink.strokeStyle = colours.focus;
      ink.lineWidth = 2;
      ink.strokeRect(x, y, grid.size, grid.size);
      ink.lineWidth = 1;
    }
  }
}

// One slot: each place has its own shape.
function drawSlot(ink, x, y, w, now, decommitted) {
  if (now.place === LIVE || now.place === QUARANTINED) {
    ink.fillStyle = now.place === LIVE ? colours.live : colours.quarantined;
    ink.fillRect(x, y, w, w);
    if (now.place === QUARANTINED) hatch(ink, x, y, w, w, Math.max(3, w / 4), colours.card);
  } else if (now.place === CACHED || now.place === HELD) {
    ink.strokeStyle = colours.cached;
    ink.lineWidth = 1.5;
    ink.strokeRect(x + 0.75, y + 0.75, w - 1.5, w - 1.5);
    ink.lineWidth = 1;
    if (w >= 9) drawText(ink, `${now.who}`, x + w / 2, y + w / 2 + 0.5, Math.min(12, w - 2), colours.cached);
  } else {
    ink.strokeStyle = now.place === NEVER ? colours.faint : colours.line;
    ink.strokeRect(x + 0.5, y + 0.5, w - 1, w - 1);
    if (now.place === NEVER) return;
    const r = Math.max(1.2, Math.min(3, w / 8));
    ink.beginPath();
    ink.arc(x + w / 2, y + w / 2, r, 0, 7);
    ink.fillStyle = ink.strokeStyle = colours.root;
    decommitted ? ink.stroke() : ink.fill();
  }
}

function drawText(ink, text, x, y, size, colour) {
  ink.font = `${size}px system-ui, sans-serif`;
  ink.textAlign = "center";
  ink.textBaseline = "middle";
  ink.fillStyle = colour;
  ink.fillText(text, x, y);
  ink.textAlign = "left";
}

// A small picture, for legends and the panel: 15 points high.
function small(drawIt, wide = 22) {
  const canvas = make("canvas"), ratio = devicePixelRatio || 1;
  canvas.width = wide * ratio;
  canvas.height = 15 * ratio;
  canvas.setAttribute("aria-hidden", "true");
  const ink = canvas.getContext("2d");
  ink.scale(ratio, ratio);
  drawIt(ink, wide, 15);
  return canvas;
}
const swatch = (now, decommitted) => small((ink) => drawSlot(ink, 1, 1, 13, now, decommitted), 15);

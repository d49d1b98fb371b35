// The page as a whole: what is chosen, which line is shown, and the keys.

let follow = true, waiting = false;

// Draws everything once before the next frame.
function later() {
  if (waiting) return;
  waiting = true;
  requestAnimationFrame(() => {
    waiting = false;
    draw();
  });
}

function draw() {
  const line = lineOf(moment);
  $("slider").value = moment;
  $("slider").setAttribute("aria-valuetext", `line ${line}: ${data.trace[line - 1]}`);
  if (document.activeElement !== $("number")) $("number").value = line;
  drawPlot();
  drawMap();
  drawCaptions();
  drawSlots();
  drawLine();
  drawSlot_();
  quarantined.draw();
}

function go(to) {
  moveTo(to);
  if (follow) chooseOfLine();
  later();
}

function choose(what, keep = true) {
  chosen = { span: -1, number: -1, slot: -1, ...what };
  if (keep) {
    follow = false;
    $("follow").checked = false;
  }
  later();
}

// The slot that the line names: in its answer, else in the last of its entries.
const indexOf = new Map(data.names.map((name, slot) => [name, slot]));
function chooseOfLine() {
  const line = lineOf(moment);
  for (const text of [answers[line] ?? "", ...(entries.get(line) ?? [])]) {
    const name = text.match(/[0-9a-f]{8}\.\d+/);
    if (name && indexOf.has(name[0])) return choose(placeOf(indexOf.get(name[0])), false);
  }
}

// The next or the last moment at which something of a list stands.
function step(items, by, forward) {
  const n = reached(items, forward ? moment : moment - 1, by) - (forward ? 0 : 1);
  if (n >= 0 && n < items.length) go(by(items[n]));
  return items[n];
}

function stepQuarantine(forward) {
  const found = step(data.quarantine, (item) => item[1], forward);
  if (found) choose(placeOf(found[0]), !follow);
  if (found) quarantined.show(data.quarantine, data.quarantine.indexOf(found));
}

// The line that returned the chosen slot after its last free while referenced.
function goToReturn() {
  const found = data.quarantine.findLast(([slot, freed, , returned]) => slot === chosen.slot && freed <= moment && returned >= 0);
  if (found) go(found[3]);
}

// --- the pointer

function overMap(event) {
  const box = $("map").getBoundingClientRect();
  const at = Math.floor((event.clientY - box.top) / (ROW + GAP)), page = Math.floor((event.clientX - box.left - GUTTER) / pageWidth(box.width));
  return at >= 0 && at < data.region && page >= 0 && page < 128 ? { at, page } : null;
}

const spanOver = (at, page) =>
  spansIn[at].find((span) => {
    const first = (data.spans[span][0] % SUPER_PAGE) / PARTITION_PAGE;
    return logs.spans.get(span, 2) && first <= page && page < first + data.spans[span][2];
  }) ?? -1;

function tellPage(where) {
  const box = $("map-caption");
  if (!where) return void (box.textContent = "");
  const { at, page } = where, use = logs.supers.get(at, 3), span = use === 1 ? spanOver(at, page) : -1;
  let told = "free";
  if (use === 2) told = `of the direct map ${data.names[directOver(at)]}`;
  else if (use === 1 && page === 0) told = "guard pages, and one system page of metadata, with the records of spans";
  else if (use === 1 && page === 127) told = "guard";
  else if (use === 1 && span < 0) told = "payload, in no span";
  else if (span >= 0) {
    const n = (place) => count(placed[span * 6 + place]);
    told = `span at ${hex(data.spans[span][0], 8)}, ${classOf(span)}, ${STATES[logs.spans.get(span, 2)]}: ${n(LIVE)} live, ${n(QUARANTINED)} quarantined, ${n(CACHED)} cached`;
  }
  box.textContent = `super page ${at}, partition page ${page}: ${told}`;
}

function choosePage({ at, page }) {
  const span = spanOver(at, page);
  if (span >= 0) choose({ span, number: 0, slot: slotNow(span, 0).slot });
  else if (logs.supers.get(at, 3) === 2 && directOver(at) >= 0) choose({ slot: directOver(at) });
}

function slotOver(event) {
  if (chosen.span < 0) return -1;
  const box = $("span").getBoundingClientRect(), grid = gridOf(chosen.span, box.width);
  const column = Math.floor((event.clientX - box.left - 1) / grid.size), row = Math.floor((event.clientY - box.top - 1) / grid.size);
  const number = row * grid.columns + column;
  return column >= 0 && column < grid.columns && row >= 0 && number < data.spans[chosen.span][6] ? number : -1;
}

const chooseNumber = (number, keep) => choose({ span: chosen.span, number, slot: slotNow(chosen.span, number).slot }, keep);

function pointers() {
  let kept = null;
  $("map").addEventListener("pointermove", (event) => tellPage(overMap(event)));
  $("map").addEventListener("pointerleave", () => tellPage(null));
  $("map").addEventListener("click", (event) => overMap(event) && choosePage(overMap(event)));
  $("span").addEventListener("pointermove", (event) => {
    const number = slotOver(event);
    if (number < 0) return;
    kept ??= { ...chosen };
    chooseNumber(number, false);
  });
  $("span").addEventListener("pointerleave", () => {
    if (kept) choose(kept, false);
    kept = null;
  });
  $("span").addEventListener("click", (event) => {
    kept = null;
    if (slotOver(event) >= 0) chooseNumber(slotOver(event));
  });
  const drag = (event) => event.buttons & 1 && go(momentAt(event.clientX - $("plot").getBoundingClientRect().left, $("plot").clientWidth));
  $("plot").addEventListener("pointerdown", (event) => {
    $("plot").setPointerCapture(event.pointerId);
    drag(event);
  });
  $("plot").addEventListener("pointermove", drag);
}

// --- the keys

const there = () => data.spans.map((_, span) => span).filter((span) => logs.spans.get(span, 2)).sort((a, b) => data.spans[a][0] - data.spans[b][0]);

function mapKey(key) {
  const spans = there(), now = spans.indexOf(chosen.span);
  const by = { ArrowRight: 1, ArrowLeft: -1 }[key];
  let next = by ? spans[Math.max(0, Math.min(spans.length - 1, now + by))] : undefined;
  if (key === "ArrowDown") next = spans.find((span) => Math.floor(data.spans[span][0] / SUPER_PAGE) > superOf(chosen.span));
  if (key === "ArrowUp") next = spans.findLast((span) => Math.floor(data.spans[span][0] / SUPER_PAGE) < superOf(chosen.span));
  if (next === undefined) return ["ArrowUp", "ArrowDown"].includes(key);
  choose({ span: next, number: 0, slot: slotNow(next, 0).slot });
  tellPage({ at: superOf(next), page: (data.spans[next][0] % SUPER_PAGE) / PARTITION_PAGE });
  return true;
}
const superOf = (span) => (span < 0 ? -1 : Math.floor(data.spans[span][0] / SUPER_PAGE));

function slotKey(key) {
  if (chosen.span < 0) return false;
  const { columns } = gridOf(chosen.span, $("span").clientWidth);
  const by = { ArrowRight: 1, ArrowLeft: -1, ArrowDown: columns, ArrowUp: -columns }[key];
  if (!by) return false;
  const number = chosen.number + by;
  if (number >= 0 && number < data.spans[chosen.span][6]) chooseNumber(number);
  return true;
}

function lineKey(event) {
  const far = Math.max(1, Math.round(moments / 100));
  const by = { ArrowRight: event.shiftKey ? 10 : 1, ArrowLeft: event.shiftKey ? -10 : -1, PageDown: far, PageUp: -far }[event.key];
  if (by) go(moment + by);
  else if (event.key === "Home") go(0);
  else if (event.key === "End") go(moments - 1);
  else if (event.key === "]" || event.key === "[") step(historyItems, (item) => item.at, event.key === "]");
  else if (event.key === "q" || event.key === "Q") stepQuarantine(event.key === "q");
  else if (event.key === "r") goToReturn();
  else if (event.key === "f") setFollow(!follow);
  else return false;
  return true;
}

function setFollow(on) {
  follow = $("follow").checked = on;
  if (on) chooseOfLine();
  later();
}

function keys() {
  document.addEventListener("keydown", (event) => {
    if (event.ctrlKey || event.metaKey || event.altKey) return;
    const focus = document.activeElement?.id;
    if (focus === "number" || focus === "partition") return;
    if (["history", "quarantine"].includes(focus) && ["PageUp", "PageDown", "Home", "End"].includes(event.key)) return;
    const taken = (focus === "map" && mapKey(event.key)) || (focus === "span" && slotKey(event.key)) || lineKey(event);
    if (taken) event.preventDefault();
  });
  $("slider").addEventListener("input", () => go(+$("slider").value));
  $("back").addEventListener("click", () => go(moment - 1));
  $("on").addEventListener("click", () => go(moment + 1));
  $("number").addEventListener("change", () => {
    const line = Math.round(+$("number").value.replaceAll(",", ""));
    if (line >= 1 && line <= moments) go(momentOf[line]);
    $("number").blur();
  });
  $("follow").addEventListener("change", () => setFollow($("follow").checked));
  $("partition").addEventListener("change", () => {
    partition = +$("partition").value;
    redraw();
  });
}

// --- the start

function redraw() {
  readColours();
  readSeries();
  drawn = null;
  legends();
  later();
}

function themes() {
  const dark = matchMedia("(prefers-color-scheme: dark)");
  const set = (name) => {
    document.documentElement.dataset.theme = name;
    redraw();
  };
  set(dark.matches ? "dark" : "light");
  dark.addEventListener("change", () => set(dark.matches ? "dark" : "light"));
  $("theme").addEventListener("click", () => set(document.documentElement.dataset.theme === "dark" ? "light" : "dark"));
}

function start() {
  $("head").textContent = data.trace[0];
  $("about").textContent = `${plural(moments, "line")}, ${plural(phaseStarts.length + 1, "phase")}${data.lines ? ", in an order of the steps" : ""}`;
  $("of").textContent = `of ${count(moments)}`;
  $("slider").max = moments - 1;
  $("order").textContent = data.lines
    ? "The threads of this run stepped beside each other: its lines stand in an order that its journals and count words allow."
    : "The lines stand in the order of the trace.";
  const all = [["-1", "all partitions"], ...Array.from({ length: data.partitions }, (_, p) => [`${p}`, `partition ${p}`])];
  $("partition").replaceChildren(...all.map(([value, text]) => new Option(text, value)));
  moveTo(0);
  makeStrips();
  makeHistory();
  makeQuarantine();
  themes();
  keys();
  pointers();
  new ResizeObserver(() => later()).observe(document.body);
  go(data.quarantine.length ? data.quarantine[0][1] : moments - 1);
}
start();

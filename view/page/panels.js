// The line, the slot with its history, and the slots that were freed while referenced.

// What is looked at: a slot of a span by its number, a direct map by its slot, or nothing (-1).
let chosen = { span: -1, number: -1, slot: -1 };
let history = null, quarantined = null, historyOf = null, historyItems = [];

const chosenNow = () => (chosen.span >= 0 ? slotNow(chosen.span, chosen.number) : chosen.slot >= 0 ? namedNow(chosen.slot) : null);
const pair = (name, ...told) => [make("dt", "", name), make("dd", "", ...told)];

function drawLine() {
  const line = lineOf(moment), text = data.trace[line - 1];
  const box = $("line");
  const told = make("dl");
  if (answers[line] !== undefined) told.append(...pair("answer", make("span", "mono", answers[line])));
  told.append(...pair("phase", `${phases[moment]} of ${phaseStarts.length + 1}`));
  const named = entries.get(line) ?? [];
  told.append(...pair("entries", named.length ? make("div", "entries", named.join("\n")) : make("span", "quiet", "none")));
  box.replaceChildren(make("div", "op mono", text), make("p", "gloss", gloss(line)), told);
}

function drawSlot_() {
  const now = chosenNow(), box = $("slot");
  if (!now || (chosen.span >= 0 && !logs.spans.get(chosen.span, 2))) {
    box.replaceChildren(make("p", "quiet", "Point at a slot, or choose one with the arrow keys in the map or the span."));
    $("history").hidden = true;
    return;
  }
  $("history").hidden = false;
  const partition = chosen.span >= 0 ? data.owners[chosen.span] : data.slots[chosen.slot][1];
  const name = now.slot >= 0 ? data.names[now.slot] : nameIn(chosen.span, chosen.number);
  const found = now.slot >= 0 ? holders(now.slot) : [];
  const { number, refs, bit } = wordParts(now.word), digits = hex(now.word, 16);
  const word = make("span", "word", make("u", "", digits.slice(0, 10)), make("u", "", digits.slice(10)));
  const tag = make("span", "tag", swatch(now, now.place === ROOT && placeIn(now, chosen.span).endsWith("decommitted")), placeIn(now, chosen.span));
  const length = chosen.span >= 0 ? data.spans[chosen.span][5] : data.slots[chosen.slot][2];
  const told = make("dl");
  told.append(
    ...pair("name", make("span", "mono", name)),
    ...pair("place", tag),
    ...pair("partition", `${partition}`),
    ...pair("class", chosen.span >= 0 ? `${data.spans[chosen.span][4]}: ${count(length)} bytes, ${count(length - 8)} usable` : `direct map: ${count(length)} bytes, ${count(length - 8)} usable`),
    ...pair("count word", word, make("div", "quiet", `number ${count(number)} · ${plural(refs, "raw_ptr")} · bit ${bit}`)),
    ...pair("holder", holderOf(now, partition, found)),
    ...pair("pointers", found.length ? found.map(({ where, kind }) => `${where} (${HANDLES[kind]})`).join(", ") : make("span", "quiet", "none")),
  );
  box.replaceChildren(told);
  drawHistory(now.slot);
}

// One row for each line that names the slot.
function readHistory(slot) {
  const items = [];
  for (const row of slot >= 0 ? logs.slots.rowsOf(slot) : []) {
    const at = logs.slots.at(row, 0);
    if (items.length && items[items.length - 1].at === at) items[items.length - 1].row = row;
    else items.push({ at, row });
  }
  return items;
}

// How many of the items, which are by moment, are at most at this moment.
function reached(items, at, by) {
  let from = 0, to = items.length;
  while (from < to) {
    const middle = (from + to) >> 1;
    if (by(items[middle]) <= at) from = middle + 1;
    else to = middle;
  }
  return from;
}

function drawHistory(slot) {
  if (historyOf !== slot) {
    historyOf = slot;
    historyItems = readHistory(slot);
  }
  history.show(historyItems, reached(historyItems, moment, (item) => item.at) - 1);
}

// What a line tells of a slot: its answer where that names the slot, else the entry of a journal that does.
function toldOf(line, name) {
  const [answer, slot] = (answers[line] ?? "").split(" ", 2);
  if (slot === name) return answer;
  const entry = (entries.get(line) ?? []).find((text) => text[0] === "r" && text.includes(`${name}@`));
  return entry ? entry.split(" ", 5)[4] : answer;
}

function historyRow({ at, row }) {
  const line = lineOf(at), { number, refs, bit } = wordParts(logs.slots.at(row, 4));
  const place = { place: logs.slots.at(row, 2), who: logs.slots.at(row, 3), word: 0 };
  const told = place.place === CACHED ? `cached ${place.who}` : place.place === ROOT ? "root" : PLACES[place.place];
  const made = make("div", "row", make("span", "right", count(line)), make("span", "", data.trace[line - 1]));
  made.append(make("span", "", toldOf(line, data.names[historyOf])), make("span", "", told), make("span", "right", `${number} · ${refs} · ${bit}`));
  made.title = `line ${line}: ${answers[line] ?? ""}`;
  if (at === moment) made.classList.add("now");
  if (at > moment) made.classList.add("later");
  made.addEventListener("click", () => go(at));
  return made;
}

function makeHistory() {
  history = new Rows($("history"), [">line", "op", "answer", "then", ">k · refs · bit"], historyRow, "Nothing happened to this slot yet.");
}

// The quarantine list: every slot that was freed while a raw_ptr pointed to it.
function makeQuarantine() {
  const bytes = data.quarantine.reduce((sum, [slot]) => sum + data.slots[slot][2], 0);
  const kept = data.quarantine.filter((item) => item[3] < 0).length;
  $("quarantine-sum").textContent = data.quarantine.length
    ? `${count(data.quarantine.length)} ${data.quarantine.length === 1 ? "time" : "times"}, ${count(bytes)} bytes in all; ${count(kept)} not returned at the end`
    : "";
  const titles = ["slot", ">partition", ">bytes", ">freed at", ">raw_ptrs left", ">returned at", ">lines between", "used on lines", "returned by"];
  quarantined = new Rows($("quarantine"), titles, quarantineRow, "No slot was freed while a raw_ptr pointed to it.");
  for (const wide of [1, 6]) quarantined.titles.children[wide].classList.add("wide");
  quarantined.show(data.quarantine, -1);
}

// The lines on which a slot was used after its free, the first of many.
function usedOn(uses) {
  const told = uses.slice(0, 12).map((at) => count(lineOf(at))).join(", ");
  return uses.length > 12 ? `${told} and ${count(uses.length - 12)} more` : told || "–";
}

// A row leads to the free, its lines of use to the first of them, and the fields of the return to the line that returned the slot.
function quarantineRow([slot, freed, refs, returned, uses]) {
  const [, partition, length] = data.slots[slot], back = returned >= 0;
  const made = make("div", "row");
  const cell = (name, text, to) => {
    const told = make("span", name, text);
    told.addEventListener("click", () => {
      choose(placeOf(slot), !follow);
      go(to);
    });
    made.append(told);
  };
  cell("", data.names[slot], freed);
  cell("right wide", count(partition), freed);
  cell("right", count(length), freed);
  cell("right", count(lineOf(freed)), freed);
  cell("right", count(refs), freed);
  cell("right", back ? count(lineOf(returned)) : "–", back ? returned : freed);
  cell("right wide", back ? count(returned - freed - 1) : "–", back ? returned : freed);
  cell("", usedOn(uses), uses[0] ?? freed);
  cell("", back ? data.trace[lineOf(returned) - 1] : "still in quarantine at the end", back ? returned : freed);
  if (freed <= moment && (!back || moment < returned)) made.classList.add("now");
  if (freed > moment) made.classList.add("later");
  return made;
}

const placeOf = (slot) => ({ span: data.slots[slot][3], number: data.slots[slot][4], slot });

// The record of the chosen span.
function drawRecord(span) {
  $("record").replaceChildren(...recordOf(span).flatMap(([digits, told]) => [make("dt", "mono", digits), make("dd", "", told)]));
  $("record-title").textContent = `Its record: 32 bytes at ${hex(data.spans[span][7], 8)}, in the metadata page of the super page`;
}

// The captions of map and span.
function drawCaptions() {
  const span = chosen.span;
  $("record-box").hidden = span < 0 || !logs.spans.get(span, 2);
  if ($("record-box").hidden) {
    $("span-title").textContent = chosen.slot >= 0 ? "Direct map" : "Span";
    $("span-legend").hidden = true;
    $("span-caption").textContent = chosen.slot >= 0 ? `${data.names[chosen.slot]}: ${count(data.slots[chosen.slot][2])} bytes between guards` : "no span is chosen";
    return;
  }
  const [start, , pages, system, , , slots] = data.spans[span], get = (field) => count(logs.spans.get(span, field));
  const from = (start % SUPER_PAGE) / PARTITION_PAGE;
  $("span-legend").hidden = false;
  $("span-title").textContent = `Span at ${hex(start, 8)}`;
  $("span-caption").textContent =
    `super page ${Math.floor(start / SUPER_PAGE)}, partition page${pages > 1 ? `s ${from} to ${from + pages - 1}` : ` ${from}`} · ${classOf(span)} · ` +
    `${STATES[logs.spans.get(span, 2)]} · ${get(3)} of ${count(slots)} out, ${get(4)} provisioned, ${get(5)} made · ` +
    `${get(6)} of ${count(system)} system pages committed`;
  drawRecord(span);
}

function legends() {
  const one = (place, told, who, decommitted) => make("span", "", swatch({ place, who, word: 0 }, decommitted), told);
  $("span-legend").replaceChildren(
    one(LIVE, "live"), one(QUARANTINED, "quarantined"), one(CACHED, "cached, with the thread", 0), one(ROOT, "with the root"),
    one(ROOT, "not committed", 0, true), one(NEVER, "never made"),
  );
  const span = (told, state, ...parts) => make("span", "", small((ink, w, h) => drawBox(ink, 1, 1, w - 2, h - 2, 8, state, parts)), told);
  $("map-legend").replaceChildren(
    make("span", "", small((ink, w, h) => hatch(ink, 0, 0, w, h, 3.5, colours.soft)), "guard"),
    make("span", "", small((ink, w, h) => (ink.fillStyle = colours.soft) && ink.fillRect(w / 2 - 2, 0, 3, h)), "metadata"),
    span("full", 4, [LIVE, 1]), span("active: live, cached, quarantined", 1, [LIVE, 0.3], [CACHED, 0.3], [QUARANTINED, 0.25]),
    span("empty", 2), span("decommitted", 3), make("span", "", "The tint is the size class."),
  );
}

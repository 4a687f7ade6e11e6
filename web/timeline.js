"use strict";
// How a run is drawn: events run to the right, and what lasts is a bar.

const LINE = 14, CHARACTER = 6.65;
const escaped = (s) => String(s).replace(/[&<>"]/g, (c) => ({ "&": "&amp;", "<": "&lt;", ">": "&gt;", '"': "&quot;" })[c]);
const put = (x, y, text, more = "") => `<text x="${x}" y="${y}"${more}>${escaped(text)}</text>`;
const box = (x, y, w, h, fill, more = "") => `<rect x="${x}" y="${y}" width="${w}" height="${h}" fill="${fill}"${more}/>`;
const path = (d, colour, more = "") => `<path d="${d}" stroke="${colour}" fill="none"${more}/>`;
const titled = (title) => `<title>${escaped(title)}</title>`;
const circle = (x, y, r, fill, more = "") => `<circle cx="${x}" cy="${y}" r="${r}" fill="${fill}"${more}/>`;
const SOFT = ' fill="var(--soft)"', BOLD = ' font-weight="bold"', CENTRED = ' text-anchor="middle"';
const isFitting = (text, width) => text.length * CHARACTER <= width;
const cut = (text, width) => (isFitting(text, width) ? text : `${text.slice(0, Math.max(0, Math.floor(width / CHARACTER) - 1))}…`);
const opened = (width, height, more = "", left = 0, zoom = 1) =>
  `<svg xmlns="http://www.w3.org/2000/svg"${more} width="${width * zoom}" height="${height * zoom}"` +
  ` viewBox="${left} 0 ${width} ${height}"` +
  ` font-size="11" font-family="ui-monospace, SFMono-Regular, 'DejaVu Sans Mono', Menlo, Consolas, monospace" fill="var(--ink)">`;

const WIDE = 70;
const leftOf = (k) => k * WIDE, middleOf = (k) => k * WIDE + WIDE / 2;
// Where each row begins and how high it is; a run without a fault has neither the rows of lateness nor of records.
const TIMELINE_ROWS = (() => {
  const rows = {}, high = { event: 22, instruction: 80, late: 22, unit: 82, memory: 52, waiting: 58, record: 15 * LINE + 22 };
  let y = 2;
  for (const [name, h] of Object.entries(high)) {
    rows[name] = { y, h };
    y += h + 4;
  }
  return { ...rows, end: y };
})();
const endOf = (name) => TIMELINE_ROWS[name].y + TIMELINE_ROWS[name].h;
const isInRow = (name, y) => y >= TIMELINE_ROWS[name].y && y < endOf(name);
const SLOT_END = endOf("instruction"), EVENTS_END = endOf("waiting");
const barTop = (lane) => TIMELINE_ROWS.unit.y + 4 + lane * 26, BAR = 22;
const waitTop = (lane) => TIMELINE_ROWS.waiting.y + 3 + lane * 18, WAIT = 15;
const recordTop = (n) => TIMELINE_ROWS.record.y + 20 + n * LINE + (n > 4 ? 5 : 0) + (n > 7 ? 5 : 0) + (n > 10 ? 5 : 0);
const RECORD_WIDE = 2 * WIDE - 10;

const TIMELINE_NAMES = {
  event: ["event"], instruction: ["instruction", "issued,", "held or", "passed over"], late: ["lateness"],
  unit: ["transactions", "oldest first"], memory: ["memory"], waiting: ["registers", "that wait"], record: ["record"],
};

function timelineNames(run) {
  const names = Object.keys(TIMELINE_NAMES).filter((name) => run.faults.length || (name !== "late" && name !== "record"));
  return names.map((name) => TIMELINE_NAMES[name].map((text, n) =>
    put(8, TIMELINE_ROWS[name].y + 15 + n * 13, text, n ? SOFT : BOLD)).join("")).join("");
}

// An instruction's text in lines that fit into a column.
function brokenText(text) {
  const width = Math.floor((WIDE - 12) / CHARACTER), lines = [""];
  const [mnemonic, operands = ""] = text.split(/ (.*)/);
  for (const piece of operands.match(/[^,[\]]+[,[\]]*|[[\]]/g) ?? []) {
    for (const part of piece.match(new RegExp(`.{1,${width}}`, "g"))) {
      if ((lines.at(-1) + part).length > width) lines.push("");
      lines[lines.length - 1] += part;
    }
  }
  return [mnemonic, ...lines.filter(Boolean)];
}

// What stands in the cell of an event: its lines, its fill and its edge.
function cellOf(run, k) {
  const c = run.columns[k], next = () => addressAt(run.columns, k);
  const held = (why) => ({ lines: [next(), "held", why], fill: "--idle", edge: "--faint", dash: "3 2" });
  const result = () => {
    const [bar] = c.ended;
    if (!bar) return [];
    return bar.write ? [few(addressOf(bar)), datumOf(bar)] : [`r${bar.dreg}`, bar.dreg === 0 ? "" : bar.got ?? ""];
  };
  switch (c.kind) {
    case "start": return { lines: [], fill: "none" };
    case "issue": return { lines: [c.parts[0], ...brokenText(c.parts[1]), ...inHexadecimal(c.parts[1])], fill: "--band", edge: "--line" };
    case "output": return { lines: [c.parts[0], "trap", "out", byteShown(c.parts[1])], fill: "--band", edge: "--line" };
    case "bubble": return { lines: [next(), "bubble", "passed", "over"], fill: "--bubble", edge: "--bubble-line", dash: "4 2" };
    case "busy": return held(`${c.parts[0]} waits`);
    case "full": return held("unit full");
    case "sync": return held("sync");
    case "end": return { lines: [c.parts[0].slice(-8), "end", c.parts[0].replace(/ at .*/, "")], fill: "--evict", edge: "--line" };
    case "answer": return { lines: ["answer", ...result()], fill: "--answer", edge: "--answer-line" };
    case "fault": return { lines: [`fault ${c.parts[0]}`, ...pageOf(c.fault)], fill: "--fault", edge: "--fault-line" };
    case "evict": return { lines: ["all pages", "absent"], fill: "--evict", edge: "--line" };
    default: return { lines: ["idle"], fill: "none" };
  }
}

// The page that a fault found absent.
function pageOf(fault) {
  const address = fault.bars.length ? value(fault.bars[0].dma) : null;
  return address === null ? [] : [few(hex(address - (address % 4096))), "absent"];
}
const isOfMemory = (c) => c.letter === "r" || c.letter === "e";

const PILL = ' rx="5" stroke="var(--line)"';
function timelineColumn(run, k) {
  const c = run.columns[k], x = middleOf(k), row = isOfMemory(c) ? "memory" : "instruction", { y, h } = TIMELINE_ROWS[row];
  const head = c.kind === "start" ? "start" : `${c.number} ${c.letter}`, cell = cellOf(run, k), half = head.length * CHARACTER / 2;
  const pill = c.letter && box(x + half - CHARACTER - 4, TIMELINE_ROWS.event.y + 3, CHARACTER + 8, 16, "none", PILL);
  const out = ['<g class="column">', pill ?? "", put(x, TIMELINE_ROWS.event.y + 15, head, CENTRED + BOLD)];
  if (cell.fill !== "none") {
    const dash = cell.dash ? ` stroke-dasharray="${cell.dash}"` : "";
    out.push(box(leftOf(k) + 3, y, WIDE - 6, h, `var(${cell.fill})`, ` rx="4" stroke="var(${cell.edge})"${dash}`));
  }
  cell.lines.forEach((text, n) => {
    const isAddress = n === 0 && row === "instruction", isMnemonic = n === 1 && c.kind === "issue";
    const how = CENTRED + (cell.fill === "none" || isAddress ? SOFT : "") + (isMnemonic ? BOLD : "");
    out.push(put(x, y + 15 + n * LINE, cut(text, WIDE - 6), how));
  });
  return out.join("") + "</g>";
}

const barLeft = (bar) => (bar.isCut ? leftOf(bar.from) : leftOf(bar.from) + 5);
// A bar ends in the middle of an event, or where the picture does.
const barRight = (run, bar) => Math.min(middleOf(bar.to), leftOf(run.columns.length));

// The longest of some texts for a bar for which there is room. A bar that reaches into several parts of the picture has
// its text in those that have most of it.
function fitting(texts, x, right, from, to, margin) {
  const start = Math.max(x, from), room = Math.min(right, to) - start;
  const isHere = room >= (right - x) / 2 || room >= 4 * WIDE;
  return { start, text: (isHere && texts.find((text) => isFitting(text, room - margin))) || "" };
}

const END_MARKS = {
  answered: (x, y) => circle(x, y, 5.5, "var(--answer-line)", ' stroke="var(--paper)" stroke-width="1.5"'),
  faulted: (x, y) => circle(x, y, 8, "var(--fault-line)", ' stroke="var(--paper)" stroke-width="1.5"') +
    path(`M${x - 3} ${y - 3}l6 6m0 -6l-6 6`, "var(--paper)", ' stroke-width="2"'),
  finished: (x, y) => path(`M${x - 7} ${y}l7 -7l7 7l-7 7z`, "var(--fault-line)", ' style="fill: var(--paper)" stroke-width="2.5"'),
  pending: () => "",
};

function drawBar(run, bar, from, to) {
  const y = barTop(bar.lane), x = barLeft(bar), right = barRight(run, bar), name = bar.write ? "store" : "load";
  const texts = [told(bar), toldOfBar(bar), toldInShort(bar), name];
  const { start, text } = fitting(texts, x, right, from, to, 18);
  const out = [`<g class="bar">`, titled(`${told(bar)}: ${bar.how}`)];
  out.push(box(x, y, right - x, BAR, `var(--${name})`, ` rx="${bar.isCut ? 0 : 5}" stroke="var(--${name}-line)"`));
  out.push(put(start + 7, y + 15, text), END_MARKS[bar.how](right, y + BAR / 2));
  return out.join("") + "</g>";
}

// From the instruction down to its bar, and from the end of the bar to what memory did. Bars are drawn over these.
function drawStems(run, bar) {
  const y = barTop(bar.lane), right = barRight(run, bar), out = [];
  if (!bar.isCut) out.push(path(`M${middleOf(bar.from)} ${SLOT_END}V${y}`, `var(--${toldOfOne(bar)}-line)`, ' stroke-width="1.5"'));
  const down = `M${right} ${y + BAR}V${TIMELINE_ROWS.memory.y}`;
  if (bar.how === "answered") out.push(path(down, "var(--answer-line)", ' stroke-width="1.5"'));
  return out.join("");
}

function drawWait(run, wait, from, to) {
  const y = waitTop(wait.lane), x = barLeft(wait), right = barRight(run, wait);
  const { start, text } = fitting([`r${wait.dreg} waits`, `r${wait.dreg}`], x, right, from, to, 10);
  const edge = ' rx="3" stroke="var(--load-line)" stroke-dasharray="5 2"';
  return `<g class="wait">${box(x, y, right - x, WAIT, "var(--paper)", edge)}` +
    `${put(start + 7, y + 11.5, text, ' fill="var(--load-line)"')}</g>`;
}

function drawLate(fault) {
  if (!fault.late) return "";
  const { from, events, retired } = fault.late, x = middleOf(from), right = middleOf(fault.at), y = TIMELINE_ROWS.late.y + 11;
  const short = `${many(events, "event")} late`, long = retired ? `${short}, ${many(retired, "instruction")} retired since` : short;
  const text = [long, short, `${events} late`].find((each) => isFitting(each, right - x - 26)) ?? "";
  const wide = text.length * CHARACTER + 10, centre = (x + right) / 2;
  const arrow = path(`M${x} ${y - 6}v12M${x} ${y}H${right - 2}m-6 -4l6 4l-6 4`, "var(--fault-line)", ' stroke-width="1.5"');
  const label = box(centre - wide / 2, y - 8, wide, 16, "var(--paper)") +
    put(centre, y + 4, text, `${CENTRED}${BOLD} fill="var(--fault-line)"`);
  return `<g class="late" data-fault="${fault.at}">${arrow}${text && label}</g>`;
}

// The lines from the words of a record to the bars and slots that they tell of: where each starts, the track on which it
// runs up, and where it ends. Those of bars run up beside the line of the fault, those of slots at the edge of their column.
function threadsOf(fault) {
  if (!fault.record) return [];
  const x = middleOf(fault.at), right = x + 12 + 13 * CHARACTER, out = [];
  const lead = (n, from, track, to, colour) => out.push({ from, y: recordTop(n) + 8, track, to, colour });
  fault.bars.forEach((bar, k) => [0, 1, 2].forEach((word) =>
    lead(5 + 3 * k + word, x, x - 11 - 6 * k, barTop(bar.lane) + BAR - 1, `--${toldOfOne(bar)}-line`)));
  fault.waits.forEach((wait) => lead(4, x, x - 29, waitTop(wait.lane) + WAIT / 2, "--load-line"));
  if (fault.last !== null) lead(1, x, leftOf(fault.last) + WIDE - 8, SLOT_END + 1, "--bubble-line");
  [fault.next, fault.afterNext].forEach((slot, n) => {
    if (slot === null) return;
    const track = slot === fault.at + 1 ? leftOf(slot) + WIDE - 4 : leftOf(slot) + 6 + 5 * n;
    lead(2 + n, right, track, SLOT_END + 1, "--bubble-line");
  });
  return out;
}

// What lies below the bars: the line of a fault, the box of its record, and the lines from its words.
function drawFault(fault) {
  const x = middleOf(fault.at), { y: top, h } = TIMELINE_ROWS.record;
  const threads = threadsOf(fault).map(({ from, y, track, to, colour }) => {
    const way = `M${from} ${y}H${track}V${to}`;
    return path(way, "var(--paper)", ' stroke-width="3.5"') + path(way, `var(${colour})`, ' stroke-width="1.3"');
  });
  return path(`M${x} ${endOf("event")}V${top + h}`, "var(--fault-line)", ' stroke-width="2"') +
    box(x, top, RECORD_WIDE, h, "var(--fault)", ' stroke="var(--fault-line)" rx="3"') +
    `<g data-fault="${fault.at}">${threads.join("")}</g>`;
}

// What lies above them: the words of the record, and a dot where each line ends.
function drawRecord(fault) {
  const x = middleOf(fault.at) + 10, { record } = fault;
  const out = [put(x, TIMELINE_ROWS.record.y + 15, `record ${fault.number}`, BOLD)];
  if (!record) out.push(put(x, recordTop(0) + 12, "not in the text"));
  else RECORD.map((r) => ROWS[r]).forEach((row, n) =>
    out.push(put(x, recordTop(n) + 12, recordText(row, record), isEmptyStage(row, record) ? SOFT : "")));
  for (const { track, to, colour } of threadsOf(fault)) out.push(circle(track, to, 3, `var(${colour})`, ' stroke="var(--paper)"'));
  return `<g class="record" data-fault="${fault.at}">${out.join("")}</g>`;
}

// The columns into which a fault reaches, by its lateness, its record and the lines to its slots.
function reachOf({ at, last, late, next, afterNext }) {
  return [Math.min(last ?? at, late?.from ?? at), Math.max(at + 2, next ?? 0, afterNext ?? 0)];
}

// What lies below all: the columns of faults, and a line after each fifth event.
function ground(run, first, last) {
  const out = [], top = TIMELINE_ROWS.event.y;
  for (let k = first; k < last; k++) {
    const { fault, number } = run.columns[k];
    if (fault) out.push(box(leftOf(k) + 1, top, WIDE - 2, EVENTS_END - top, "var(--fault)", ' opacity=".45"'));
    const down = `M${leftOf(k + 1)} ${endOf("event")}V${EVENTS_END}`;
    if (number % 5 === 0) out.push(path(down, "var(--line)", ' stroke-dasharray="1 3"'));
  }
  return out.join("");
}

// The columns from one on, with all that reaches into them.
function timelinePart(run, first, last) {
  const from = leftOf(first), to = leftOf(last), bars = overlapping(run.bars, first, last);
  const faults = run.faults.filter((fault) => {
    const [begin, end] = reachOf(fault);
    return begin < last && end >= first;
  });
  const out = [ground(run, first, last), ...faults.map(drawFault)];
  out.push(...bars.map((bar) => drawStems(run, bar)), ...bars.map((bar) => drawBar(run, bar, from, to)));
  out.push(...overlapping(run.waits, first, last).map((wait) => drawWait(run, wait, from, to)));
  out.push(...faults.map(drawLate), ...faults.map(drawRecord));
  for (let k = first; k < last; k++) out.push(timelineColumn(run, k));
  return out.join("");
}

// The bars that reach into the columns from one on; bars begin in order and at most three overlap.
function overlapping(bars, first, last) {
  return bars.slice(Math.max(0, firstFrom(bars, first) - 3), firstFrom(bars, last)).filter((bar) => bar.to >= first);
}

const timelineHeight = (run) => (run.faults.length ? TIMELINE_ROWS.end : TIMELINE_ROWS.record.y + 4);

// The boxes around what a word tells of.
function timelinePlaces(run, k, r, isOfRecord) {
  const row = ROWS[r], at = isOfRecord ? k - 1 : k, out = [];
  const around = (bar, y, h) => ({ x: barLeft(bar) - 2, y: y - 2, w: barRight(run, bar) - barLeft(bar) + 4, h: h + 4 });
  if (isOfRecord) out.push({ x: middleOf(k) + 4, y: recordTop(RECORD.indexOf(r)), w: RECORD_WIDE - 8, h: LINE + 2 });
  const bar = row.stage === undefined ? null : pendingAt(run, at)[row.stage];
  if (bar) out.push(around(bar, barTop(bar.lane), BAR));
  if (row.kind === "scoreboard") {
    const waits = pendingAt(run, at).filter((each) => !each.write && each.dreg !== 0);
    out.push(...waits.map((wait) => around(wait, waitTop(wait.lane), WAIT)));
  }
  if (row.kind === "pointer") {
    const next = following(run.columns, at), { y, h } = TIMELINE_ROWS.instruction;
    const slot = { XIP: lastRetired(run.columns, at), NIP: next, FIP: next && following(run.columns, next) }[row.name];
    if (slot !== null) out.push({ x: leftOf(slot) + 1, y: y - 2, w: WIDE - 2, h: h + 4 });
  }
  return out;
}

// The word that stands at a place, or tells of the bar there.
function timelineWordAt(run, k, x, y) {
  const isFault = Boolean(run.columns[k].fault?.record);
  if (isInRow("record", y)) {
    const fault = run.faults.find((each) => each.record && x >= middleOf(each.at) && x < middleOf(each.at) + RECORD_WIDE);
    const n = RECORD.findIndex((_, m) => y >= recordTop(m) && y < recordTop(m) + LINE);
    return fault && n >= 0 ? { k: fault.at, r: RECORD[n], isOfRecord: true } : null;
  }
  if (isInRow("waiting", y)) return { k, r: ROW.SSBR, isOfRecord: isFault };
  if (!isInRow("unit", y)) return { k, r: ROW.XIP };
  // Where a bar ends its transaction is no longer pending: it stood there an event before, or stands in the record.
  const bar = overlapping(run.bars, k, k + 1).find(({ lane }) => y >= barTop(lane) && y < barTop(lane) + BAR);
  if (!bar) return { k, r: ROW.DMT0 };
  const at = Math.min(k, bar.to - 1), r = ROW[`DMT${pendingAt(run, at).indexOf(bar)}`];
  return isFault ? { k, r, isOfRecord: true } : { k: at, r };
}

// What the marks of the timeline mean.
const KEY = (() => {
  const swatch = (fill, edge, text, dash = "") =>
    `<span><svg width="26" height="14">${box(1, 1, 24, 12, `var(${fill})`, ` rx="3" stroke="var(${edge})"${dash}`)}</svg>` +
    ` ${text}</span>`;
  const end = (how, text) => `<span><svg width="18" height="18">${END_MARKS[how](9, 9)}</svg> ${text}</span>`;
  return swatch("--load", "--load-line", "load, from its issue to its end") +
    swatch("--store", "--store-line", "store, from its issue to its end") +
    end("answered", "answered by memory") + end("faulted", "met an absent page") + end("finished", "finished by the monitor") +
    swatch("--idle", "--faint", "held", ' stroke-dasharray="3 2"') +
    swatch("--bubble", "--bubble-line", "a bubble passed over", ' stroke-dasharray="4 2"');
})();

// How many columns a part of the picture and a page of paper have, how wide the names of the rows are, how far a record reaches.
const PART = 13, NAMES = 92, RECORD_REACH = WIDE / 2 + RECORD_WIDE + 4;

// The whole picture as one SVG for a file, in the colours of paper.
function drawing(run) {
  const width = run.columns.length * WIDE + 8, height = timelineHeight(run), probe = document.createElement("div");
  probe.className = "paper";
  document.body.append(probe);
  const colours = getComputedStyle(probe);
  const svg = opened(width + NAMES, height, "", -NAMES) + box(-NAMES, 0, width + NAMES, height, "var(--paper)") +
    `<g transform="translate(${-NAMES} 0)">${timelineNames(run)}</g>` + timelinePart(run, 0, run.columns.length) + "</svg>";
  const painted = svg.replace(/var\((--[a-z-]+)\)/g, (_, name) => colours.getPropertyValue(name).trim());
  probe.remove();
  return painted;
}

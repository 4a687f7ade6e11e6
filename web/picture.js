"use strict";
// The picture of a run on the page: its parts, the thin bar over it, what marks the chosen event, zoom, and what hides the rest.

const find = (id) => document.getElementById(id);
// What is shown: a run, the example that it is of, the chosen event with its word, and the wrong way that is compared.
const shown = { run: null, example: null, k: 0, r: ROW.XIP, isOfRecord: false, way: "oldest", zoom: 1 };
const ZOOMS = [.35, .5, .7, 1, 1.4, 2];

const ROOM = `
  <div class="row screen" id="steps" role="toolbar" aria-label="Events">
    <button id="before" type="button" title="the fault before (p)" aria-keyshortcuts="p">&#8592; fault</button>
    <button id="back" type="button" title="the event before (left arrow)" aria-label="The event before">&#8592;</button>
    <label>Event <input id="event" type="number" aria-describedby="count"></label> <span id="count" class="soft"></span>
    <button id="forth" type="button" title="the next event (right arrow)" aria-label="The next event">&#8594;</button>
    <button id="next" type="button" title="the next fault (n)" aria-keyshortcuts="n">fault &#8594;</button>
    <span id="letters" class="pair" role="group" aria-label="The letter of this event" hidden></span>
    <label title="so that a class may guess"><input id="hide" type="checkbox"> hide what comes later</label>
    <button id="to-wrong" type="button">Wrong monitors &#8595;</button>
  </div>
  <p id="sentence" role="status" aria-live="polite"></p>
  <canvas id="overview" role="img" aria-label="The whole run: its faults, its bars, and what is in view"></canvas>
  <div id="picture" tabindex="0" role="application" aria-describedby="sentence keys"
    aria-label="Picture of the run. Arrow keys choose an event and a word, n and p lead to faults."></div>
  <div class="row screen" id="ways">
    <span class="pair" role="group" aria-label="Zoom">
      <button id="smaller" type="button" aria-label="Smaller">&#8722;</button><button id="larger" type="button" aria-label="Larger">+</button>
    </span>
    <button id="save-picture" type="button">Save as SVG</button>
    <button id="print" type="button">Print</button>
    <span id="keys" class="soft">Keys: <kbd>&#8592;</kbd> <kbd>&#8594;</kbd> events, <kbd>&#8593;</kbd> <kbd>&#8595;</kbd> words,
      <kbd>n</kbd> <kbd>p</kbd> faults, <kbd>Home</kbd> <kbd>End</kbd></span>
  </div>
  <p id="key"></p>`;

const countParts = () => (shown.run ? Math.ceil(shown.run.columns.length / PART) : 0);
const FEW_PARTS = 30; // So many are all drawn, for a search in the page; of more those alone that are in view.
const parts = new Map();

// The picture stands in parts of some columns. Those that come into view are drawn at once.
function layPicture() {
  const { run, zoom } = shown, high = timelineHeight(run), scrolled = find("picture").scrollLeft;
  parts.clear();
  const width = (run.columns.length * WIDE + NAMES) * zoom;
  find("picture").innerHTML = `<div id="strip" style="width: ${width}px; height: ${high * zoom}px">` +
    `${opened(NAMES, high, ' id="names"', 0, zoom)}<g id="named">${timelineNames(run)}</g></svg><div id="marks"></div></div>`;
  find("picture").scrollLeft = scrolled;
  find("smaller").disabled = zoom === ZOOMS[0];
  find("larger").disabled = zoom === ZOOMS.at(-1);
  if (countParts() <= FEW_PARTS) drawAll();
  drawSeen();
}

function drawPart(n) {
  if (n < 0 || n >= countParts() || parts.has(n)) return;
  const { run, zoom } = shown, first = n * PART, last = Math.min(first + PART, run.columns.length), high = timelineHeight(run);
  const place = document.createElement("div"), width = (last - first) * WIDE;
  place.className = "part";
  place.style = `left: ${(NAMES + first * WIDE) * zoom}px; width: ${width * zoom}px; height: ${high * zoom}px`;
  place.innerHTML = opened(NAMES, high, ' class="names" aria-hidden="true"', 0, zoom) + '<use href="#named"/></svg>' +
    opened(width, high, "", first * WIDE, zoom) + timelinePart(run, first, last) + "</svg>";
  parts.set(n, place);
  const before = [...parts.keys()].filter((other) => other < n).sort((a, b) => b - a)[0];
  (before === undefined ? find("names") : parts.get(before)).after(place);
  if (find("hide").checked) veil(place);
}

function drawSeen() {
  if (!shown.run) return;
  const wide = PART * WIDE * shown.zoom, { scrollLeft, clientWidth } = find("picture");
  const first = Math.floor(scrollLeft / wide) - 1, last = Math.ceil((scrollLeft + clientWidth) / wide) + 1;
  for (let n = first; n < last; n++) drawPart(n);
  if (countParts() > FEW_PARTS) {
    for (const [n, place] of parts) {
      if (n >= first - 4 && n < last + 4) continue;
      place.remove();
      parts.delete(n);
    }
  }
  drawOverview();
}

// All parts, for print, and for whoever looks at all of them.
function drawAll() {
  for (let n = 0; n < countParts(); n++) drawPart(n);
}

// The last column that may be seen: while the rest is hidden, the chosen one.
const lastSeen = () => (find("hide").checked ? shown.k : shown.run.columns.length - 1);

// For each pixel of a width: how many faults its columns have, whether a load or a store is pending there.
function overviewOf(run, wide) {
  const all = run.columns.length, faults = new Float32Array(wide), lanes = new Uint8Array(3 * wide), last = lastSeen();
  const at = (k) => Math.min(wide - 1, Math.floor(k / all * wide));
  for (const { at: k } of run.faults) if (k <= last) faults[at(k + .5)]++;
  for (const bar of run.bars) {
    const from = bar.lane * wide;
    if (bar.from <= last) lanes.fill(bar.write ? 2 : 1, from + at(bar.from), from + at(Math.min(bar.to, last) + .999) + 1);
  }
  return { faults, lanes, most: faults.reduce((a, b) => Math.max(a, b), 1) };
}

let overviewOfRun = null;
// The thin bar over the run. A fault is a line from top to bottom; where they are many, columns at its foot say how many.
function drawOverview() {
  const canvas = find("overview"), { run, k } = shown, wide = canvas.clientWidth, high = 32, ratio = window.devicePixelRatio || 1;
  if (!run || !wide) return;
  canvas.width = wide * ratio;
  canvas.height = high * ratio;
  const to = canvas.getContext("2d"), style = getComputedStyle(canvas), colour = (name) => style.getPropertyValue(name).trim();
  const fill = (name, x, y, w, h) => { to.fillStyle = colour(name); to.fillRect(x, y, w, h); };
  to.scale(ratio, ratio);
  const key = `${wide} ${lastSeen()}`;
  if (overviewOfRun?.run !== run || overviewOfRun.key !== key) overviewOfRun = { run, key, ...overviewOf(run, wide) };
  const { faults, lanes, most } = overviewOfRun, isFew = run.faults.length < wide / 8;
  for (let lane = 0; lane < 3; lane++) {
    for (let x = 0, end; x < wide; x = end) {
      const is = lanes[lane * wide + x];
      for (end = x + 1; end < wide && lanes[lane * wide + end] === is; end++);
      if (is) fill(is === 2 ? "--store-line" : "--load-line", x, 5 + lane * 6, end - x, 4);
    }
  }
  for (let x = 0; x < wide; x++) {
    const up = 2 + 8 * faults[x] / most;
    if (faults[x]) fill("--fault-line", ...(isFew ? [x - 3, 0, 7, high] : [x, high - up, 1, up]));
  }
  const { scrollLeft, clientWidth } = find("picture"), whole = run.columns.length * WIDE * shown.zoom;
  to.globalAlpha = .2;
  fill("--mark", scrollLeft / whole * wide, 0, Math.min(1, (clientWidth - NAMES * shown.zoom) / whole) * wide, high);
  to.globalAlpha = 1;
  fill("--ink", Math.floor((k + .5) / run.columns.length * wide), 0, 1.5, high);
}

function mark() {
  const { run, k, r, isOfRecord, zoom } = shown;
  const around = ({ x, y, w, h }, name) => `<div class="${name}" style="left: ${(x + NAMES) * zoom}px; top: ${y * zoom}px; ` +
    `width: ${w * zoom}px; height: ${h * zoom}px"></div>`;
  const hidden = find("hide").checked ? laterOf(run, k) : [], words = timelinePlaces(run, k, r, isOfRecord);
  const event = around({ x: k * WIDE, y: 0, w: WIDE, h: EVENTS_END + 4 }, "event");
  find("marks").innerHTML = [...hidden.map((place) => around(place, "later")), event,
    ...words.map((place) => around(place, "word"))].join("");
  if (find("hide").checked) veil(find("picture"));
}

// Hides what leads from a fault that comes later back to what is seen.
function veil(place) {
  for (const each of place.querySelectorAll("[data-fault]")) {
    each.style.visibility = find("hide").checked && Number(each.dataset.fault) > shown.k ? "hidden" : "";
  }
}

// What comes after an event, so that a class may guess: all to its right, but for the record of a fault that is reached.
function laterOf(run, k) {
  const x = (k + 1) * WIDE, end = run.columns.length * WIDE, top = EVENTS_END + 4;
  const reached = run.faults.filter((fault) => fault.at <= k).at(-1);
  const from = Math.max(x, reached ? reached.at * WIDE + RECORD_REACH : 0), below = timelineHeight(run) - top;
  return [{ x, y: 0, w: end - x, h: top }, { x: from, y: top, w: end - from, h: below }].filter(({ w, h }) => w > 0 && h > 0);
}

// Brings an event into view, some columns from the edge.
function leadTo(k) {
  const { zoom } = shown, wide = WIDE * zoom, picture = find("picture"), x = k * wide, room = picture.clientWidth - NAMES * zoom;
  const ahead = Math.min(2 * wide, Math.max(0, (room - wide) / 2));
  if (x < picture.scrollLeft + ahead * .5 || x + wide > picture.scrollLeft + room - ahead * .5) {
    picture.scrollLeft = Math.max(0, x - (room - wide) / 2);
  }
  drawSeen();
}

function chooseZoom(step) {
  shown.zoom = ZOOMS[Math.max(0, Math.min(ZOOMS.length - 1, ZOOMS.indexOf(shown.zoom) + step))];
  layPicture();
  choose(shown.k);
}

// A file with what is handed over, for the reader to keep.
function saveFile(name, content, type) {
  const link = document.createElement("a");
  link.href = URL.createObjectURL(new Blob([content], { type }));
  link.download = name;
  link.click();
  URL.revokeObjectURL(link.href);
}

// On the thin bar the event below the pointer is chosen.
function followOverview(event) {
  if (!shown.run || (event.buttons === 0 && event.type === "pointermove")) return;
  const { left, width } = find("overview").getBoundingClientRect(), all = shown.run.columns.length;
  chooseEvent(Math.max(0, Math.min(all - 1, Math.floor((event.clientX - left) / width * all))));
}

// A click chooses what is below it, by its place.
function clickPicture(event) {
  if (!shown.run || find("names").contains(event.target)) return;
  const corner = find("strip").getBoundingClientRect(), { zoom } = shown;
  const x = (event.clientX - corner.left) / zoom - NAMES, y = (event.clientY - corner.top) / zoom, k = Math.floor(x / WIDE);
  if (k < 0 || k >= shown.run.columns.length) return;
  const word = timelineWordAt(shown.run, k, x, y);
  if (word) choose(word.k, word.r, Boolean(word.isOfRecord));
}

function beginPicture(place) {
  place.innerHTML = ROOM;
  find("key").innerHTML = KEY;
  find("smaller").addEventListener("click", () => chooseZoom(-1));
  find("larger").addEventListener("click", () => chooseZoom(1));
  find("overview").addEventListener("pointerdown", followOverview);
  find("overview").addEventListener("pointermove", followOverview);
  find("picture").addEventListener("click", clickPicture);
  find("picture").addEventListener("scroll", drawSeen);
  window.addEventListener("resize", drawSeen);
  window.addEventListener("beforeprint", drawAll);
  matchMedia("(prefers-color-scheme: dark)").addEventListener("change", drawOverview);
  find("print").addEventListener("click", () => window.print());
  find("save-picture").addEventListener("click", () => {
    if (shown.run) saveFile(`${shown.example?.key ?? "run"}.svg`, drawing(shown.run) + "\n", "image/svg+xml");
  });
}

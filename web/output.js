"use strict";
// What a program wrote, as text: a screenful at a time where it is long, so that nothing freezes, and saved as it is.

const SCREENFUL = 2000; // lines that are laid at once

// A text in a place of the page, by its lines.
class Pages {
  constructor(name) {
    this.place = find(name);
    this.place.innerHTML = `<div class="row" hidden><button type="button" data-turn="-1">Earlier lines</button>
      <span role="status"></span><button type="button" data-turn="1">Later lines</button><label>Line <input type="number" min="1"></label></div>
      <pre tabindex="0" aria-label="${this.place.getAttribute("aria-label") ?? name}"></pre>`;
    [this.turns, this.pre] = this.place.children;
    this.turns.addEventListener("click", ({ target: { dataset: { turn } } }) => { if (turn) this.lay(this.first + turn * SCREENFUL); });
    this.turns.addEventListener("change", ({ target }) => this.lay(Math.floor((Number(target.value) - 1) / SCREENFUL) * SCREENFUL));
    this.marked = [];
    this.set(new Uint8Array());
  }
  // The bytes are parted into lines without their text being made.
  set(bytes) {
    this.bytes = bytes;
    this.starts = [0];
    for (let at = bytes.indexOf(10); at >= 0 && at + 1 < bytes.length; at = bytes.indexOf(10, at + 1)) this.starts.push(at + 1);
    this.lay(0);
  }
  lay(first) {
    const count = this.starts.length;
    this.first = Math.max(0, Math.min(first, Math.floor((count - 1) / SCREENFUL) * SCREENFUL));
    const last = Math.min(count, this.first + SCREENFUL), shown = (n) => n.toLocaleString("en");
    const text = textOf(this.bytes.subarray(this.starts[this.first], this.starts[last] ?? this.bytes.length));
    this.turns.hidden = count <= SCREENFUL;
    this.turns.querySelector("span").textContent = `lines ${shown(this.first + 1)} to ${shown(last)} of ${shown(count)}`;
    const [back, forth] = this.turns.querySelectorAll("button");
    back.disabled = this.first === 0;
    forth.disabled = last === count;
    if (this.marked.length) {
      const lines = escaped(text).split("\n");
      for (const at of this.marked) lines[at - this.first] = `<mark>${lines[at - this.first]}</mark>`;
      this.pre.innerHTML = lines.join("\n");
      this.pre.querySelector("mark")?.scrollIntoView({ block: "nearest" });
    } else this.pre.textContent = text;
  }
  // Marks some lines, counted from 0.
  mark(lines) {
    if (String(lines) === String(this.marked)) return;
    this.marked = lines;
    this.lay(lines.length ? Math.floor(lines[0] / SCREENFUL) * SCREENFUL : this.first);
  }
}

// The bytes that a program put out, as a report has them, in letters.
function putOut(report) {
  const bytes = /^out ([0-9A-F]+)$/m.exec(report)?.[1].match(/../g).map(value) ?? [];
  return bytes.map((n) => (n > 31 && n < 127 ? String.fromCharCode(n) : n === 10 ? "↵\n" : "·")).join("");
}

// The labels and rows of a listing: the line of the source that each address belongs to, the line of the listing, and the names.
function readListing(text) {
  const rows = new Map(), labels = new Map(), lines = text.split("\n"), end = lines.indexOf("labels");
  lines.slice(0, end < 0 ? lines.length : end).forEach((each, at) => {
    const found = /^ *(\d+) {2}([0-9A-F]{8}) {2}[0-9A-F]{8} /.exec(each);
    if (found) rows.set(found[2], { line: Number(found[1]), at });
  });
  for (const each of end < 0 ? [] : lines.slice(end + 1)) {
    const found = /^([0-9A-F]{8}) (?:text|data|at) (\S+) /.exec(each);
    if (found && !labels.has(found[2])) labels.set(found[2], found[1]);
    if (each === "numbers") break;
  }
  return { rows, labels, names: new Map([...labels].map(([name, address]) => [address, name])) };
}

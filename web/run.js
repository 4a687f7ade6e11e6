"use strict";
// A run: a column for what stood before, if it is there, and one for each event; a bar for each transaction and for each
// register while it waits; the faults with what their records tell of; and a sentence for each event.
// A column has number, letter, kind and parts as lines.js reads them, the accesses that it began, the registers that it gave a
// value, and at a fault the record. `pipe`, `registers` and `carry` are what stands after it, where that is known.

function runOf(columns) {
  const run = { columns, bars: barsOf(columns), faults: [] };
  run.waits = run.bars.filter((bar) => !bar.write && bar.dreg !== 0);
  columns.forEach((c, k) => { if (c.kind === "fault") run.faults.push(c.fault = faultOf(run, k)); });
  return run;
}

// Transactions are done in the order of their issue: an answer ends the oldest, a fault all.
function barsOf(columns) {
  const bars = [], pending = [];
  columns.forEach((c, k) => {
    c.ended = pending.splice(0, c.kind === "fault" ? 3 : c.kind === "answer" ? 1 : 0);
    const how = (n) => (c.kind !== "fault" ? "answered" : n === 0 ? "faulted" : "finished");
    c.ended.forEach((bar, n) => Object.assign(bar, { to: k, how: how(n) }));
    c.begun = c.accesses.map((access) => {
      const last = pending.at(-1), lane = last ? (last.lane + 1) % 3 : 0;
      const bar = { ...access, from: k, to: columns.length, how: "pending", lane, isCut: c.kind !== "issue" };
      bars.push(bar);
      pending.push(bar);
      return bar;
    });
    c.became ??= c.ended.filter((bar) => !bar.write && bar.dreg !== 0).map((bar) => [bar.dreg, bar.got]);
    c.pending = pending.length;
  });
  return bars;
}

const isRetiring = (c) => c.kind === "issue" || c.kind === "output";
const isPassing = (c) => isRetiring(c) || c.kind === "bubble" || c.kind === "end";

// The next event that issues an instruction, passes a bubble over or ends the program.
function following(columns, k) {
  for (let n = k + 1; n < columns.length; n++) if (isPassing(columns[n])) return n;
  return null;
}

// The instruction retired last up to an event.
function lastRetired(columns, k) {
  while (k >= 0 && !isRetiring(columns[k])) k--;
  return k < 0 ? null : k;
}

// The address of the instruction that an event issued, of the bubble that it passed over, or of what it tried: an instruction
// that is held is tried again later. It is "" where the run is cut before that.
function addressAt(columns, k) {
  const c = columns[k];
  if (isRetiring(c)) return c.parts[0];
  if (c.kind === "end") return c.parts[0].slice(-8);
  if (c.kind === "bubble") {
    const branch = lastRetired(columns, k);
    return branch === null ? "" : hex(value(columns[branch].parts[0]) + 4);
  }
  const next = following(columns, k);
  return next === null ? "" : addressAt(columns, next);
}

// A fault: its record, the bars that it ends, how late it is, and the columns of the three slots.
function faultOf(run, k) {
  const { columns } = run, c = columns[k], bars = c.ended, next = following(columns, k), oldest = bars[0];
  const fault = {
    at: k, number: c.parts[0], record: c.record, bars, waits: bars.filter((bar) => !bar.write && bar.dreg !== 0), late: null,
    last: lastRetired(columns, k), next, afterNext: next && following(columns, next),
  };
  if (oldest && !oldest.isCut) {
    const retired = columns.slice(oldest.from + 1, k).filter(isRetiring).length;
    fault.late = { from: oldest.from, events: k - oldest.from, retired };
  }
  return fault;
}

// The numbers of an instruction's text from 256 up, in hexadecimal, as addresses are shown.
const inHexadecimal = (text) => (text.match(/(?<!\w)\d+/g) ?? []).filter((n) => n > 255).map((n) => `0x${Number(n).toString(16).toUpperCase()}`);
const spelled = (c) => `${[c.parts[1], ...inHexadecimal(c.parts[1]).map((n) => `(${n})`)].join(" ")} at ${c.parts[0]}`; // of an issue
// What is pending after an event. Bars begin in order, and at most three are pending.
function pendingAt(run, k) {
  const out = [];
  for (let n = firstFrom(run.bars, k + 1) - 1; n >= 0 && out.length < 3 && run.bars[n].to > k; n--) out.unshift(run.bars[n]);
  return out;
}

// The first of some bars that begins at a column or later.
function firstFrom(bars, column) {
  let low = 0, high = bars.length;
  while (low < high) {
    const mid = (low + high) >> 1;
    if (bars[mid].from < column) low = mid + 1; else high = mid;
  }
  return low;
}

const becomes = (c) => listed(c.became.map(([r, word]) => `r${r} becomes ${word}`));

// The instruction that an event tried, with its text where a later event tells it.
function tried(columns, k) {
  const at = following(columns, k - 1), address = addressAt(columns, k);
  if (at !== null && columns[at].kind === "issue") return spelled(columns[at]);
  return address ? `The instruction at ${address}` : "The next instruction";
}

const transactions = (n, one, more) => `${many(n, "transaction")} ${n === 1 ? one : more}`;
const SENTENCES = {
  start: ({ pending }) => `Before the first event ${pending ? transactions(pending, "waits", "wait") : "nothing is pending"}.`,
  issue: issued,
  output: ({ c }) => `The trap at ${c.parts[0]} asks the monitor to put the byte ${byteShown(c.parts[1])} out, and it is retired.`,
  bubble: ({ run, k }) =>
    `The slot at ${addressAt(run.columns, k) || "NIP"} is a bubble after a taken branch, and it is passed over.`,
  busy: ({ run, k, c }) =>
    `${tried(run.columns, k)} is held, since it uses or writes ${c.parts[0]}, which waits for ${reasonOf(run, k, c.parts[0])}.`,
  full: ({ run, k, pending }) =>
    `${tried(run.columns, k)} is held: with its own transactions there would be more than three, and ${pending} are pending.`,
  sync: ({ run, k, pending }) =>
    `${tried(run.columns, k)} is held until nothing is pending, and ${transactions(pending, "is", "are")}.`,
  answer: answered,
  fault: faulted,
  idle: ({ c }) => (c.letter === "r" ? "Memory is to answer, but nothing is pending." : "Nothing is left to issue."),
  evict: ({ pending }) => `Every page of data memory becomes absent, and ${transactions(pending, "stays", "stay")} pending.`,
  end: ({ c }) => `The program ends: ${c.parts[0]}.`,
};

// A byte in hexadecimal, with its character where it has one.
function byteShown(digits) {
  const n = value(digits);
  return n > 32 && n < 127 ? `${digits} (${String.fromCharCode(n)})` : digits;
}

function reasonOf(run, k, register) {
  const bar = pendingAt(run, k).find((b) => !b.write && `r${b.dreg}` === register);
  return bar ? `the ${spoken(bar)}${bar.isCut ? "" : `, issued at event ${run.columns[bar.from].number}`}` : "a load";
}

function issued({ run, k, c, pending }) {
  const ready = becomes(c), made = c.begun, isOne = made.length === 1, next = following(run.columns, k);
  if (made.length === 0) {
    const slot = next !== null && run.columns[next].kind === "bubble" ? ", and the slot after it becomes a bubble" : "";
    return `${spelled(c)} is issued${ready ? `: ${ready}` : ""}${slot}.`;
  }
  const others = pending - made.length, waits = made.filter((bar) => !bar.write && bar.dreg !== 0).map((bar) => `r${bar.dreg}`);
  const goes = others ? `${isOne ? "joins" : "join"} ${others} in the data unit` : `${isOne ? "goes" : "go"} to the data unit`;
  const waiting = waits.length ? `, and ${listed(waits)} ${waits.length === 1 ? "waits" : "wait"}` : "";
  return `${spelled(c)} is issued: its ${listed(made.map(spoken))} ${goes}${waiting}.`;
}

function answered({ k, c }) {
  const [bar] = c.ended, ready = becomes(c);
  if (!bar) return "Memory answers the oldest transaction.";
  const after = bar.isCut ? "" : `, ${many(k - bar.from, "event")} after its issue`;
  return `Memory answers the ${spoken(bar)}${after}${ready ? `: ${ready}` : ""}.`;
}

function faulted({ c }) {
  const { bars, late } = c.fault, ready = becomes(c);
  if (bars.length === 0) return `The oldest transaction meets an absent page: data fault ${c.parts[0]}.`;
  const instructions = late?.retired ? ` and ${many(late.retired, "instruction")}` : "";
  const after = late ? `, ${many(late.events, "event")}${instructions} after its issue` : "";
  const all = ["", "it", "both transactions", "all three transactions"][bars.length];
  return `The ${spoken(bars[0])} meets an absent page${after}: data fault ${c.parts[0]}, ` +
    `and the monitor finishes ${all}${ready ? `, so ${ready}` : ""}.`;
}

function sentenceOf(run, k) {
  const c = run.columns[k];
  return SENTENCES[c.kind]({ run, k, c, pending: c.pending });
}

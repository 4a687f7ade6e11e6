"use strict";
// The words of a pipeline, bit by bit, and what a transaction is in words. docs/BOARD.md tells what each bit means.

const value = (word) => parseInt(word, 16);
const hex = (n) => (n >>> 0).toString(16).toUpperCase().padStart(8, "0");
const bit = (n, k) => Math.floor(n / 2 ** k) % 2;
const few = (word) => word.replace(/^0+(?=.)/, "");
const many = (n, what) => `${n.toLocaleString("en")} ${what}${n === 1 ? "" : "s"}`;
const listed = (parts) => (parts.length < 2 ? parts.join("") : `${parts.slice(0, -1).join(", ")} and ${parts.at(-1)}`);
const WAITS = "--------"; // a register that waits

// A function of a word or a line that keeps its answers, since both come again and again.
function remembered(answer) {
  const known = new Map();
  return (question) => {
    let found = known.get(question);
    if (found === undefined) known.set(question, found = answer(question));
    return found;
  };
}

const pointer = (word) => ({ address: hex(value(word) & ~3), v: bit(value(word), 1), e: bit(value(word), 0) });

const fieldsOf = remembered((dmt) => {
  const n = value(dmt);
  return {
    valid: bit(n, 0), write: bit(n, 1), en: Math.floor(n / 4) % 16, signed: bit(n, 6),
    dreg: Math.floor(n / 128) % 32, lock: bit(n, 12), double: bit(n, 13),
  };
});

// What a transaction is: the fields of its control word, the address of its word, and the register's word that a store writes.
const accessOf = ({ dmt, dmd, dma }) => ({ ...fieldsOf(dmt), dma, dmd });

const SIZES = { 15: "word", 12: "half at +0", 3: "half at +2", 8: "byte at +0", 4: "byte at +1", 2: "byte at +2", 1: "byte at +3" };
// The offsets of the bytes that a transaction touches.
const offsetsOf = (en) => [0, 1, 2, 3].filter((k) => bit(en, 3 - k));
const addressOf = ({ en, dma }) => hex(value(dma) + (offsetsOf(en)[0] ?? 0));
const placesOf = ({ en, dma }) => offsetsOf(en).map((k) => value(dma) + k);
const SPANS = { 4: "", 2: " half", 1: " byte" };
const spanOf = (en) => SPANS[offsetsOf(en).length] ?? "";

// A store of a half or a byte takes the low end of its register.
const datumOf = ({ en, dmd }) => dmd.slice(8 - 2 * offsetsOf(en).length);

// What a transaction is, in words: in full, in the words of a bar, and in a narrow bar's.
function told(a) {
  if (!a.valid) return "nothing is pending here";
  const marks = [];
  if (a.signed && a.en !== 15) marks.push("with its sign");
  if (a.lock) marks.push("half of an exchange");
  if (a.double) marks.push("first half of a double");
  return toldOfBar(a) + (marks.length ? ` (${marks.join(", ")})` : "");
}

const toldOfBar = (a) => (a.write ? `store${spanOf(a.en)} ${datumOf(a)} to ${addressOf(a)}`
  : `load${spanOf(a.en)} r${a.dreg} from ${addressOf(a)}`);

// The same inside a sentence.
function spoken(a) {
  const span = spanOf(a.en);
  if (a.write) return `store of ${span ? `the${span} ` : ""}${datumOf(a)} to ${addressOf(a)}`;
  return `load of ${span ? `a${span} into ` : ""}r${a.dreg} from ${addressOf(a)}`;
}

const toldInShort = (a) => (a.write ? `store ${few(addressOf(a))}` : `load r${a.dreg} ${few(addressOf(a))}`);
const toldOfOne = (a) => (a.write ? "store" : "load");

const waitingIn = remembered((ssbr) => [...Array(32).keys()].filter((r) => bit(value(ssbr), r)));

const FIELDS = {
  pointer: (word) => {
    const p = pointer(word);
    return [["31 to 2", "address", p.address], ["1", "V, the slot is valid", p.v], ["0", "E, the fetch failed", p.e]];
  },
  status: (word) => {
    const n = value(word), one = (k, name) => [`${k}`, name, bit(n, k)];
    return [
      one(31, "MODE, supervisor"), one(30, "BO, byte order"), one(29, "SER, serial"), one(28, "C, carry"),
      ["9 to 4", "set at the start", (Math.floor(n / 16) % 64).toString(2).padStart(6, "0")],
      one(3, "SFD1, unit 1 disabled"), one(2, "MXM, misaligned addresses are rounded down"),
      one(1, "IND, interrupts disabled"), one(0, "SFRZ, shadow frozen"),
    ];
  },
  scoreboard: (word) => {
    const waiting = waitingIn(word);
    return waiting.length ? waiting.map((r) => [r, `r${r}`, "waits for a load"]) : [["31 to 1", "no register", "waits"]];
  },
  dmt: (word) => {
    const n = value(word), f = fieldsOf(word), one = (k, name) => [`${k}`, name, bit(n, k)];
    return [
      one(15, "BO, byte order"), one(14, "DAS, address space"), one(13, "DOUB1, first half of a double"),
      one(12, "LOCKBAR, half of an exchange"),
      ["11 to 7", "DREG, the register of a load", `${f.dreg.toString(2).padStart(5, "0")}: r${f.dreg}`],
      one(6, "SIGNED, extended by its sign"),
      ["5 to 2", "EN, bit 5 for the byte at offset 0", `${f.en.toString(2).padStart(4, "0")}: ${SIZES[f.en] ?? "none"}`],
      one(1, "WRITE, a store"), one(0, "VALID, something is pending"),
    ];
  },
  plain: (word) => [["31 to 0", "word", word]],
};

// The words of a pipeline: each with its name, how it is taken apart, and the stage of the data unit that it belongs to.
const ROWS = [
  { name: "XIP", word: (p) => p.sxip, kind: "pointer" },
  { name: "NIP", word: (p) => p.snip, kind: "pointer" },
  { name: "FIP", word: (p) => p.sfip, kind: "pointer" },
  ...[0, 1, 2].flatMap((k) => [
    { name: `DMT${k}`, word: (p) => p.triples[k].dmt, kind: "dmt", stage: k },
    { name: `DMD${k}`, word: (p) => p.triples[k].dmd, kind: "plain", stage: k },
    { name: `DMA${k}`, word: (p) => p.triples[k].dma, kind: "plain", stage: k },
  ]),
  { name: "SSBR", word: (p) => p.ssbr, kind: "scoreboard" },
  { name: "EPSR", word: (p) => p.epsr, kind: "status" },
];
const ROW = Object.fromEntries(ROWS.map((row, r) => [row.name, r]));
// A record has the same words, in the order of a report and with the names of the shadow registers.
const STAGES = [0, 1, 2].flatMap((k) => [`DMT${k}`, `DMD${k}`, `DMA${k}`]);
const RECORD = ["EPSR", "XIP", "NIP", "FIP", "SSBR", ...STAGES].map((name) => ROW[name]);
const recordName = (row) => (row.kind === "pointer" ? `S${row.name}` : row.name);
const isEmptyStage = (row, pipe) => row.stage !== undefined && !fieldsOf(pipe.triples[row.stage].dmt).valid;
const recordText = (row, pipe) => `${recordName(row).padEnd(4)} ${isEmptyStage(row, pipe) ? "·" : row.word(pipe)}`;

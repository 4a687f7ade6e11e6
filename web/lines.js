"use strict";
// Reading what the program writes: the lines of events, of a pipeline, of registers and of records.

const WORD = "[0-9A-F]{8}";
const COUNTS = /^events \d+ issued \d+ done \d+ pending \d+$/;
const POINTERS = new RegExp(`^epsr (${WORD}) sxip (${WORD}) snip (${WORD}) sfip (${WORD}) ssbr (${WORD})$`);
const TRIPLE = new RegExp(`^t([012]) (${WORD}) (${WORD}) (${WORD})$`);
const EIGHT = new RegExp(`^r(0|8|16|24)((?: (?:${WORD}|-{8})){8})$`);
const CARRY = /^carry ([01])$/;
const EVENT = new RegExp(
  `^(\\d+) ([ire]) (?:(issue) (${WORD}) (.+)|(output) (${WORD}) ([0-9A-F]{2})|(bubble)|(busy) (r\\d+)|(full)|(sync)|` +
  `(answer)|(fault) (\\d+)|(idle)|(evict)|(end) (exit at ${WORD}|vector \\d+ at ${WORD}))$`);

// The lines of a text, one after the other. What can't be read is told by its line.
class Lines {
  constructor(text) {
    this.lines = (text.includes("\r") ? text.replaceAll("\r\n", "\n") : text).split("\n");
    this.at = 0;
  }
  get line() { return this.lines[this.at] ?? ""; }
  get isOver() { return this.at >= this.lines.length; }
  skip() { while (!this.isOver && (this.line === "" || this.line.startsWith("events") && COUNTS.test(this.line))) this.at++; }
  wrong(why) { throw new Error(`line ${this.at + 1}: ${why}`); }
  take(read, why) {
    const found = read(this.line);
    if (!found) this.wrong(why);
    this.at++;
    return found;
  }
}

const readPointers = (line) => POINTERS.exec(line);
const readTriple = [0, 1, 2].map((k) => remembered((line) => {
  const found = TRIPLE.exec(line);
  return found && Number(found[1]) === k ? { dmt: found[2], dmd: found[3], dma: found[4] } : null;
}));
const readEight = [0, 8, 16, 24].map((first) => remembered((line) => {
  const found = EIGHT.exec(line);
  return found && Number(found[1]) === first ? found[2].trim().split(" ") : null;
}));

function readPipe(lines) {
  const [, epsr, sxip, snip, sfip, ssbr] = lines.take(readPointers, "the line of the pointers is wanted");
  const triples = readTriple.map((read, k) => lines.take(read, `the words of triple ${k} are wanted after the pointers`));
  return { epsr, sxip, snip, sfip, ssbr, triples };
}

function readRegisters(lines) {
  const registers = readEight.flatMap((read, k) => lines.take(read, `the registers from r${8 * k} on are wanted`));
  return { registers, carry: lines.take((line) => CARRY.exec(line), "the line of the carry is wanted after the registers")[1] };
}

const isOfPipe = (line) => line.startsWith("epsr "), isOfRegisters = (line) => /^r\d/.test(line);

// The pipeline and the registers, in either order and each where it is shown.
function readState(lines) {
  const state = { pipe: null, registers: null, carry: null };
  for (lines.skip(); !lines.isOver; lines.skip()) {
    if (!state.pipe && isOfPipe(lines.line)) state.pipe = readPipe(lines);
    else if (!state.registers && isOfRegisters(lines.line)) Object.assign(state, readRegisters(lines));
    else break;
  }
  return state;
}

// The line of an event: its number, its letter, what it did, and the parts of that.
function eventOf(line) {
  const found = EVENT.exec(line);
  if (!found) return null;
  const [kind, ...parts] = found.slice(3).filter((part) => part !== undefined);
  return { number: Number(found[1]), letter: found[2], kind, parts };
}

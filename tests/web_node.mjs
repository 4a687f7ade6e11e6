// What tests/web leans on in node: the worker and the modules of a web page, asked by lines of JSON.
//
//   node web_node.mjs PAGE
//
// A line {program, words, input} is answered by {status, output, told, memory}; texts are in base64, and a zero ends each word. With
// `pages` the memory has at most so many, of 65,536 bytes; with `fail` the call for memory of that number fails, and `left` tells how
// many more it would have taken to reach it. A line {heap, seed, pages} has the heap called at random so often.
import fs from "node:fs";
import readline from "node:readline";
import vm from "node:vm";
import zlib from "node:zlib";

const page = fs.readFileSync(process.argv[2], "utf8");
const part = (what) => new RegExp(`<script type="text/plain" ${what}>\n([^]*?)</script>`).exec(page)[1];
const inBase64 = (bytes) => Buffer.from(bytes).toString("base64"), ofBase64 = (text) => Buffer.from(text, "base64");

let answer;
globalThis.onmessage = null;
globalThis.postMessage = (message) => { answer = message; };
vm.runInThisContext(part('id="worker"'));
const { put, got } = globalThis;

const kept = new Map();
function bytesOf(program) {
  if (!kept.has(program)) kept.set(program, zlib.gunzipSync(ofBase64(part(`data-program="${program}"`))));
  return kept.get(program);
}

const modules = new Map();
function moduleOf(program, pages) {
  const name = `${program} ${pages}`;
  if (!modules.has(name)) {
    const bytes = pages === undefined ? bytesOf(program) : limited(bytesOf(program), pages);
    modules.set(name, new WebAssembly.Module(bytes));
  }
  return modules.get(name);
}

// A number of 7 bits a byte, the low ones first, and the place after it.
function read(bytes, at) {
  let value = 0, n = 0;
  do value += (bytes[at] & 127) * 2 ** (7 * n++); while (bytes[at++] & 128);
  return [value, at];
}

// A module with another limit to its memory: the last of the four numbers of section 5, of which each has its length kept.
function limited(bytes, pages) {
  let at = 8;
  for (;;) {
    const id = bytes[at], [length, from] = read(bytes, at + 1);
    if (id === 5) break;
    at = from + length;
  }
  const made = Buffer.from(bytes), [, most] = read(bytes, read(bytes, at + 1)[1] + 2), [, end] = read(bytes, most);
  for (let n = most; n < end; n++) made[n] = Math.floor(pages / 128 ** (n - most)) % 128 + (n < end - 1 ? 128 : 0);
  return made;
}

// The answer of the worker itself.
function answered({ program, words, input, pages }) {
  globalThis.onmessage({ data: { number: 1, module: moduleOf(program, pages), words: ofBase64(words), input: ofBase64(input) } });
  const { status, output, told, memory, time } = answer;
  return { status, output: inBase64(output), told: inBase64(told), memory, time };
}

function failing({ program, words, input, fail }) {
  const { exports } = new WebAssembly.Instance(moduleOf(program), {});
  put(exports, exports.room_for_words(BigInt(ofBase64(words).length)), ofBase64(words));
  put(exports, exports.room_for_input(BigInt(ofBase64(input).length)), ofBase64(input));
  exports.fail_at(BigInt(fail));
  const status = exports.start(), left = Number(exports.fail_at(0n));
  return { status, output: inBase64(got(exports, 1)), told: inBase64(got(exports, 2)), left };
}

// Numbers below a bound that come again for the same seed (a multiplier of L'Ecuyer's table for 2^31 - 1).
function drawn(seed) {
  let state = seed;
  return (bound) => {
    state = state * 16807 % 2147483647;
    return state % bound;
  };
}

// Blocks of each kind, as they must be found again.
const LONGEST = 300000, FILLED = Array.from({ length: 8 }, (_, mark) => Buffer.alloc(LONGEST, 31 * mark + 7));

// A heap that is called at random, with at most 400 blocks, each filled with bytes of its own that are looked at before it is let go.
class Heap {
  constructor(module, seed) {
    this.exports = new WebAssembly.Instance(module, {}).exports;
    this.result = Number(this.exports.room_for_words(16n));
    this.draw = drawn(seed);
    this.blocks = new Array(400).fill(null);
    this.refused = 0;
  }

  get bytes() {
    const { buffer } = this.exports.memory;
    if (this.seen?.buffer !== buffer) this.seen = Buffer.from(buffer);
    return this.seen;
  }

  // The place that a call was given, or null where it was refused. A call writes whether it was done, and the place.
  called(call, ...words) {
    call(BigInt(this.result), ...words.map(BigInt));
    const isDone = this.bytes[this.result] === 1, at = Number(this.bytes.readBigUInt64LE(this.result + 8));
    if (!isDone) this.refused++;
    else if (at % 16) throw new Error(`a block stands at ${at}`);
    return isDone ? at : null;
  }

  // A block's first bytes must be as they were written.
  look({ at, mark }, length) {
    if (this.bytes.compare(FILLED[mark], 0, length, at, at + length)) throw new Error(`the block at ${at} was changed`);
  }

  // A few are large.
  length() {
    return this.draw(4) ? this.draw(200) : this.draw(5) ? this.draw(5000) : this.draw(LONGEST);
  }

  step() {
    const k = this.draw(400), block = this.blocks[k], { rattle_alloc, rattle_realloc, rattle_dealloc } = this.exports;
    const length = this.length(), mark = this.draw(FILLED.length);
    let at;
    if (!block) {
      at = this.called(rattle_alloc, length, 8);
    } else if (this.draw(3) === 0) {
      this.look(block, block.length);
      rattle_dealloc(BigInt(block.at));
      this.blocks[k] = null;
      return;
    } else {
      at = this.called(rattle_realloc, block.at, block.length, length, 8);
      this.look(at === null ? block : { at, mark: block.mark }, at === null ? block.length : Math.min(block.length, length));
    }
    if (at === null) return;
    FILLED[mark].copy(this.bytes, at, 0, length);
    this.blocks[k] = { at, length, mark };
  }
}

function tried({ heap, seed, pages }) {
  const it = new Heap(moduleOf("m88serve", pages), seed);
  for (let n = 0; n < heap; n++) it.step();
  for (const block of it.blocks) if (block) it.look(block, block.length);
  return { refused: it.refused, taken: Number(it.exports.memory_taken()) };
}

for await (const line of readline.createInterface({ input: process.stdin })) {
  const asked = JSON.parse(line);
  let told;
  try {
    told = asked.heap ? tried(asked) : asked.fail ? failing(asked) : answered(asked);
  } catch (error) {
    told = { error: String(error) };
  }
  process.stdout.write(`${JSON.stringify(told)}\n`);
}

"use strict";
// The proved programs, which stand packed in the page and answer in workers.

// The text of each example, by its name. It begins on the line after its tag.
const EXAMPLES = new Map([...document.querySelectorAll("script[data-example]")]
  .map((it) => [it.dataset.example, it.textContent.slice(1)]));

// The names of the programs; m88 is the first.
const PROGRAMS = [...document.querySelectorAll("script[data-program]")].map((it) => it.dataset.program);

const bytesOf = (text) => new TextEncoder().encode(text), textOf = (bytes) => new TextDecoder().decode(bytes);

// Why this browser can't run the programs, as a sentence, or "" where it can. The bytes are a module whose memory has 64 bits.
function whyNotRun() {
  const least = Uint8Array.of(0, 97, 115, 109, 1, 0, 0, 0, 5, 3, 1, 4, 1);
  const isAble = typeof WebAssembly === "object" && WebAssembly.validate(least) && typeof DecompressionStream === "function";
  return isAble ? "" : "This browser can't run the programs, which need WebAssembly with a memory of 64 bits. Open this file in " +
    "Chrome, Edge or another Chromium from version 133 on, or in Firefox from version 134 on.";
}

// The module of a program, which is compiled once.
const compiled = new Map();
function moduleOf(program) {
  if (!compiled.has(program)) compiled.set(program, compile(program));
  return compiled.get(program);
}
async function compile(program) {
  const letters = atob(document.querySelector(`script[data-program="${program}"]`).textContent);
  const packed = new Uint8Array(letters.length);
  for (let n = 0; n < packed.length; n++) packed[n] = letters.charCodeAt(n);
  const stream = new Blob([packed]).stream().pipeThrough(new DecompressionStream("gzip"));
  return WebAssembly.compileStreaming(new Response(stream, { headers: { "Content-Type": "application/wasm" } }));
}

const WORKER = URL.createObjectURL(new Blob([document.getElementById("worker").textContent], { type: "text/javascript" }));

// A call that was cancelled is refused with this.
class Cancelled extends Error {
  constructor() { super("cancelled"); }
}

// A worker with the programs: it answers what it is asked one after the other. A page may have several.
class Programs {
  constructor() {
    this.asked = 0;
    this.begin();
  }

  begin() {
    const waiting = this.waiting = new Map();
    this.worker = new Worker(WORKER);
    this.worker.onmessage = ({ data: { number, ...answer } }) => {
      waiting.get(number).resolve(answer);
      waiting.delete(number);
    };
    this.worker.onerror = ({ message }) => this.end(new Error(message));
  }

  // What a program answers to words, which are texts, and an input, a text or bytes: {status, output, told, time, memory}.
  // `output` and `told` are the bytes of standard output and standard error, `time` is in ms and `memory` in bytes.
  async answer(program, words, input = "") {
    const list = words.map((word) => `${word}\0`).join("");
    const begun = this.worker, module = await moduleOf(program), number = ++this.asked;
    if (begun !== this.worker) throw new Cancelled();
    return new Promise((resolve, reject) => {
      this.waiting.set(number, { resolve, reject });
      this.worker.postMessage({ number, module, words: bytesOf(list), input: typeof input === "string" ? bytesOf(input) : input });
    });
  }

  // Ends what is being answered and drops what waits. Nothing else ends a worker in the midst of a call.
  cancel() { this.end(new Cancelled()); }

  end(error) {
    const waiting = this.waiting;
    this.worker.terminate();
    this.begin();
    for (const { reject } of waiting.values()) reject(error);
  }
}

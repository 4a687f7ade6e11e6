"use strict";
// What the worker of answers.js runs. A message {number, module, words, input} asks a program; the message {number, status, output,
// told, time, memory} is its answer. Words, input and what was written are bytes; a zero ends each word. Each answer is of an
// instance of its own, whose memory nothing was written to before.

// Puts bytes where an instance has made room for them.
function put({ memory }, at, bytes) {
  if (at === 0n) throw new RangeError("there is not enough memory for the input");
  new Uint8Array(memory.buffer).set(bytes, Number(at));
}

// What an instance wrote: 1 is standard output, 2 is standard error.
function got({ memory, written_at, written_length }, stream) {
  const at = Number(written_at(stream));
  return new Uint8Array(memory.buffer).slice(at, at + Number(written_length(stream)));
}

// What a program answers to words and an input. Its status is -1 where it ends before it answers, as where its stack is full.
function answered(module, words, input) {
  const began = performance.now();
  let memory = 0, answer;
  try {
    const { exports } = new WebAssembly.Instance(module, {});
    put(exports, exports.room_for_words(BigInt(words.length)), words);
    put(exports, exports.room_for_input(BigInt(input.length)), input);
    const status = exports.start();
    memory = exports.memory.buffer.byteLength;
    answer = { status, output: got(exports, 1), told: got(exports, 2) };
  } catch (error) {
    answer = { status: -1, output: new Uint8Array(), told: new TextEncoder().encode(`${error.message}\n`) };
  }
  return { ...answer, time: performance.now() - began, memory };
}

onmessage = ({ data: { number, module, words, input } }) => {
  const answer = answered(module, words, input);
  postMessage({ number, ...answer }, [answer.output.buffer, answer.told.buffer]);
};

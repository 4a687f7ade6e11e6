"use strict";
// The run of a source, event by event, as the programs tell it: `run` has the records and how many events there are, one session
// of `mon` the line of each event, `trace` the registers and accesses of each instruction. What stands after an event is asked
// for when it is looked at.

const MOST_RETIRED = 100000; // `mon` retires no more
const MOST_DRAWN = 200000; // events; a browser lays out no wider picture
const CHUNK = 20; // states that one script of `mon` tells, of at most 64 commands

// What a program answers, as texts.
async function askText(programs, words, input, program = "m88") {
  const { status, output, told } = await programs.answer(program, words, input);
  return { status, output: textOf(output), told: textOf(told) };
}

const wordsOfRun = ({ ABSENT, SCHEDULE, mxm }) => [ABSENT, SCHEDULE, ...(mxm ? ["mxm"] : [])];
const scriptOf = (commands) => bytesOf(`${commands.join("\n")}\nsource\n`);
function joined(...pieces) {
  const starts = [0];
  for (const piece of pieces) starts.push(starts.at(-1) + piece.length);
  const whole = new Uint8Array(starts.at(-1));
  pieces.forEach((piece, n) => whole.set(piece, starts[n]));
  return whole;
}

// A session of `mon` over a source: what its commands write.
async function sessionOf(programs, source, words, commands) {
  const { status, output, told } = await askText(programs, ["mon", ...wordsOfRun(words)], joined(scriptOf(commands), source));
  if (status !== 0) throw new Error(told || output);
  return output;
}

// The report of a run: how it ended, its events, and the record of each fault by the number of its event.
function readReport(text) {
  const field = (name) => Number(new RegExp(`^${name} (\\d+)$`, "m").exec(text)?.[1] ?? 0), records = new Map();
  for (const [, number, rest] of text.matchAll(/^fault \d+ event (\d+)\n((?:.+\n){4})/gm)) {
    records.set(Number(number), readPipe(new Lines(rest)));
  }
  return { end: text.slice(0, text.indexOf("\n")), events: field("events"), records };
}

// The accesses of an instruction, by its text and by what its line of the trace has after its word.
function accessesOf(text, parts) {
  const [, mnemonic, register] = /^(\S+) r(\d+)/.exec(text) ?? ["", "", 0], isDouble = /^(ld|st)\.d/.test(mnemonic), out = [];
  for (let n = 0; n + 3 < parts.length; n += 4) {
    const [kind, dma, en, datum] = parts.slice(n, n + 4), write = kind === "s" ? 1 : 0;
    out.push({
      valid: 1, write, en: value(en), signed: /^ld\.[bh](\.|$)/.test(mnemonic) ? 1 : 0, lock: /^xmem/.test(mnemonic) ? 1 : 0,
      dreg: write ? 0 : (Number(register) + (isDouble ? n / 4 : 0)) % 32, double: isDouble && n === 0 ? 1 : 0,
      dma, dmd: write ? datum : "00000000", got: write ? undefined : datum,
    });
  }
  return out;
}

// The columns of a run out of the lines of its events, its trace and its records.
function columnsOf(events, trace, records) {
  const columns = [{ kind: "start", parts: [], accesses: [], became: [] }], steps = trace.split("\n");
  let step = 0;
  for (const text of events.split("\n")) {
    const c = eventOf(text);
    if (!c) continue;
    c.accesses = [];
    if (isRetiring(c)) {
      const parts = steps[step++].split(" ").slice(3), [first, word] = parts;
      if (c.kind === "issue" && /^r\d/.test(first ?? "")) c.became = [[Number(first.slice(1)), word]];
      else if (c.kind === "issue") c.accesses = accessesOf(c.parts[1], parts);
      c.became ??= [];
    }
    c.record = records.get(c.number) ?? null;
    columns.push(c);
  }
  return columns;
}

// How many of the columns are `run`'s own: up to the event that retires the last instruction of the limit.
function countWithin(columns, limit) {
  let retired = 0;
  const last = columns.findIndex((c) => isRetiring(c) && ++retired === limit);
  return last < 0 ? columns.length : last + 1;
}

// Asks for the run of a source. A refusal, or words that are wrong, are an error with the program's words.
async function askRun(programs, source, words) {
  const limit = Math.min(Number(words.LIMIT), MOST_RETIRED);
  const run = await askText(programs, ["run", Number.isNaN(limit) ? words.LIMIT : String(limit), ...wordsOfRun(words)], source);
  if (run.status !== 0) throw Object.assign(new Error(run.told), run);
  const report = readReport(run.output), count = Math.min(report.events, MOST_DRAWN);
  const drawn = await (words.mxm ? askSlowly(programs, source, words, count) : askAtOnce(programs, source, words, limit, report));
  const note = noteOf(drawn, report, limit, Number(words.LIMIT));
  return Object.assign(drawn, { source, words, report, reportText: run.output, note });
}

function noteOf({ columns }, report, limit, wanted) {
  const last = columns.at(-1).number ?? 0;
  if (last >= report.events && (limit === wanted || report.end !== "end limit")) return "";
  if (last === MOST_DRAWN || report.end !== "end limit") return `The first ${many(last, "event")} are drawn.`;
  return `It is drawn up to event ${last.toLocaleString("en")}, which retires instruction ${limit.toLocaleString("en")}: ` +
    `${limit < wanted ? "a session of mon has no more" : "that is LIMIT"}.`;
}

async function askAtOnce(programs, source, words, limit, report) {
  const count = Math.min(report.events, MOST_DRAWN);
  const [events, trace] = await Promise.all([
    sessionOf(programs, source, words, [`trace ${Math.max(1, count)}`]),
    askText(programs, ["trace", String(limit), words.ABSENT, words.SCHEDULE], source),
  ]);
  const columns = columnsOf(events, trace.output, report.records);
  const run = runOf(columns.slice(0, report.end === "end limit" ? countWithin(columns, limit) : count + 1)), known = new Map();
  run.ask = (first, last) => {
    const chunks = [];
    for (let chunk = Math.floor(first / CHUNK); chunk * CHUNK < last; chunk++) {
      const asked = known.get(chunk) ?? askStates(programs, source, words, run.columns, chunk * CHUNK);
      known.set(chunk, asked);
      asked.catch(() => known.delete(chunk));
      chunks.push(asked);
    }
    return Promise.all(chunks);
  };
  return run;
}

// What stands after some events, put into their columns.
async function askStates(programs, source, words, columns, first) {
  const count = Math.min(CHUNK, columns.length - first), commands = first ? [`step ${first}`, "pipe", "regs"] : ["pipe", "regs"];
  for (let n = 1; n < count; n++) commands.push("trace 1", "pipe", "regs");
  readSession(await sessionOf(programs, source, words, commands)).forEach(({ pipe, registers, carry }, n) => {
    if (columns[first + n]) Object.assign(columns[first + n], { pipe, registers, carry });
  });
}

// The text of contrib/session for the first events: `trace` has no mode in which addresses are rounded down.
async function askSlowly(programs, source, words, count) {
  let text = "";
  for (let first = 0; first < Math.min(count, 1000); first += CHUNK) {
    const commands = first ? [`step ${first}`] : ["pipe", "regs"];
    for (let n = 0; n < Math.min(CHUNK, count - first); n++) commands.push("trace 1", "pipe", "regs");
    text += await sessionOf(programs, source, words, commands);
  }
  return runOfSession(text);
}

// The words of memory that a run touches, those nearest to an event first, at most so many, in order of address.
function touchedWords(run, k, most) {
  const found = new Set(), here = firstFrom(run.bars, k + 1);
  for (let step = 0; step < run.bars.length && found.size < most; step++) {
    for (const n of [here - 1 - step, here + step]) if (run.bars[n] && found.size < most) found.add(run.bars[n].dma);
  }
  return [...found].sort();
}

// The values of words before and after an event: [address, before, after] of each.
async function askMemory(programs, { source, words }, k, addresses) {
  const mem = addresses.map((address) => `mem ${address} 1`), steps = k > 1 ? [`step ${k - 1}`] : [];
  const text = await sessionOf(programs, source, words, [...steps, ...mem, ...(k > 0 ? ["step 1", ...mem] : [])]);
  const values = text.split("\n").filter((each) => each.startsWith("mem ")).map((each) => each.split(" ")[2]);
  return addresses.map((address, n) => [address, values[n], values[n + (k > 0 ? addresses.length : 0)]]);
}

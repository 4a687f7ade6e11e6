"use strict";
// A prompt over `mon`, with back: a board's history follows from its inputs alone, so its place is one number, the chosen event.

const prompt = { breaks: [], said: [], at: 0, programs: null };
const SHORT_NAMES = {
  s: "step", b: "back", c: "go", continue: "go", u: "until", f: "fault", t: "trace", r: "regs", x: "mem", p: "pipe", h: "help",
};

const PROMPT_HELP = `step [N]            N events forward (1)
back [N]            N events back
go                  to a breakpoint, or to the end of the run
until PLACE         to the next event after which this instruction is next
break [PLACE]       sets a breakpoint, or takes one away; alone, lists them
fault               to the next data fault
trace N             N events forward, with a line for each
regs, pipe          the registers; the words that a fault would leave now
mem PLACE [N]       N words of memory (1)
letters TEXT        another schedule from here on (- for none)
start               back to the start
help                this list
PLACE is a label of the source or hexadecimal digits; LABEL+8 is 8 bytes after it. s, b, c, u, f, t, r, x, p and h are short.`;

function say(text, kind = "") {
  const place = find("answers"), each = document.createElement("div");
  each.className = kind;
  each.textContent = text;
  place.append(each);
  while (place.children.length > 400) place.firstChild.remove();
  place.scrollTop = place.scrollHeight;
}

// The address that a word says; the program refuses what is none.
function placeOf(word = "") {
  const [, name, offset = "0"] = /^([^+]*)(?:\+(\w+))?$/.exec(word) ?? [], label = workbench.listing?.labels.get(name);
  return label && !Number.isNaN(Number(offset)) ? hex(value(label) + Number(offset)) : word.replace(/^0x/, "");
}

// Carries commands of `mon` out at the chosen event. What they write is told, and the event that they lead to is chosen.
async function carryOut(...commands) {
  const { run } = shown, steps = shown.k > 0 ? [`step ${shown.k}`] : [];
  const text = await sessionOf(prompt.programs, run.source, run.words, [...steps, ...commands]);
  const lines = text.trimEnd().split("\n").slice(steps.length).filter((each) => !each.startsWith("break "));
  const last = lines.filter((each) => /^(events )?\d+ /.test(each)).at(-1), number = last && Number(/\d+/.exec(last)[0]);
  say(lines.join("\n") || "The run is over.");
  if (number === undefined || shown.run !== run) return;
  if (!goToEvent(number)) {
    say(`Event ${number} is after what is drawn.`);
    goToEvent(run.columns.at(-1).number);
  }
}

const stops = (places) => places.map((place) => `break ${place}`);
const PROMPTS = {
  step: async (n = "1") => {
    await carryOut(`step ${n}`);
    say(find("sentence").textContent, "soft");
  },
  back: (n = "1") => {
    if (!/^[1-9]\d{0,6}$/.test(n)) return say("back wants a number of events", "wrong");
    goToEvent(Math.max(0, shown.k - Number(n)));
    return say(`event ${shown.k}: ${find("sentence").textContent}`);
  },
  start: () => PROMPTS.back("9999999"),
  go: () => carryOut(...stops(prompt.breaks), "go"),
  until: (place) => carryOut(`break ${placeOf(place)}`, "go"),
  break: async (place) => {
    if (place === undefined) return say(prompt.breaks.join("\n") || "no breakpoint is set");
    const address = placeOf(place), others = prompt.breaks.filter((each) => each !== address), isNew = others.length === prompt.breaks.length;
    await sessionOf(prompt.programs, shown.run.source, shown.run.words, stops([...others, address]));
    prompt.breaks = isNew ? [...others, address] : others;
    return say(isNew ? `break ${address}` : `no break ${address}`);
  },
  fault: () => {
    const before = shown.k;
    goToFault(1);
    say(before === shown.k ? "no fault comes later" : `event ${shown.k}: ${find("sentence").textContent}`);
  },
  trace: (n = "1") => carryOut(`trace ${n}`),
  regs: () => carryOut("regs"),
  pipe: () => carryOut("pipe"),
  mem: (place, n = "1") => carryOut(`mem ${placeOf(place)} ${n}`),
  letters: (text = "-") => {
    const taken = shown.run.columns.slice(1, shown.k + 1).map((c) => c.letter).join("");
    const schedule = (taken + (text === "-" ? "" : text)) || "-";
    setSchedule(schedule);
    say(`the schedule is ${schedule}`);
  },
  help: () => say(PROMPT_HELP),
};

async function typed(text) {
  const [name, ...operands] = text.trim().split(/\s+/), known = PROMPTS[name] ? name : SHORT_NAMES[name];
  say(`${shown.k}> ${text}`, "typed");
  if (!known) return say(`'${name}' is no command; help lists them`, "wrong");
  if (known !== "help" && !shown.run?.words) return say("there is no run: a source that is accepted is wanted at the left", "wrong");
  try {
    await PROMPTS[known](...operands);
  } catch (error) {
    say(error.message.trim().split("\n").slice(0, 3).join("\n"), "wrong");
  }
  return tellPlace();
}

const tellPlace = () => {
  const next = shown.run?.words ? addressAt(shown.run.columns, Math.min(shown.k + 1, shown.run.columns.length - 1)) : "";
  find("place").textContent = `${shown.k} ${next}>`;
};

function beginPrompt(programs) {
  const field = find("typed");
  prompt.programs = programs;
  field.addEventListener("keydown", (event) => {
    if (event.key === "ArrowUp" || event.key === "ArrowDown") {
      prompt.at = Math.max(0, Math.min(prompt.said.length, prompt.at + (event.key === "ArrowUp" ? -1 : 1)));
      field.value = prompt.said[prompt.at] ?? "";
      event.preventDefault();
    }
    if (event.key !== "Enter") return;
    const text = field.value.trim() || prompt.said.at(-1) || "help";
    prompt.said.push(text);
    prompt.at = prompt.said.length;
    field.value = "";
    typed(text);
  });
  document.addEventListener("chosen", tellPlace);
  say("Type help for the commands. An empty line does the last one again.", "soft");
}

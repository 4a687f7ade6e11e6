"use strict";
// The command and its words, as the programs themselves tell them in their usage: a new command appears by itself.

const DEFAULTS = {
  LIMIT: "1000000", ABSENT: "none", SCHEDULE: "-", mxm: "", FRAMES: "4", NUMBER: "0", COUNT: "20", ADDRESS: "0", WORDS: "",
};
const command = { forms: [], helps: new Map(), words: { ...DEFAULTS } };

// The forms in a usage: `m88 run LIMIT ABSENT SCHEDULE [mxm] < SOURCE`. Words in lower case stand as they are, but in brackets.
const FORM = /^(?:usage:)? +(m88\w*)((?: [^<> \n]+)*)(?: < ([A-Z-]+))?(?: > [A-Z-]+)?$/gm;
function formsOf(usage) {
  return [...usage.matchAll(FORM)].map(([, program, list, reads = ""]) => {
    const all = list.trim().split(" ").filter(Boolean), fixed = all.filter((word) => /^[a-z]/.test(word));
    const words = all.filter((word) => !fixed.includes(word)).map((word) => word.replace(/[[\]]/g, ""));
    return { key: [program, ...fixed].join(" "), program, fixed, words, reads };
  });
}

// What a usage says of its words: the lines that begin with one.
function helpsOf(usage) {
  for (const [text, name] of usage.matchAll(/^(\w+) (?:of \w+ )?(?:is|are|rounds) .+$/gm)) {
    command.helps.set(name, [command.helps.get(name), text].filter(Boolean).join("\n"));
  }
}

const SHORT_HELPS = {
  FRAMES: "how many page frames the board has", LIMIT: "the most instructions that may retire",
  ABSENT: "pages of data memory that are absent at first; page 5 is from 5000 to 5FFF",
  SCHEDULE: "a letter for each event: i issues, r lets memory answer, e makes every page absent",
  mxm: "misaligned addresses are rounded down", NUMBER: "what the workload is drawn from", COUNT: "how many statements it has",
  ADDRESS: "where the binary stands", STEPS: "the most instructions of the handler",
  WORDS: "where code begins besides the start, and which of it stays where it is",
};
const PURPOSES = {
  "m88 run": "the report of a run", "m88 exec": "the report of a run of records", "m88 dis": "records as a source",
  "m88 asm": "the objects of a source", "m88 link": "objects as records", "m88 build": "a source as records",
  "m88 mon": "a script carried out, event by event", "m88 share": "programs that share a board",
  "m88 emu": "a run with software for what the chip leaves out", "m88 page": "a run in a few page frames",
  "m88 trace": "a line for each instruction", "m88 check": "whether a trace is the source's", "m88 soak": "a drawn program",
  m88list: "a listing", m88source: "records as a source to edit", "m88source at": "a binary as a source to edit",
  m88serve: "what a handler must leave", "m88super fault": "a handler of yours, tried on a fault",
};

const formGiven = () => command.forms.find(({ key }) => key === find("command").value) ?? command.forms[0];
const wordsGiven = (form = formGiven(), words = command.words) =>
  [...form.fixed, ...form.words.flatMap((name) => (words[name] ?? "").split(/\s+/).filter((word) => word !== ""))];
const helpOf = (name) => [SHORT_HELPS[name], command.helps.get(name)].filter(Boolean).join("\n");

function fieldOf(name) {
  const is = command.words[name] ?? "", type = name === "mxm" ? `type="checkbox"${is && " checked"}` : `value="${escaped(is)}"`;
  return `<label class="word" title="${escaped(helpOf(name))}">${name} <input data-word="${name}" ${type} ` +
    'spellcheck="false" autocomplete="off" autocapitalize="off" aria-describedby="word-help"></label>';
}

// The form and the words of a command as docs/ have it: `./m88 run 100 5 iiir < exercise.s`.
function formOfShell(text) {
  const [program, name, ...given] = /\.\/(m88.*?)(?: <.*)?$/.exec(text)[1].trim().split(" "), words = { mxm: "" };
  const form = command.forms.find(({ key }) => key === `${program} ${name}`);
  form.words.forEach((word, n) => { words[word] = given[n] ?? ""; });
  return { command: form.key, words };
}

const layWords = () => { find("fields").innerHTML = formGiven().words.map(fieldOf).join(""); };

// A command and words that come from elsewhere: an example, a link, a letter that is set.
function setCommand(key, words = {}) {
  if (command.forms.some((form) => form.key === key)) find("command").value = key;
  Object.assign(command.words, words);
  layWords();
}

function wordTyped({ target }) {
  command.words[target.dataset.word] = target.type === "checkbox" ? (target.checked ? "mxm" : "") : target.value.trim();
  refuseWord("");
  document.dispatchEvent(new CustomEvent("edited", { detail: "words" }));
}

// Shows what a program says of a word at its field; "" where nothing is wrong.
function refuseWord(told) {
  const name = /^m88\w*(?: \w+)?: (\w+) can't be/m.exec(told)?.[1];
  for (const field of find("fields").querySelectorAll("input")) {
    field.setAttribute("aria-invalid", String(field.dataset.word === name));
  }
  find("word-help").classList.toggle("wrong", told !== "");
  find("word-help").textContent = told && `✗ ${told.split("\n").filter((each) => each && !each.startsWith("usage")).join(". ")}`;
  return told !== "";
}

function helpWord({ target }) {
  if (!target.dataset?.word || find("word-help").classList.contains("wrong")) return;
  find("word-help").textContent = helpOf(target.dataset.word).replaceAll("\n", "; ");
}

// The forms of a program, added to the list.
async function addForms(programs, program) {
  const { told } = await askText(programs, program === "m88" ? [] : ["?"], "", program), given = find("command").value;
  command.forms.push(...formsOf(told));
  helpsOf(told);
  find("command").innerHTML = command.forms.map(({ key }) =>
    `<option value="${key}">${[key.replace(/^m88 /, ""), PURPOSES[key]].filter(Boolean).join(": ")}</option>`).join("");
  find("command").value = given || command.forms[0].key;
}

async function beginCommand(programs) {
  await addForms(programs, PROGRAMS[0]);
  find("command").addEventListener("change", () => {
    layWords();
    refuseWord("");
    document.dispatchEvent(new CustomEvent("edited", { detail: "command" }));
  });
  find("fields").addEventListener("input", wordTyped);
  find("fields").addEventListener("focusin", helpWord);
  layWords();
}

"use strict";
// The page with the programs in it: what stands at the left is built, run and drawn as it is changed.

const workbench = {
  live: null, long: null, // the workers: of what is drawn while somebody types, and of what is run
  serial: 0, isDrawing: false, listing: null, answer: null, records: null, listed: null,
};
const ROOMS = ["timeline", "answer", "listing", "records", "prompt", "exercises"];

function tell(text, isWrong = false) {
  Object.assign(find("said"), { textContent: text, className: isWrong ? "wrong" : "" });
}

function chooseRoom(name) {
  for (const each of ROOMS) {
    find(`room-${each}`).hidden = each !== name;
    const tab = find(`tab-${each}`);
    tab.setAttribute("aria-selected", String(each === name));
    tab.tabIndex = each === name ? 0 : -1;
  }
  if (name === "timeline" && shown.run) leadTo(shown.k);
  if (name === "prompt") find("typed").focus();
}

// The source in an input, and how many lines stand before it: behind the script of `mon`, before the trace of `check`.
const SOURCES = {
  SOURCE: /^()([^]*)$/, "SCRIPT-AND-SOURCE": /^((?:[^\n]*\n)*?source\r?\n)([^]*)$/, "SOURCE-AND-TRACE": /^()((?:[^\n]*\n)*?)trace\r?\n/,
};
function sourceIn(bytes, reads) {
  const found = SOURCES[reads]?.exec(textOf(bytes));
  return found ? { source: reads === "SOURCE" ? bytes : bytesOf(found[2]), line: found[1].split("\n").length - 1 } : null;
}

// Whether what stands at the left is accepted; a refusal is shown at its line, in the program's words.
function showRefusal({ status, output, told }) {
  const [, line, column, reason] = /^refused (\d+):(\d+) (.*)/.exec(output) ?? [];
  if (status === 0) {
    setMarks("refused", []);
    return false;
  }
  if (line) {
    markRefusal(Number(line), Number(column), reason);
    const more = told.split("\n").filter((each) => /^m88\w*( \w+)?: (?!refused)/.test(each));
    tell([`Line ${line}, column ${column}: ${reason}`, ...more].join("\n"), true);
  } else tell(told.trim() || `Status ${status}`, true);
  return true;
}

// What is asked while somebody types: `build` of a source, else the command itself, which retires nothing.
async function isRefused(form, input) {
  if (form.reads === "") return false;
  const isSource = form.reads === "SOURCE", words = isSource ? ["build"] : wordsGiven(form, { ...command.words, LIMIT: "0" });
  const answer = await askText(workbench.live, words, input, isSource ? "m88" : form.program);
  if (isSource) workbench.records.set(bytesOf(answer.status === 0 ? answer.output : ""));
  return answer.status === 1 ? refuseWord(answer.told) : showRefusal(answer);
}

// Draws what stands at the left, and chooses an event. A later call takes an earlier one's place.
async function draw(number) {
  const serial = ++workbench.serial, isOld = () => serial !== workbench.serial, form = formGiven(), input = editor.bytes;
  if (workbench.isDrawing) workbench.live.cancel();
  workbench.isDrawing = true;
  find("page").classList.add("stale");
  try {
    const refused = isRefused(form, input), drawn = askDrawn(form, input);
    drawn.catch(() => {});
    if (await refused || isOld()) return;
    const found = await drawn;
    if (isOld()) return;
    drawRun(form, found, number);
    await answerAtOnce(form, input, isOld);
  } catch (error) {
    if (isOld() || error instanceof Cancelled) return;
    if (error.status === 1) refuseWord(error.told);
    else tell(error.message, true);
  } finally {
    if (!isOld()) workbench.isDrawing = false;
  }
}

// The run and the listing of the source in an input, or null where there is none to be drawn.
async function askDrawn(form, input) {
  const part = input.length <= LONG ? sourceIn(input, form.reads) : null;
  if (!part) return null;
  const [run, { output }] = await Promise.all([askRun(workbench.live, part.source, { ...command.words }),
    askText(workbench.live, [], part.source, "m88list")]);
  return { ...part, run, listing: output };
}

function drawRun(form, found, number) {
  refuseWord("");
  tell("");
  find("page").classList.remove("stale");
  if (!found) {
    showRun(null);
    find("note").textContent = editor.bytes.length > LONG ? "It is too long to be drawn; Run runs it." : `${form.key} has no timeline.`;
    return;
  }
  const { run, line, listing } = found;
  workbench.listing = { ...readListing(listing), from: line };
  workbench.listed.set(bytesOf(listing));
  showRun(run, number);
}

// What is told of the whole run, while nothing is hidden.
function tellRun() {
  if (!shown.run?.report) return;
  const { report: { events, records, end }, reportText, note } = shown.run, put = putOut(reportText).replaceAll("↵\n", "↵").slice(0, 100);
  const [first] = records.keys(), faults = many(records.size, "data fault") + (first ? `, ${records.size > 1 ? "the first " : ""}at event ${first}` : "");
  const counts = `${many(events, "event")}; ${faults}; ${end}. ${put && `It puts out: ${put} `}${note}`;
  find("note").textContent = find("hide").checked ? "" : counts;
}

// What the command writes, where it takes no long time.
async function answerAtOnce(form, input, isOld) {
  const isShort = !form.words.includes("LIMIT") || Number(command.words.LIMIT) <= MOST_RETIRED;
  if (!form.reads || input.length > LONG || !isShort) return;
  const answer = await workbench.live.answer(form.program, wordsGiven(form), input);
  if (!isOld()) showAnswer(answer, form);
}

function showAnswer({ status, output, told, time, memory }, form) {
  workbench.answer.set(output);
  const put = putOut(textOf(output.subarray(0, 4096)));
  find("put").textContent = put ? `It puts out:\n${put}` : "";
  find("tab-answer").textContent = { run: "Report", exec: "Report", trace: "Trace", mon: "Session" }[form.fixed[0]] ?? form.key;
  const took = `${time.toFixed(1)} ms, ${(memory / 1048576).toFixed(1)} MiB`;
  find("status").textContent = `${[form.program, ...wordsGiven(form)].join(" ")}: status ${status}, ${many(output.length, "byte")}, ${took}`;
  if (status === 1) refuseWord(textOf(told));
  find("answer-told").textContent = textOf(told).trim();
}

// The command, as it stands. It can be cancelled.
async function run() {
  const form = formGiven(), input = editor.bytes;
  if (!find("cancel").disabled) return;
  find("cancel").disabled = false;
  find("run").disabled = true;
  find("status").textContent = `${form.key} runs.`;
  chooseRoom("answer");
  try {
    const answer = await workbench.long.answer(form.program, wordsGiven(form), input);
    showAnswer(answer, form);
    if (answer.status === 4) showRefusal({ ...answer, output: textOf(answer.output), told: textOf(answer.told) });
  } catch (error) {
    find("status").textContent = error instanceof Cancelled ? "It was cancelled." : error.message;
  }
  find("cancel").disabled = true;
  find("run").disabled = false;
}

// Takes a source in, with a command and words, and draws it.
workbench.take = async ({ name, source, bytes, command: key, words, example = null, number }) => {
  clearTimeout(workbench.timer);
  undone = [];
  setCommand(key ?? formGiven().key, words);
  const said = bytes ? setBytes(bytes, name) : setText(source);
  clearTimeout(workbench.timer);
  shown.example = example;
  find("examples").value = example?.key ?? "";
  await draw(number);
  if (said) tell(said);
};

// The words and the source of an example, as its command in docs/ has them.
function takeExample(example, number) {
  const text = EXAMPLES.get(`${example.key.replace(/-.*/, "")}.s`), first = text.indexOf("\nprogram\n") + 1;
  return workbench.take({ ...formOfShell(example.command), source: first ? text.slice(0, first) : text, example, number });
}

// Half a second behind the last key.
function edited({ detail }) {
  clearTimeout(workbench.timer);
  shown.example = null;
  setAddress("", false);
  if (!detail) find("examples").value = "";
  find("page").classList.add("stale");
  workbench.timer = setTimeout(() => draw(shown.run ? shown.k : undefined), detail === "command" ? 0 : 500);
}

// ---- What belongs to the chosen event ----------------------------------------------------------------------------------

// The address of the instruction of an event: of what was tried, or of what an answer or a fault ends.
function instructionOf(run, k) {
  const c = run.columns[k], [bar] = c.ended;
  if (bar && !bar.isCut) return run.columns[bar.from].parts[0];
  return c.letter === "i" && c.kind !== "idle" ? addressAt(run.columns, k) : "";
}

function markPlaces() {
  const { run, k } = shown, rows = workbench.listing?.rows, isOwn = run?.words && rows;
  const row = (address) => (isOwn && address ? rows.get(address) : undefined);
  const isLast = run && k + 1 === run.columns.length, here = row(isOwn && instructionOf(run, k));
  const next = row(isOwn && !isLast && addressAt(run.columns, k + 1));
  const lineOf = (each) => each.line + workbench.listing.from;
  setMarks("next", next && next !== here ? [{ line: lineOf(next) }] : []);
  setMarks("here", here ? [{ line: lineOf(here) }] : []);
  if (here && document.activeElement !== editor.field) leadToLine(lineOf(here));
  workbench.listed.mark(here ? [here.at] : []);
}

// The words of memory that the run touches, with their values around the event.
async function tellMemory() {
  const { run, k } = shown, place = find("memory"), addresses = run?.words ? touchedWords(run, k, 28) : [];
  if (!addresses.length) {
    place.innerHTML = "";
    return;
  }
  const touched = new Set([...run.columns[k].ended].map(({ dma }) => dma));
  const values = await askMemory(workbench.live, run, k, addresses).catch(() => null);
  if (!values || shown.run !== run || shown.k !== k) return;
  place.innerHTML = `<h2>Memory ${whenOf(run.columns[k])}</h2><div class="mono">${values.map(([address, before, now]) => {
    const name = workbench.listing?.names.get(address), kind = before !== now ? "changed" : touched.has(address) ? "touched" : "";
    return `<span class="${kind}" title="it had ${before}"><b>${address}</b>${now}${name ? ` <i>${escaped(name)}</i>` : ""}</span>`;
  }).join("")}</div>`;
}

// What a handler of the fault must leave, by m88serve, from its record and the words that it names.
async function serveFault() {
  const { run } = shown, fault = faultInQuestion(), { epsr, sxip, snip, sfip, ssbr, triples } = fault.record;
  const addresses = [...new Set(fault.bars.map(({ dma }) => dma))], mem = addresses.map((address) => `mem ${address} 1`);
  const steps = fault.at > 1 ? [`step ${fault.at - 1}`] : [];
  const memory = await sessionOf(workbench.live, run.source, run.words, [...steps, ...mem]);
  const input = [`epsr ${epsr} sxip ${sxip} snip ${snip} sfip ${sfip} ssbr ${ssbr}`,
    ...triples.map(({ dmt, dmd, dma }, n) => `t${n} ${dmt} ${dmd} ${dma}`), ...memory.split("\n").filter((each) => each.startsWith("mem ")),
    ""].join("\n");
  const { status, output, told } = await askText(workbench.live, [], input, "m88serve");
  if (shown.run !== run) return;
  find("served").hidden = false;
  find("served").textContent = status === 0 ? `${input}\nm88serve:\n${output}` : told;
}

function tellServe() {
  const fault = shown.run?.words && PROGRAMS.includes("m88serve") ? faultInQuestion() : null;
  find("serve").hidden = !fault?.record;
  find("served").hidden = true;
  if (fault) find("serve-it").textContent = `What must a handler leave at fault ${fault.number}?`;
}

// ---- Where the page begins, and where an address leads -----------------------------------------------------------------

async function goToPlace() {
  const { hash } = location, held = await unpackLink(hash);
  if (held) return workbench.take({ ...held, number: held.event });
  const { key, event, way } = placeIn(hash), example = RUNS.find((each) => each.key === key);
  shown.way = way;
  await takeExample(example ?? RUNS[0], event);
  if (!hash) return tell("Try this: choose the letter i for event 8. Memory answers later then, and the fault comes later.");
  if (hash.startsWith("#v1.")) return tell("This link is cut or damaged, so late_fault stands here in its place.", true);
  if (!example) return tell(`No example is named ${key}, so late_fault stands here in its place.`, true);
  return event === undefined || shown.k === event || tell(`This run has no event ${event}.`, true);
}

async function makeLink() {
  const hash = await packLink({ source: editor.text, command: formGiven().key, words: command.words, event: shown.k });
  if (editor.field.readOnly || hash.length > LINK_MOST) return tell("What stands at the left is too long for a link; a file is better.", true);
  shown.example = null;
  setAddress(hash, true);
  await navigator.clipboard?.writeText(location.href).catch(() => {});
  return tell("The address of this page now holds the source, the words and the event; the browser may have copied it.");
}

function beginTabs() {
  for (const name of ROOMS) find(`tab-${name}`).addEventListener("click", () => chooseRoom(name));
  find("tabs").addEventListener("keydown", (event) => {
    const at = ROOMS.findIndex((name) => find(`tab-${name}`) === event.target), step = { ArrowLeft: -1, ArrowRight: 1 }[event.key];
    if (at < 0 || !step) return;
    const name = ROOMS[(at + step + ROOMS.length) % ROOMS.length];
    chooseRoom(name);
    find(`tab-${name}`).focus();
    event.preventDefault();
  });
}

function beginButtons() {
  find("run").addEventListener("click", run);
  find("cancel").addEventListener("click", () => workbench.long.cancel());
  find("link").addEventListener("click", makeLink);
  find("help").addEventListener("click", () => find("helps").showModal());
  find("serve-it").addEventListener("click", () => serveFault().catch((error) => tell(error.message, true)));
  find("examples").innerHTML = '<option value="">Examples</option>' +
    RUNS.map(({ key, title }) => `<option value="${key}">${key}: ${title}</option>`).join("");
  find("examples").addEventListener("change", ({ target }) => {
    const example = RUNS.find(({ key }) => key === target.value);
    if (!example) return;
    setAddress(placeHash(example, 0, "oldest"), true);
    shown.way = "oldest";
    takeExample(example);
  });
  find("save-source").addEventListener("click", () => saveFile(editor.file?.name ?? "source.s", editor.bytes, "text/plain"));
  find("save-answer").addEventListener("click", () => saveFile("m88.txt", workbench.answer.bytes, "text/plain"));
  find("save-listing").addEventListener("click", () => saveFile("source.lst", workbench.listed.bytes, "text/plain"));
  find("save-records").addEventListener("click", () => saveFile("source.srec", workbench.records.bytes, "text/plain"));
  document.addEventListener("keydown", (event) => {
    if (event.key === "Enter" && (event.ctrlKey || event.metaKey)) run();
    else if (event.key === "Escape" && !find("cancel").disabled) workbench.long.cancel();
    else if (event.key === "?" && !isTaken(event)) find("helps").showModal();
  });
}

function listen() {
  document.addEventListener("edited", edited);
  document.addEventListener("schedule", ({ detail: { schedule, number } }) => {
    setCommand(find("command").value, { SCHEDULE: schedule });
    shown.example = null;
    setAddress("", false);
    clearTimeout(workbench.timer);
    draw(number);
  });
  let ahead;
  document.addEventListener("chosen", () => {
    markPlaces();
    tellRun();
    tellServe();
    if (shown.example) setAddress(placeHash(shown.example, shown.k, shown.way), false);
    clearTimeout(ahead);
    ahead = setTimeout(tellMemory, 30);
  });
  window.addEventListener("hashchange", goToPlace);
}

// The forms of the other programs, which the first screen needs none of.
const beginOthers = () => (workbench.others ??= Promise.all(PROGRAMS.slice(1).map((program) => addForms(workbench.long, program))));

async function begin() {
  const why = whyNotRun();
  beginPicture(find("room"));
  beginEvents(tell);
  beginLetters();
  beginEditor();
  beginTabs();
  chooseRoom("timeline");
  if (why) return tell(why, true);
  Object.assign(workbench, { live: new Programs(), long: new Programs() });
  Object.assign(workbench, { answer: new Pages("answer"), listed: new Pages("listed"), records: new Pages("built") });
  await beginCommand(workbench.live);
  if (location.hash.startsWith("#v1.")) await beginOthers();
  beginPrompt(workbench.live);
  beginExercises((it) => workbench.take(it));
  beginFiles();
  beginButtons();
  listen();
  await goToPlace();
  document.body.dataset.ready = "1";
  await beginOthers();
}
begin().catch((error) => tell(`Nothing can be run: ${error.message}`, true));

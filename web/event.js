"use strict";
// The chosen event: its sentence, a word bit by bit, the registers, what a wrong monitor would leave, and the ways to it.

function choose(k, r = shown.r, isOfRecord = shown.isOfRecord) {
  const { run } = shown;
  if (!run) return;
  shown.k = Math.max(0, Math.min(run.columns.length - 1, k));
  shown.r = r;
  shown.isOfRecord = isOfRecord && Boolean(run.columns[shown.k].fault?.record);
  const c = run.columns[shown.k], last = run.columns.at(-1).number;
  find("event").value = c.number ?? find("event").min;
  find("count").textContent = find("hide").checked ? "" : `of ${(last ?? 0).toLocaleString("en")}`;
  find("sentence").textContent = sentenceOf(run, shown.k);
  tellState();
  tellWrong();
  mark();
  leadTo(shown.k);
  document.dispatchEvent(new CustomEvent("chosen"));
}

// What stands after each of some events: at once where it is known, else a promise. The page may know how to ask for it.
function need(run, first, last) {
  const isKnown = run.columns.slice(first, last).every((c) => c.pipe);
  return isKnown || !run.ask ? null : run.ask(first, last);
}

// What stands after the event, once it is known.
function tellState() {
  const { run, k } = shown, wanted = need(run, Math.max(0, k - 1), k + 1);
  tellWord();
  tellRegisters();
  wanted?.then(() => {
    if (shown.run !== run || shown.k !== k) return;
    tellWord();
    tellRegisters();
  }, () => {});
}

const whenOf = (c) => (c.kind === "start" ? "at the start" : `after event ${c.number}`);

// The words of a pipeline or a record, three in a row, of which one is chosen.
const wordsOf = (pipe, isOfRecord) => ROWS.map((row, r) => `<button type="button" data-r="${r}" aria-pressed="${r === shown.r}">` +
  `<b>${isOfRecord ? recordName(row) : row.name}</b> ${isEmptyStage(row, pipe) ? "·" : row.word(pipe)}</button>`).join("");

function tellWord() {
  const { run, k, r, isOfRecord } = shown, c = run.columns[k], row = ROWS[r], pipe = isOfRecord ? c.fault.record : c.pipe;
  const name = isOfRecord ? recordName(row) : row.name, where = isOfRecord ? `in record ${c.fault.number}` : whenOf(c);
  find("pipeline").innerHTML = `<h2>${isOfRecord ? "Record" : "Pipeline"} ${isOfRecord ? c.fault.number : whenOf(c)}</h2>` +
    `<div class="mono">${pipe ? wordsOf(pipe, isOfRecord) : ""}</div>`;
  find("word").innerHTML = `<h2>${name}, ${where}</h2>`;
  if (!pipe) return;
  const word = row.word(pipe);
  const rows = FIELDS[row.kind](word).map((cells) => `<tr>${cells.map((cell) => `<td>${escaped(cell)}</td>`).join("")}</tr>`);
  find("word").innerHTML = `<h2>${name} <span class="mono">${word}</span>, ${where}</h2>` +
    (row.stage === undefined ? "" : `<p>${escaped(told(accessOf(pipe.triples[row.stage])))}</p>`) +
    `<table><tr><th>bits</th><th>field</th><th>here</th></tr>${rows.join("")}</table>`;
}

function tellRegisters() {
  const { run, k } = shown, c = run.columns[k], before = run.columns[k - 1], title = `<h2>Registers ${whenOf(c)}</h2>`;
  if (!c.registers) {
    const note = run.words ? "" : "This text shows none: <code>contrib/session</code> and the command <code>regs</code> do.";
    find("registers").innerHTML = `${title}<p class="soft">${note}</p>`;
    return;
  }
  const had = (r) => before?.registers?.[r] ?? c.registers[r], isChanged = (word, r) => word !== WAITS && word !== had(r);
  const one = (word, r) => {
    const name = word === WAITS ? "waits" : isChanged(word, r) ? "changed" : word === "00000000" ? "zero" : "";
    const note = name === "changed" ? ` title="r${r} had ${had(r)}"` : "";
    return `<span class="${name}"${note}><b>r${r}</b>${word === WAITS ? "waits" : word}</span>`;
  };
  const carry = `carry ${c.carry}${before?.carry && before.carry !== c.carry ? ", changed" : ""}`;
  const note = c.registers.some(isChanged) ? "what changed is marked" : "no register changed", all = c.registers.map(one).join("");
  find("registers").innerHTML = `${title}<div class="mono">${all}</div><p class="soft">${carry}; ${note}</p>`;
}

// The fault that the wrong monitor is shown for: the chosen one, else the last before the chosen event, else the first.
function faultInQuestion() {
  const { faults } = shown.run, reached = faults.filter((fault) => fault.at <= shown.k).at(-1);
  return reached ?? (find("hide").checked ? null : faults[0]);
}

function tellWrong() {
  const fault = faultInQuestion(), place = find("wrong");
  place.hidden = find("to-wrong").hidden = !fault || !fault.record || fault.bars.length === 0;
  if (place.hidden) return;
  const { lines, verdict } = WAYS[shown.way].judge(shown.run, fault);
  place.querySelector("h2").textContent = `A wrong monitor at fault ${fault.number}, event ${shown.run.columns[fault.at].number}`;
  place.querySelector(`input[value=${shown.way}]`).checked = true;
  find("verdict").textContent = verdict;
  const rows = lines.map(({ what, wrong, right, differs }) => `<tr class="${differs ? "differs" : "same"}">` +
    `<td>${escaped(what)}</td><td>${differs ? "&#10007; " : ""}${escaped(wrong)}</td><td>${escaped(right)}</td></tr>`);
  place.querySelector("table").innerHTML = `<tr><th></th><th>if it ${WAYS[shown.way].told}</th><th>right</th></tr>${rows.join("")}`;
}

const WRONG = `
  <h2></h2>
  <fieldset class="screen"><legend class="soft">What would stand right after the service if the monitor</legend>
    ${Object.entries(WAYS).map(([name, way]) => `<label><input type="radio" name="way" value="${name}"> ${way.told}</label>`).join("")}
  </fieldset>
  <p id="verdict" role="status"></p>
  <div class="scroll"><table></table></div>`;

// ---- Ways to an event ------------------------------------------------------------------------------------------------

// An event by its number; whether there is one.
function goToEvent(number) {
  const k = number - Number(find("event").min);
  if (!Number.isInteger(k) || k < 0 || k >= shown.run.columns.length) return false;
  chooseEvent(k);
  return true;
}

// An event is chosen with the word that tells most of it: the failed transaction of a record, else the word that was chosen.
function chooseEvent(k) {
  const isFault = Boolean(shown.run.columns[k].fault?.record);
  choose(k, isFault ? ROW.DMT0 : shown.isOfRecord ? ROW.XIP : shown.r, isFault);
}

function goToFault(step) {
  const { faults } = shown.run ?? { faults: [] };
  const fault = step > 0 ? faults.find((f) => f.at > shown.k) : faults.filter((f) => f.at < shown.k).at(-1);
  if (fault) chooseEvent(fault.at);
}

// Up and down lead through the words of an event: of the pipeline, and after them of the record.
function chooseWord(step) {
  const { run, k, r, isOfRecord } = shown, hasRecord = Boolean(run.columns[k].fault?.record);
  const at = isOfRecord ? ROWS.length + RECORD.indexOf(r) : r;
  const n = Math.max(0, Math.min(ROWS.length - 1 + (hasRecord ? RECORD.length : 0), at + step));
  choose(k, n < ROWS.length ? n : RECORD[n - ROWS.length], n >= ROWS.length);
}

// Left and right, `n` and `p` lead on wherever the reader is, but for what takes them itself; the others in the picture.
const KEYS = {
  ArrowLeft: () => choose(shown.k - 1), ArrowRight: () => choose(shown.k + 1), n: () => goToFault(1), p: () => goToFault(-1),
};
const KEYS_OF_PICTURE = {
  ArrowUp: () => chooseWord(-1), ArrowDown: () => chooseWord(1),
  Home: () => choose(0), End: () => choose(shown.run.columns.length - 1),
  PageUp: () => choose(shown.k - PART), PageDown: () => choose(shown.k + PART),
};

// Whether a key belongs to what has the focus: a field, a list, a choice or a tab.
function isTaken({ target, key }) {
  const { tagName, type } = target;
  if (tagName === "TEXTAREA" || tagName === "SELECT") return true;
  if (tagName === "INPUT" && type !== "checkbox" && type !== "radio") return true;
  return (type === "radio" || target.role === "tab") && key.startsWith("Arrow") || Boolean(target.closest?.("dialog"));
}

function pressKey(event) {
  if (isTaken(event) || !shown.run || event.ctrlKey || event.metaKey || event.altKey) return;
  const lead = KEYS[event.key] ?? (find("picture").contains(event.target) ? KEYS_OF_PICTURE[event.key] : null);
  if (!lead) return;
  lead();
  event.preventDefault();
}

function beginEvents(say) {
  find("wrong").innerHTML = WRONG;
  find("wrong").addEventListener("change", (event) => {
    shown.way = event.target.value;
    tellWrong();
    document.dispatchEvent(new CustomEvent("chosen"));
  });
  find("pipeline").addEventListener("click", ({ target }) => {
    const r = target.closest("button")?.dataset.r;
    if (r !== undefined) choose(shown.k, Number(r));
  });
  document.addEventListener("keydown", pressKey);
  find("back").addEventListener("click", () => choose(shown.k - 1));
  find("forth").addEventListener("click", () => choose(shown.k + 1));
  find("before").addEventListener("click", () => goToFault(-1));
  find("next").addEventListener("click", () => goToFault(1));
  find("to-wrong").addEventListener("click", () => find("wrong").scrollIntoView());
  find("hide").addEventListener("change", () => {
    if (!shown.run) return;
    choose(shown.k);
    veil(find("picture"));
  });
  find("event").addEventListener("change", (event) => {
    if (shown.run && !goToEvent(Number(event.target.value))) {
      say(`There is no event ${event.target.value}: this run has ${find("event").min} to ${find("event").max}.`, true);
      choose(shown.k);
    }
  });
}

// The address is changed; a new place is one that Back leads from. A frame may have no address.
function setAddress(hash, isNew) {
  try {
    if (location.hash === hash) return;
    history[isNew ? "pushState" : "replaceState"](null, "", hash || location.pathname);
  } catch { /* nothing is remembered there */ }
}

// The address of an example: its name, the event, and a wrong way that isn't the first.
const placeHash = ({ key }, event, way) => `#${[key, event, ...(way === "oldest" ? [] : [way])].join(",")}`;

// The place that an address names: `key,event,way`.
function placeIn(hash) {
  const [key, event, way] = decodeURIComponent(hash.replace(/^#/, "")).split(",");
  return { key, event: event === undefined ? undefined : Number(event), way: way in WAYS ? way : "oldest" };
}

// Takes a run in, and chooses its first fault, or an event by its number.
function showRun(run, number) {
  shown.run = run;
  find("page").classList.toggle("empty", !run);
  if (!run) return;
  const first = run.columns[0];
  Object.assign(find("event"), { min: first.number ?? (run.columns[1]?.number ?? 1) - 1, max: run.columns.at(-1).number ?? 0 });
  layPicture();
  if (number !== undefined && goToEvent(number)) return;
  const fault = run.faults[0];
  choose(fault ? fault.at : 0, fault?.record ? ROW.DMT0 : ROW.XIP, Boolean(fault?.record));
}

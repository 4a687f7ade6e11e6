"use strict";
// The letters of the schedule, set where they happen: at the chosen event. The run is drawn anew, and each change can be undone.

let undone = []; // the schedules before, each with its event
const LETTERS = { i: "tries to issue the next instruction", r: "lets memory answer the oldest transaction", e: "makes every page absent" };

// The letters up to an event as the run took them, with another one at the event.
function scheduleWith(k, letter) {
  const { columns } = shown.run, given = command.words.SCHEDULE === "-" ? "" : command.words.SCHEDULE;
  const taken = columns.slice(1, k + 1).map((c) => c.letter).join("");
  return (taken.slice(0, k - 1) + letter + given.slice(k)) || "-";
}

function setSchedule(schedule) {
  undone.push({ schedule: command.words.SCHEDULE, k: shown.k });
  document.dispatchEvent(new CustomEvent("schedule", { detail: { schedule, number: shown.k } }));
}

function setLetter(letter) {
  const c = shown.run?.columns[shown.k];
  if (!shown.run?.words || !c?.letter || c.letter === letter || !formGiven().words.includes("SCHEDULE")) return;
  setSchedule(scheduleWith(shown.k, letter));
}

function undoLetter() {
  const last = undone.pop();
  if (last) document.dispatchEvent(new CustomEvent("schedule", { detail: { schedule: last.schedule, number: last.k } }));
}

function tellLetters() {
  const c = shown.run?.columns[shown.k];
  find("letters").hidden = !shown.run?.words;
  for (const button of find("letters").querySelectorAll("[data-letter]")) {
    button.setAttribute("aria-pressed", String(c?.letter === button.dataset.letter));
    button.disabled = !c?.letter;
  }
  find("undo").disabled = undone.length === 0;
}

function beginLetters() {
  find("letters").innerHTML = '<span class="soft">letter</span>' + Object.entries(LETTERS).map(([letter, told]) =>
    `<button type="button" data-letter="${letter}" title="${letter}: ${told}" aria-keyshortcuts="${letter}">${letter}</button>`).join("") +
    '<button type="button" id="undo" title="the letters before (Ctrl+Z in the picture)">Undo</button>';
  find("letters").addEventListener("click", ({ target }) => { if (target.dataset.letter) setLetter(target.dataset.letter); });
  find("undo").addEventListener("click", undoLetter);
  for (const letter of Object.keys(LETTERS)) KEYS[letter] = () => { if (!find("room-timeline").hidden) setLetter(letter); };
  document.addEventListener("keydown", (event) => {
    if ((event.ctrlKey || event.metaKey) && event.key === "z" && !isTaken(event)) undoLetter();
  });
  document.addEventListener("chosen", tellLetters);
}

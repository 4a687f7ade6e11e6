"use strict";
// What would stand after the service of a fault if the monitor did it in another way, each in one line beside what is right, and
// a sentence of what becomes of the program: from the record, the values and the texts of later instructions alone. None is
// carried out here.

const WAYS = {
  oldest: { told: "finished only the oldest transaction", judge: onlyOldest },
  order: { told: "finished them in the wrong order, the youngest first", judge: wrongOrder },
  ssbr: { told: "didn't clear SSBR", judge: uncleared },
  sxip: { told: "resumed by SXIP", judge: resumedBySxip },
};

const line = (what, wrong, right) => ({ what, wrong, right, differs: wrong !== right });
const UNTOLD = "a value that this text doesn't show";
const byLuck = (why) => `This fault would be repaired all the same, by luck: ${why}.`;
const valueOf = (bar) => (bar.dreg === 0 ? "00000000" : bar.got ?? UNTOLD);
const bytesAt = (bar) => `${spanOf(bar.en).trim() || "word"} at ${addressOf(bar)}`;
const verb = (names, one, more) => `${listed(names)} ${names.length === 1 ? one : more}`;
const opening = (text) => text[0].toUpperCase() + text.slice(1);

// The line of a transaction that the monitor finishes as it should.
function doneLine(bar) {
  const right = bar.write ? datumOf(bar) : valueOf(bar);
  return line(bar.write ? bytesAt(bar) : `r${bar.dreg}`, right, right);
}

const NAMES_REGISTER = Array.from({ length: 32 }, (_, r) => new RegExp(`\\br${r}\\b`));
// Whether an instruction uses or writes a register, by its text: the names there, the second half of a double, the link
// register of a call, and what the monitor's trap reads.
function namesRegister(c, r) {
  if (c.kind === "output") return r === 2 || r === 9;
  if (c.kind === "end") return r === 9 && c.parts[0].startsWith("exit");
  if (c.kind !== "issue") return false;
  const text = c.parts[1], double = /^(?:ld|st)\.d\S* r(\d+)/.exec(text);
  const isSecond = double !== null && Number(double[1]) + 1 === r, isLink = r === 1 && /^(bsr|jsr)/.test(text);
  return isSecond || isLink || NAMES_REGISTER[r].test(text);
}

// The first later instruction that registers which wait for ever would hold: its line, and what becomes of the program.
function holding(run, fault, registers) {
  if (registers.length === 0) return { lines: [], says: "" };
  const c = run.columns.find((each, n) => n > fault.at && registers.some((r) => namesRegister(each, r)));
  const names = registers.map((r) => `r${r}`);
  if (!c) {
    const says = ` The program would end all the same, by luck: no later instruction here names ${listed(names)}.`;
    return { lines: [line("the next instruction that names one", "held for ever", "not in this run")], says };
  }
  const what = c.kind === "issue" ? spelled(c) : `the trap of event ${c.number}`;
  const says = ` The program would never end: ${what} would wait for ever.`;
  return { lines: [line(what, "held for ever", `carried out at event ${c.number}`)], says };
}

function onlyOldest(run, fault) {
  const [oldest, ...others] = fault.bars, stores = others.filter((bar) => bar.write);
  const lines = [doneLine(oldest), ...others.map((bar) => {
    const done = doneLine(bar);
    if (bar.write) return line(done.what, "keeps what it had", done.right);
    return bar.dreg === 0 ? done : line(done.what, "waits for ever", done.right);
  })];
  const waiting = others.filter((bar) => !bar.write && bar.dreg !== 0).map((bar) => bar.dreg), held = holding(run, fault, waiting);
  const lost = [...stores.map((bar) => `the ${spoken(bar)}`), ...waiting.map((r) => `the value of r${r}`)];
  if (others.length === 0) return { lines, verdict: byLuck("one transaction was pending") };
  if (lost.length === 0) return { lines, verdict: byLuck("what is left out loads into r0, which keeps nothing") };
  return { lines: [...lines, ...held.lines], verdict: `${opening(verb(lost, "is", "are"))} lost.${held.says}` };
}

// Which store each byte has its datum from, -1 for what it had before the fault, when the transactions are finished in an order.
function finish(bars, order) {
  const memory = new Map(), seen = [];
  for (const n of order) {
    const places = placesOf(bars[n]);
    if (bars[n].write) places.forEach((place) => memory.set(place, n));
    else seen[n] = places.map((place) => memory.get(place) ?? -1);
  }
  bars.forEach((bar, n) => { if (bar.write) seen[n] = placesOf(bar).map((place) => memory.get(place)); });
  return seen;
}

// The byte that a store puts at an address.
const byteOf = (bar, place) => datumOf(bar).match(/../g)[placesOf(bar).indexOf(place)];

// What the bytes of a transaction hold, where stores of the record put them there.
function heldBy(bars, n, sources) {
  const bytes = placesOf(bars[n]).map((place, k) => (sources[k] < 0 ? "" : byteOf(bars[sources[k]], place)));
  if (bytes.every((byte) => byte === "")) return "what stood there before the store";
  if (bytes.some((byte) => byte === "")) return "some bytes of the store, and some that stood there before";
  const datum = bytes.join("");
  if (bars[n].write || datum.length === 8) return datum;
  return datum.padStart(8, bars[n].signed && /^[89A-F]/.test(datum) ? "F" : "0");
}

function wrongOrder(run, fault) {
  const { bars } = fault, forth = bars.map((_, n) => n), right = finish(bars, forth), wrong = finish(bars, forth.slice().reverse());
  const isSpoiled = (n) => String(right[n]) !== String(wrong[n]);
  const lines = bars.map((bar, n) => {
    const done = doneLine(bar);
    return isSpoiled(n) ? line(done.what, heldBy(bars, n, wrong[n]), done.right) : done;
  });
  const spoiled = lines.filter((each) => each.differs);
  const overtaken = bars.filter((_, n) => isSpoiled(n))
    .map((bar) => line(toldOfBar(bar), "overtaken by a younger one", "finished in its turn"));
  const luck = bars.length === 1 ? "one transaction was pending" :
    overtaken.length ? "what is overtaken leaves the same values here" : "no store among them touches bytes of another";
  const verdicts = spoiled.map((each) => `${each.what} would be wrong: ${each.wrong}, and not ${each.right}.`);
  return { lines: [...lines, ...overtaken], verdict: verdicts.join(" ") || byLuck(luck) };
}

function uncleared(run, fault) {
  const waiting = fault.waits.map((wait) => wait.dreg), names = waiting.map((r) => `r${r}`), held = holding(run, fault, waiting);
  const lines = fault.bars.map((bar) => {
    const done = doneLine(bar);
    return !bar.write && waiting.includes(bar.dreg) ? line(done.what, `${done.right}, but it waits for ever`, done.right) : done;
  });
  lines.push(line("SSBR", fault.record.ssbr, "00000000"), ...held.lines);
  if (waiting.length === 0) return { lines, verdict: byLuck("no register waited") };
  const have = verb(names, "has its value, and no instruction may use it", "have their values, and no instruction may use them");
  return { lines, verdict: `${have}.${held.says}` };
}

const BRANCH = /^(br|bb0|bb1|bcnd|jmp|bsr|jsr)(\.n)?( |$)/;
const isBranch = (c) => c.kind === "issue" && BRANCH.test(c.parts[1]);
const registersIn = (text) => text.match(/\br\d+\b/g) ?? [];
const SAME = "The program would come out right, by luck: what is done twice is the same again.";

// What carrying the instruction out a second time does, by its text.
function twice(c) {
  const say = (what, wrong, right, says) => ({ ...line(what, wrong, right), says }), luck = "comes out right, by luck, and a device would notice";
  if (c.kind === "output") {
    return say("the output", `${c.parts[1]}${c.parts[1]}`, c.parts[1], `The byte ${byteShown(c.parts[1])} would be put out twice.`);
  }
  const text = c.parts[1], [first, ...others] = registersIn(text);
  const isLoad = /^ld/.test(text), once = isLoad ? "loaded once" : "made once";
  if (isBranch(c)) return say("the branch", "the same way again", "the same way again", SAME);
  if (/^xmem/.test(text)) {
    const says = `The exchange would be undone: ${first} and the word are exchanged back.`;
    return say(`${first} and the word`, "exchanged back", "exchanged once", says);
  }
  if (/^st/.test(text)) return say("the store", "made again, as a device would notice", once, `A store would be made twice: memory ${luck}.`);
  if (first && first !== "r0" && others.includes(first)) {
    const now = c.became.find(([r]) => `r${r}` === first)?.[1] ?? "of the first time";
    const wrong = isLoad ? "loaded from another address, its own new value" : `computed again, from its own new value ${now}`;
    return say(first, wrong, now, `${first} would be wrong: it is ${wrong}.`);
  }
  if (isLoad) return say(first, "loaded again, as a device would notice", once, `A load would be made twice: the program ${luck}.`);
  return say(first ?? text, "the same value again", "the same value again", SAME);
}

function resumedBySxip(run, fault) {
  const { record, last, late } = fault, [xip, nip, fip] = [record.sxip, record.snip, record.sfip].map(pointer);
  const right = `${nip.address}${nip.v ? "" : ", a bubble,"} and then ${fip.address}`;
  if (!xip.v) {
    const none = line("the program goes on at", "nothing: no instruction is retired yet", right);
    return { lines: [none], verdict: "The monitor would have no address to go on at: no instruction is retired yet." };
  }
  const lines = [line("the program goes on at", xip.address, right)];
  const failed = late && run.columns[late.from], c = last === null ? null : run.columns[last];
  if (failed && failed.parts[0] !== xip.address) {
    lines.push(line("the instruction whose transaction failed", `taken for the one at ${xip.address}`, spelled(failed)));
  }
  lines.push(line(c?.kind === "issue" ? spelled(c) : `the instruction at ${xip.address}`, "done twice", "done once"));
  const again = c && twice(c), straight = hex(value(xip.address) + 4);
  if (again) lines.push(again);
  if (c && !isBranch(c) && nip.address !== straight) {
    const comes = "comes after the slot";
    lines.push(line(`the branch to ${nip.address}`, `lost: ${straight} ${comes}`, `${nip.address} ${comes}`));
    return { lines, verdict: "The program would leave its way: the branch before the slot is forgotten." };
  }
  return { lines, verdict: again ? again.says : `What is done twice isn't in this text: the instruction at ${xip.address}.` };
}

"use strict";
// A run out of a session's text: what contrib/session writes, or `m88 mon` with `trace 1`, `pipe` and `regs` in turn.

// A session: what stood before its first event, if it shows that, and each event with what stands after it.
function readSession(text) {
  const lines = new Lines(text), first = readState(lines), columns = first.pipe ? [{ kind: "start", parts: [], ...first }] : [];
  for (lines.skip(); !lines.isOver; lines.skip()) {
    if (isOfPipe(lines.line) || isOfRegisters(lines.line)) lines.wrong("a pipeline or registers without an event before them");
    const event = lines.take(eventOf, "no line of an event, of a pipeline, of registers or of counts"), last = columns.at(-1);
    if (last?.number && event.number !== last.number + 1) {
      lines.at--;
      lines.wrong(`event ${last.number + 1} is wanted; use trace 1 and pipe in turn`);
    }
    const state = readState(lines);
    if (!state.pipe) lines.wrong(`the pipeline after event ${event.number} is wanted; use trace 1 and pipe in turn`);
    columns.push({ ...event, ...state });
  }
  if (columns.length === 0) throw new Error("there is no event and no pipeline in this text");
  return columns;
}

const validOf = (pipe) => pipe.triples.filter((t) => fieldsOf(t.dmt).valid);

// The registers that got another value by an event.
function changedIn(columns, k) {
  const now = columns[k].registers, before = columns[k - 1]?.registers;
  return now && before ? [...now.keys()].filter((r) => now[r] !== before[r] && now[r] !== WAITS).map((r) => [r, now[r]]) : [];
}

// The same columns with what each event began, and what it brought. Before the first one something may be pending already.
function runOfSession(text) {
  const columns = readSession(text);
  columns.forEach((c, k) => {
    const before = k === 0 ? 0 : validOf(columns[k - 1].pipe).length;
    c.accesses = k === 0 || c.kind === "issue" ? validOf(c.pipe).slice(before).map(accessOf) : [];
    c.became = changedIn(columns, k);
    c.record = c.kind === "fault" ? columns[k - 1]?.pipe ?? null : null;
  });
  const run = runOf(columns);
  for (const bar of run.bars) if (!bar.write) bar.got = columns[bar.to]?.registers?.[bar.dreg];
  return run;
}

// What a text is, by its first lines.
const KINDS = {
  records: /^\s*S[0-9][0-9A-Fa-f]{2}/, trace: /^\d+ [0-9A-F]{8} [0-9A-F]{8}/, report: /^end (limit|exit at|vector)/,
  answer: /^refused \d+:\d+ /, objects: /^object \S+\n/, session: /^epsr [^]*^\d+ [ire] /m, fault: /^epsr [0-9A-F]{8} /,
  script: /^(step|trace|go|break|regs|pipe|mem|drain)\b[^]*^source\r?$/m, programs: /^program\r?$/m,
};
const kindOf = (text) => Object.keys(KINDS).find((kind) => KINDS[kind].test(text)) ?? "source";

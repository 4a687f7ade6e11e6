"use strict";
// The text at the left: a field with numbers of lines, marks behind its text, and the bytes of a file as long as nobody types.

const LONG = 200000; // bytes: a field of text takes long for more
const HEAD = 500; // lines of what is too long, for a look
const LINE_HIGH = 18;

const editor = {
  file: null, // what was opened: its bytes, and the text that stands there for them
  marks: [], // {line, kind, told}
  lines: 1,
  get field() { return find("source"); },
  get text() { return this.field.value; },
  // The input: the bytes of the file that was opened, while its text stands there as it was laid. A field has LF for each CR LF,
  // and no place for bytes that are no text.
  get bytes() { return this.file?.text === this.field.value ? this.file.bytes : bytesOf(this.field.value); },
};

function setText(text) {
  editor.file = null;
  laySource(text, true);
}

// Whether bytes are a text that a field keeps: UTF-8 with no CR but before LF, and no zero.
function plainText(bytes) {
  try {
    const text = new TextDecoder("utf-8", { fatal: true, ignoreBOM: true }).decode(bytes);
    return /\0|\r(?!\n)/.test(text) ? null : text.replaceAll("\r\n", "\n");
  } catch {
    return null;
  }
}

// Takes the bytes of a file in. What is too long, or no text, is shown in part and can't be changed here.
function setBytes(bytes, name) {
  const whole = bytes.length <= LONG ? plainText(bytes) : null;
  const head = () => new TextDecoder("latin1").decode(bytes.subarray(0, LONG)).split("\n", HEAD).join("\n");
  const text = whole ?? head().replaceAll("\0", "\u2400");
  editor.file = { bytes, name, text };
  laySource(text, whole !== null);
  editor.file.text = editor.text;
  if (whole !== null) {
    return bytes.length === bytesOf(text).length ? "" : `${name} ends its lines with CR LF; it is taken as it is until it is changed.`;
  }
  return `${name} has ${many(bytes.length, "byte")}, and is taken as it is. ` +
    (bytes.length > LONG ? "It is too long to be changed here; its beginning is shown." : "It is no text, and can't be changed here.");
}

function laySource(text, isOpen) {
  editor.field.readOnly = !isOpen;
  editor.field.value = text;
  editor.field.scrollTop = 0;
  editor.marks = [];
  sourceChanged();
}

function sourceChanged() {
  editor.lines = editor.field.value.split("\n").length;
  drawEditor();
  document.dispatchEvent(new CustomEvent("edited"));
}

// The numbers of the lines in view, and the marks behind them.
function drawEditor() {
  const { scrollTop, scrollLeft, clientHeight } = editor.field, first = Math.floor(scrollTop / LINE_HIGH), shown = [];
  const last = Math.min(editor.lines, first + Math.ceil(clientHeight / LINE_HIGH) + 1);
  const top = (line) => (line - 1) * LINE_HIGH - scrollTop + 6, left = (columns) => `left: calc(${columns}ch + 6px - ${scrollLeft}px)`;
  const kinds = new Map(editor.marks.map((each) => [each.line, each.kind]));
  for (let line = first + 1; line <= last; line++) {
    const sign = { refused: "✗", here: "▶", next: "▷" }[kinds.get(line)] ?? "";
    shown.push(`<div class="${kinds.get(line) ?? ""}" style="top: ${top(line)}px">${sign} ${line}</div>`);
  }
  find("numbers").innerHTML = shown.join("");
  const lines = editor.field.value.split("\n", last);
  const inView = editor.marks.filter(({ line }) => line > first && line <= last);
  find("behind").innerHTML = inView.map(({ line, kind, told = "", column }) => {
    const caret = column === undefined ? "" : `<i style="${left(column)}"></i>`;
    const note = told && `<b style="${left(widthOf(lines[line - 1] ?? "") + 2)}">${escaped(told)}</b>`;
    return `<div class="${kind}" style="top: ${top(line)}px">${caret}${note}</div>`;
  }).join("");
}

// How many columns a line takes, its tabs up to each eighth.
const widthOf = (line) => [...line].reduce((at, letter) => (letter === "\t" ? at + 8 - (at % 8) : at + 1), 0);

function setMarks(kind, marks) {
  editor.marks = [...editor.marks.filter((each) => each.kind !== kind), ...marks.map((each) => ({ ...each, kind }))];
  drawEditor();
}

// Marks a refusal at its line and its column, which counts bytes.
function markRefusal(line, column, told) {
  const text = editor.text.split("\n")[line - 1] ?? "", before = textOf(bytesOf(text).subarray(0, column - 1));
  setMarks("refused", [{ line: Math.min(line, editor.lines), column: widthOf(before), told: `✗ ${told}` }]);
}

// Brings a line into view, if it isn't.
function leadToLine(line) {
  const { field } = editor, top = (line - 1) * LINE_HIGH;
  if (top < field.scrollTop || top + 2 * LINE_HIGH > field.scrollTop + field.clientHeight) {
    field.scrollTop = Math.max(0, top - field.clientHeight / 3);
    drawEditor();
  }
}

function beginEditor() {
  editor.field.addEventListener("input", sourceChanged);
  editor.field.addEventListener("scroll", drawEditor);
  new ResizeObserver(drawEditor).observe(editor.field);
}

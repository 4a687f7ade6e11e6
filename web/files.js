"use strict";
// What is opened or dropped: by its first bytes a source, records, a binary, a trace, a fault, or something to be told.

const isOfText = (bytes) => !bytes.subarray(0, 4096).some((each) => each < 32 && each !== 9 && each !== 10 && each !== 13);
const begins = (bytes, ...first) => first.every((each, n) => bytes[n] === each);

const TOLD = {
  report: "is the report of a run, which needs its source to be drawn", answer: "is the answer of a program that refused its input",
  session: "is a session of mon, which contrib/pipe.html draws",
};
// The kind of a file, and what is said of one that can't be taken.
function kindOfFile(bytes) {
  if (begins(bytes, 0xFF, 0xFE) || begins(bytes, 0xFE, 0xFF)) return { why: "is in UTF-16. Save it as ASCII or UTF-8" };
  if (begins(bytes, 0xEF, 0xBB, 0xBF)) return { kind: "source", from: 3 };
  if (begins(bytes, 0x7F, 0x45, 0x4C, 0x46)) return { why: "is an ELF file. Records are made of it by `objcopy -O srec`" };
  const kind = isOfText(bytes) ? kindOf(textOf(bytes)) : "binary";
  return kind in TOLD ? { why: TOLD[kind] } : { kind };
}

const taker = (command) => (bytes, name) => workbench.take({ name, bytes, command });
const TAKERS = {
  source: taker(), objects: taker("m88 link"), script: taker("m88 mon"), programs: taker("m88 share"), fault: taker("m88serve"),
  records: (bytes, name) => takeRom(bytes, name, []),
  binary: askAddress, trace: takeTrace,
};

async function openFile(bytes, name) {
  const { kind, why, from = 0 } = kindOfFile(bytes);
  if (why) return tell(`${name} ${why}.`, true);
  try {
    return await TAKERS[kind](bytes.subarray(from), name);
  } catch (error) {
    return tell(error.message, true);
  }
}

// A ROM goes through m88source into the editor, where it can be changed, and built again.
async function takeRom(bytes, name, words) {
  const { status, output, told } = await askText(workbench.long, words, bytes, "m88source");
  if (status !== 0) return tell(`${name}: ${told || output}`, true);
  await workbench.take({ name, source: output, command: formGiven().reads === "SOURCE" ? undefined : "m88 run" });
  return tell(`${name} is shown as m88source writes it; Records has what it builds.`);
}

function askAddress(bytes, name) {
  const dialog = find("binary");
  find("binary-name").textContent = `${name}, ${many(bytes.length, "byte")}`;
  dialog.returnValue = "";
  dialog.showModal();
  return new Promise((resolve) => {
    const takes = {
      take: () => takeRom(bytes, name, ["at", find("address").value.trim() || "0", ...find("entries").value.split(/[\s,]+/).filter(Boolean)]),
      source: () => workbench.take({ name, bytes }),
    };
    dialog.onclose = () => resolve(takes[dialog.returnValue]?.());
  });
}

// A trace that is dropped stands behind the source at the left, and is checked against it.
async function takeTrace(bytes, name) {
  const { source } = shown.run ?? { source: editor.bytes }, end = source.at(-1) === 10 ? "trace\n" : "\ntrace\n";
  await workbench.take({ name: "check.txt", bytes: joined(source, bytesOf(end), bytes), command: "m88 check" });
  if (!find("said").classList.contains("wrong")) tell(`${name} is a trace of the source: ${textOf(workbench.answer.bytes)}`);
}

function beginFiles() {
  const open = async (file) => openFile(new Uint8Array(await file.arrayBuffer()), file.name);
  find("file").addEventListener("change", async ({ target }) => {
    if (target.files[0]) await open(target.files[0]);
    target.value = "";
  });
  document.addEventListener("dragover", (event) => { event.preventDefault(); document.body.classList.add("over"); });
  document.addEventListener("dragleave", () => document.body.classList.remove("over"));
  document.addEventListener("drop", (event) => {
    event.preventDefault();
    document.body.classList.remove("over");
    if (event.dataTransfer.files[0]) open(event.dataTransfer.files[0]);
    else openFile(bytesOf(event.dataTransfer.getData("text/plain")), "the text");
  });
}

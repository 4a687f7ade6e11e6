"use strict";
// A link that can be given to somebody: a source with its command, words and event, packed.

const LINK_MOST = 8000;

async function through(bytes, stream) {
  return new Uint8Array(await new Response(new Blob([bytes]).stream().pipeThrough(stream)).arrayBuffer());
}

async function packLink(it) {
  const bytes = await through(bytesOf(JSON.stringify(it)), new CompressionStream("deflate-raw"));
  let letters = "";
  for (const each of bytes) letters += String.fromCharCode(each);
  return `#v1.${btoa(letters).replaceAll("+", "-").replaceAll("/", "_").replaceAll("=", "")}`;
}

// What a link holds, or null where it is none or was cut.
async function unpackLink(hash) {
  if (!hash.startsWith("#v1.")) return null;
  try {
    const letters = atob(hash.slice(4).replaceAll("-", "+").replaceAll("_", "/"));
    const bytes = Uint8Array.from(letters, (each) => each.charCodeAt(0));
    const it = JSON.parse(textOf(await through(bytes, new DecompressionStream("deflate-raw"))));
    return typeof it.source === "string" && typeof it.command === "string" && typeof it.words === "object" ? it : null;
  } catch {
    return null;
  }
}

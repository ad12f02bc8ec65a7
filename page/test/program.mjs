// The page's program in the browser writes what the same program writes natively: line by line, and byte by byte over a long session.
import { spawnSync } from "node:child_process";
import { createHash } from "node:crypto";
import { existsSync } from "node:fs";
import { readFile } from "node:fs/promises";
import { fileURLToPath } from "node:url";
import { done, same } from "./people.mjs";
import { record } from "./record.mjs";

const here = (path) => new URL(path, import.meta.url);
// How many matches of each game are recorded.
const MATCHES = 12;
const lines = async (path) => (await readFile(here(path), "utf8")).trimEnd().split("\n");

export async function program(scene) {
  if (!existsSync(here("../page_program.wasm"))) return "there is no page/page_program.wasm";
  const given = await lines("../../crates/page_program/stdin");
  const wanted = await lines("../../crates/page_program/stdout");
  const ann = await scene.browser.page("ann");
  await ann.goto(scene.files);
  const written = await ann.value(`(async () => {
    const { startProgram } = await import("./guess.js");
    const program = await startProgram();
    if (!program) return null;
    const written = [];
    for (const line of ${JSON.stringify(given)}) {
      const { send, shown } = await program.run(line);
      if (send !== null) written.push(">" + send);
      written.push("=" + JSON.stringify(shown));
    }
    return written;
  })()`);
  if (written === null) return "this browser has no WebAssembly with promises";
  same(written.length, wanted.length, "as many lines");
  wanted.forEach((line, at) => same(written[at][0] + JSON.stringify(JSON.parse(written[at].slice(1))), line, `line ${at + 1}`));
  await done(ann);
  return null;
}

/** What a run of the program's module writes, whose input is this text. It is run in a page. */
async function written(text) {
  const input = new TextEncoder().encode(text);
  const parts = [];
  let memory, at = 0;
  const page = {
    read(to, room) {
      const part = input.subarray(at, at + Number(room));
      new Uint8Array(memory.buffer, Number(to), part.length).set(part);
      at += part.length;
      return BigInt(part.length);
    },
    write(from, count) { parts.push(new Uint8Array(memory.buffer, Number(from), Number(count)).slice()); },
  };
  const { instance } = await WebAssembly.instantiateStreaming(fetch("page_program.wasm"), { page });
  memory = instance.exports.memory;
  const status = instance.exports.page_main();
  return { status, text: await new Blob(parts).text() };
}

/** A long session, recorded from the server. */
export async function recorded(scene) {
  if (!existsSync(here("../page_program.wasm"))) return "there is no page/page_program.wasm";
  const native = process.env.SARPUNTXE_PAGE_PROGRAM ?? fileURLToPath(here("../../crates/page_program/out/page_program"));
  if (!existsSync(native)) return `there is no ${native}`;
  const lines = await record(scene.server, MATCHES);
  const text = `${lines.join("\n")}\n`;
  const wanted = spawnSync(native, { input: text, maxBuffer: 1 << 30 });
  same([wanted.status, wanted.stderr.toString()], [0, ""], "the native program");
  const ann = await scene.browser.page("ann");
  await ann.goto(scene.files);
  const is = await ann.value(`(${written})(${JSON.stringify(text)})`);
  same(is.status, 0, "the status of the program in the browser");
  const sum = (bytes) => createHash("sha256").update(bytes).digest("hex");
  same([Buffer.byteLength(is.text), sum(is.text)], [wanted.stdout.length, sum(wanted.stdout)], "what both write");
  console.log(`        ${lines.length} lines of ${text.length} characters, answered by ${wanted.stdout.length} bytes`);
  await done(ann);
  return null;
}

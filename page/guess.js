// The client that guesses ahead: a proved program, which the browser runs as WebAssembly. It takes lines and answers lines, and decides alone
// what is guessed and what of it is taken back. Where the browser can't run it, or the file isn't there, the page does without.

const FILE = "page_program.wasm";
/** How many bytes a line of the program may have. */
const LONGEST = 65_536;

/** The program has ended, or the browser can't run it. */
export class Over extends Error {}

let module = null;

/** The program's module, made once, or null where there is none. */
function compiled() {
  module ??= WebAssembly.Suspending && WebAssembly.promising
    ? WebAssembly.compileStreaming(fetch(new URL(FILE, import.meta.url))).catch(() => null)
    : Promise.resolve(null);
  return module;
}

/** A running program, or null where there is none. */
export async function startProgram() {
  const code = await compiled();
  if (!code) return null;
  try {
    return await Program.start(code);
  } catch {
    return null;
  }
}

class Program {
  #exports; #lines = []; #rest = new Uint8Array(0); #wake = () => {}; #written = ""; #decoder = new TextDecoder();
  #asked = []; #send = null; #over = false;

  static async start(code) {
    const program = new Program();
    const page = { read: new WebAssembly.Suspending((to, room) => program.#read(to, room)), write: (at, count, where) => program.#write(at, count, where) };
    program.#exports = (await WebAssembly.instantiate(code, { page })).exports;
    WebAssembly.promising(program.#exports.page_main)().catch(() => {}).then(() => program.#end());
    return program;
  }

  /** Takes a line, and answers the line to send or null, and the snapshot to show or null. */
  run(line) {
    const bytes = new TextEncoder().encode(`${line}\n`);
    if (this.#over || bytes.length > LONGEST) {
      this.#end();
      return Promise.reject(new Over());
    }
    return new Promise((done, failed) => {
      this.#asked.push({ done, failed });
      this.#lines.push(bytes);
      this.#wake();
    });
  }

  /** The program asks for bytes: it waits until a line comes. */
  async #read(to, room) {
    while (!this.#rest.length) {
      if (this.#lines.length) this.#rest = this.#lines.shift();
      else await new Promise((go) => { this.#wake = go; });
    }
    const count = Math.min(this.#rest.length, Number(room));
    // The memory may have grown since, so the view of it is made anew.
    new Uint8Array(this.#exports.memory.buffer, Number(to), count).set(this.#rest.subarray(0, count));
    this.#rest = this.#rest.subarray(count);
    return BigInt(count);
  }

  /** The program writes: for each line that it took one `=` and what to show, and before it, at most, one `>` and a line to send. */
  #write(at, count, where) {
    if (where !== 1) return;
    this.#written += this.#decoder.decode(new Uint8Array(this.#exports.memory.buffer, Number(at), Number(count)).slice(), { stream: true });
    const lines = this.#written.split("\n");
    this.#written = lines.pop();
    for (const line of lines) {
      if (line[0] === ">") this.#send = line.slice(1);
      else this.#asked.shift()?.done({ send: this.#send, shown: JSON.parse(line.slice(1)) });
      if (line[0] === "=") this.#send = null;
    }
  }

  #end() {
    this.#over = true;
    this.#asked.splice(0).forEach(({ failed }) => failed(new Over()));
  }
}

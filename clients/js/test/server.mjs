// What the tests play against: the program on a free port, a relay that cuts connections, and a server of a few words.
import { spawn } from "node:child_process";
import { existsSync } from "node:fs";
import { connect, createServer } from "node:net";

const BUILT = new URL("../../../crates/board_server/out/board_server", import.meta.url).pathname;
/** The program: SARPUNTXE_PROGRAM, or the one that is built here. */
export const PROGRAM = process.env.SARPUNTXE_PROGRAM ?? BUILT;

const ends = [];
/** Ends this after the tests, if they haven't: what is left open, as a match that connects anew for good, keeps their process from ending. */
export const endLater = (end) => { ends.push(end); };
export async function endAll() {
  for (const end of ends.splice(0).reverse()) await end();
}

/** Why tests against the program are skipped, or false if they are not. */
export const skip = existsSync(PROGRAM) ? false : `there is no program ${PROGRAM}: build it, or set SARPUNTXE_PROGRAM`;

/** Starts the program with these words. The port is a free one, or this one. */
export async function start({ port = 0, words = [] } = {}) {
  const child = spawn(PROGRAM, ["serve", "--listen", `127.0.0.1:${port}`, "--links", "32", "--rooms", "32", ...words], { stdio: ["ignore", "ignore", "pipe"] });
  let said = "";
  const at = await new Promise((found, failed) => {
    child.on("exit", (status) => failed(new Error(`the server ended with status ${status}: ${said}`)));
    child.stderr.on("data", (data) => {
      said += data;
      const place = /listening on 127\.0\.0\.1:(\d+)/.exec(said);
      if (place) found(Number(place[1]));
    });
  });
  const ended = new Promise((done) => child.on("exit", done));
  const stop = (signal) => { child.kill(signal); return ended; };
  endLater(() => stop("SIGKILL"));
  return { port: at, stop };
}

/** Passes bytes on to a port. `cut()` ends all connections; if it is `deaf` it drops what the server says, if it is `mute` what the client says. */
export async function relay(port) {
  const pairs = new Set();
  const self = { deaf: false, mute: false, cut: () => pairs.forEach((pair) => pair.forEach((one) => one.destroy())) };
  const server = createServer((near) => {
    const far = connect(port, "127.0.0.1");
    const pair = [near, far];
    pairs.add(pair);
    near.on("data", (data) => { if (!self.mute) far.write(data); });
    far.on("data", (data) => { if (!self.deaf) near.write(data); });
    for (const one of pair) one.on("error", () => {}).on("close", () => { pairs.delete(pair); pair.forEach((other) => other.destroy()); });
  });
  await new Promise((done) => server.listen(0, "127.0.0.1", done));
  self.port = server.address().port;
  self.stop = () => { self.cut(); server.close(); };
  endLater(self.stop);
  return self;
}

/** A server that answers each line by `answer(line, session)`: a list of lines, or `null` to close. Sessions are counted from 1. */
export async function pretend(answer) {
  let sessions = 0;
  const open = new Set();
  const server = createServer((socket) => {
    const session = ++sessions;
    let rest = "";
    open.add(socket);
    socket.setEncoding("utf8").on("error", () => {}).on("data", (text) => {
      const lines = (rest + text).split("\n");
      rest = lines.pop();
      for (const line of lines) {
        const said = answer(JSON.parse(line), session);
        if (said === null) return socket.destroy();
        said.forEach((one) => socket.write(`${JSON.stringify(one)}\n`));
      }
    });
  });
  await new Promise((done) => server.listen(0, "127.0.0.1", done));
  const stop = () => { open.forEach((socket) => socket.destroy()); server.close(); };
  endLater(stop);
  return { address: `tcp://127.0.0.1:${server.address().port}`, stop };
}

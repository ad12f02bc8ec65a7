// The match server under the page: the program, started on a free port, or one that runs already. And a session of it by lines,
// against which the page is compared.
import { spawn } from "node:child_process";
import { existsSync } from "node:fs";

/** Starts the server with these words, which hands out the files of the page in this folder too: `page` is where it does, or null. */
export async function startServer(built, folder, ...words) {
  if (process.env.SARPUNTXE_SERVER) return { address: process.env.SARPUNTXE_SERVER, page: null, fresh: false, stop() {} };
  const program = process.env.SARPUNTXE_PROGRAM ?? built;
  if (!existsSync(program)) throw new Error(`there is no program ${program}: build it, or set SARPUNTXE_PROGRAM or SARPUNTXE_SERVER`);
  const child = spawn(program, ["serve", "--listen", "127.0.0.1:0", "--ws", "--page", folder, ...words], { stdio: ["ignore", "ignore", "pipe"] });
  const port = await new Promise((found, failed) => {
    let said = "";
    child.on("exit", (status) => failed(new Error(`the server ended with status ${status}: ${said}`)));
    child.stderr.on("data", (data) => {
      said += data;
      const place = /listening on 127\.0\.0\.1:(\d+)/.exec(said);
      if (place) found(place[1]);
    });
  });
  return { address: `ws://127.0.0.1:${port}/`, page: `http://127.0.0.1:${port}/`, fresh: true, stop: () => child.kill() };
}

/** A session by lines. `snapshot` is the last state that its stream told, and `heard` is called with each line. */
export class Session {
  #socket; #waiting = []; #heard = [];
  snapshot = null;
  heard = () => {};

  static async open(address) {
    const session = new Session();
    session.#socket = new WebSocket(address);
    session.#socket.onmessage = ({ data }) => {
      session.heard(data);
      session.#take(JSON.parse(data));
    };
    await new Promise((done, failed) => { session.#socket.onopen = done; session.#socket.onerror = failed; });
    return session;
  }

  ask(message) {
    return new Promise((answered) => {
      this.#waiting.push(answered);
      this.#socket.send(JSON.stringify(message));
    });
  }

  /** Follows a match, as a spectator unless a seat and its key are given. */
  async follow(match, seat = null, key = null) {
    return this.ask({ key, match, seat, type: "sync" });
  }

  /** Acts, and answers the verdict. */
  act(match, key, act) {
    return this.ask({ act, key, match, number: this.snapshot.number, ticket: 1, type: "act" });
  }

  /** Waits until the state has this number. */
  async at(number) {
    while (this.snapshot.number < number) await new Promise((heard) => this.#heard.push(heard));
    return this.snapshot;
  }

  close() {
    this.#socket.close();
  }

  #take(line) {
    if (line.type === "sync") this.snapshot = line.snapshot;
    if (line.type === "update") {
      const { ctx, entry, g, number } = line;
      this.snapshot = { ctx, g, number, log: [...this.snapshot.log, entry] };
    }
    if (!["update", "bye"].includes(line.type)) this.#waiting.shift()?.(line);
    this.#heard.splice(0).forEach((heard) => heard());
  }
}

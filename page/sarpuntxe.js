// A client of the match server for browsers and Node: one module, no dependencies. README.md beside it says how it is used.

const FIRST_PAUSE = 250, LONGEST_PAUSE = 5_000, LONGEST_PAUSE_HIDDEN = 30_000;
const SLOW_TO_OPEN = 8_000, SLOW_TO_ANSWER = 20_000;
const AGAIN_PAUSE = 400, AGAIN_TIMES = 8;
const LOOK = 4_000, LOOK_HIDDEN = 60_000;

// ---- words

/** Why a request is refused, in words for people. */
export const REFUSALS = {
  "bad-message": "The server did not understand that.",
  "no-game": "The server does not play that game.",
  "full": "The server has no room for another match now.",
  "bad-seats": "The game is not played by so many.",
  "no-start": "The game could not begin.",
  "no-match": "There is no such match on this server.",
  "no-seat": "The match has no such seat, or nobody sits there.",
  "seat-taken": "Somebody sits there already.",
  "bad-name": "A name has 1 to 32 bytes, and no control characters.",
  "unauthorized": "That seat is not yours: its key is another one.",
  "already-attached": "This connection follows a match already.",
  "not-attached": "This connection follows no match.",
  "not-a-bot": "No bot sits there that could be asked to leave.",
};

/** Why an action does not count, in words for people. */
export const REASONS = {
  "no-match": "That was meant for another match.",
  "unauthorized": "You may not act here: this is not your seat.",
  "game-over": "The match is over.",
  "match-full": "The match has as many actions as a match can have. It cannot go on.",
  "cannot-undo-now": "Nothing can be undone or redone now: others may act too, or it is not your turn.",
  "not-active": "It is not your turn.",
  "unknown-move": "That is not possible at this point of the game.",
  "wrong-number": "The match had moved on before that arrived. Look again, and choose anew.",
  "nothing-to-undo": "There is nothing to undo in this turn.",
  "nothing-to-redo": "There is nothing to redo.",
  "not-yours": "That was another player's action.",
  "not-undoable": "This game does not let that be undone.",
  "invalid-move": "The rules of the game do not allow that.",
  "too-early": "The turn cannot end yet: make a move first.",
  "too-many-words": "That would draw more random numbers than one action may.",
  "too-many-events": "That would lead to more events than one action may.",
};

/** Why there was no answer, or why a match is followed no more, in words for people. */
export const FAULTS = {
  "again": "The server is out of memory, or cannot keep that room. It did nothing; try again later.",
  "cut": "The connection broke before that had counted. Look at the match, and choose anew.",
  "not-sent": "There is no connection now, so nothing was sent.",
  "unreachable": "The server cannot be reached.",
  "silent": "The server does not answer: as many may be connected as it serves at once.",
  "left": "The seat was given up, or the match was removed.",
  "lagging": "This client fell too far behind, and the server ended its session.",
  "replaced": "Another match has this name now: the server was started anew.",
  "closed": "This match is followed no more.",
};

const FIELDS = {
  name: REFUSALS["bad-name"],
  act: "A text has at most 64 bytes, and a number has to be whole.",
  match: "That is no name of a match.",
  seats: REFUSALS["bad-seats"],
};

/** What went wrong. `kind` is `refused`, `no`, `fault` or `ended`; `reason` is the server's word, or one of FAULTS; the message is for people. */
export class SarpuntxeError extends Error {
  name = "SarpuntxeError";

  constructor(kind, reason, { field = null, number = null } = {}) {
    super(wordsOf(kind, reason, field));
    [this.kind, this.reason, this.field, this.number] = [kind, reason, field, number];
  }
}

function wordsOf(kind, reason, field) {
  if (reason === "bad-message" && FIELDS[field]) return FIELDS[field];
  const words = { refused: REFUSALS, no: REASONS }[kind] ?? FAULTS;
  return words[reason] ?? `The server says: ${reason}.`;
}

/** The error that a line stands for, or null if it is no refusal. */
function errorOf(line) {
  if (line.type === "refused") return new SarpuntxeError("refused", line.reason, line);
  if (line.type === "no") return new SarpuntxeError("no", line.reason, line);
  if (line.type === "again") return new SarpuntxeError("fault", "again");
  return null;
}

// ---- games and actions

/** The games that this client has types for: how many play, and the moves whose number the server ignores. */
export const GAMES = {
  "tic-tac-toe": { least: 2, most: 2, ignoring: [] },
  "countdown": { least: 2, most: 4, ignoring: [] },
  "pig": { least: 2, most: 4, ignoring: [] },
  "high-hand": { least: 2, most: 4, ignoring: [] },
  "blind-bid": { least: 2, most: 8, ignoring: ["bid"] },
  "captions": { least: 2, most: 16, ignoring: ["write"] },
};

export const move = (name, ...args) => ({ args, kind: "move", move: name });
export const event = (name, to = null) => ({ event: name, kind: "event", to });
export const endTurn = (to = null) => event("endTurn", to);
export const undo = () => ({ kind: "undo" });
export const redo = () => ({ kind: "redo" });

/** The seats that may act, with their stages. Nobody may once the match is over. */
export function activeSeats(ctx) {
  if (ctx.gameover) return [];
  if (!ctx.activePlayers) return [{ seat: ctx.currentPlayer, stage: null }];
  return Object.entries(ctx.activePlayers).map(([seat, stage]) => ({ seat: Number(seat), stage })).sort((a, b) => a.seat - b.seat);
}

export const mayAct = (ctx, seat) => activeSeats(ctx).some((one) => one.seat === seat);

/** The snapshot after a line of the stream, or null if a line between is missing. */
export function nextSnapshot(before, line) {
  if (line.number !== before.number + 1) return null;
  const log = [...before.log, line.entry];
  if (line.type === "update") return { ctx: line.ctx, g: line.g, log, number: line.number };
  const g = { ...before.g, ...line.g.put };
  line.g.gone.forEach((name) => delete g[name]);
  return { ctx: { ...before.ctx, ...line.ctx }, g, log, number: line.number };
}

// ---- one connection

/** Opens `ws:`, `wss:` or, in Node, `tcp:`. Calls `opened`, `heard` with each line, and `closed` once, unless it is closed from here. */
function openLink(address, { opened, heard, closed }, WebSocket = globalThis.WebSocket) {
  const { protocol, hostname, port } = new URL(address);
  if (protocol === "tcp:" && !globalThis.document) return openTcp(hostname.replace(/^\[|\]$/g, ""), Number(port), { opened, heard, closed });
  if (!WebSocket) throw new TypeError("no WebSocket here: start Node 20 with --experimental-websocket, or use a tcp: address");
  const socket = new WebSocket(address);
  socket.onopen = opened;
  socket.onmessage = ({ data }) => heard(data);
  // (Node 20 says of a connection that failed that there was an error, and no more)
  socket.onclose = socket.onerror = closed;
  return {
    send: (text) => socket.send(text),
    close() { socket.onopen = socket.onmessage = socket.onclose = socket.onerror = null; socket.close(); },
  };
}

function openTcp(host, port, { opened, heard, closed }) {
  let socket = null, over = false, rest = [];
  const take = (text) => {
    const lines = text.split("\n");
    rest.push(lines[0]);
    if (lines.length === 1) return;
    heard(rest.join(""));
    rest = [lines.pop()];
    for (const line of lines.slice(1)) if (!over) heard(line);
  };
  import("node:net").then(({ connect }) => {
    if (over) return;
    socket = connect({ host, port }, opened).setEncoding("utf8").on("data", (text) => { if (!over) take(text); });
    socket.on("error", () => {}).on("close", () => { if (!over) closed(); });
  });
  return {
    send: (text) => socket.write(`${text}\n`),
    close() { over = true; socket?.destroySoon(); },
  };
}

const later = (pause) => new Promise((done) => setTimeout(done, pause));
const isHidden = () => globalThis.document?.hidden ?? false;
const STREAM = ["update", "change", "bye"];

/** One connection, which is one session of the server. What is asked is answered in order. */
class Session {
  #link; #told; #waiting = []; #open = false; #over = false; #slow; #check;

  /** Calls `opened()`, `silent()` if that takes long, `heard(line, text)` for each line, and `closed()` once when the connection breaks. */
  constructor(address, told, WebSocket) {
    this.#told = told;
    this.#slow = setTimeout(() => told.silent?.(), SLOW_TO_OPEN);
    this.#check = setInterval(() => {
      if (this.#waiting.length && Date.now() - this.#waiting[0].since > SLOW_TO_ANSWER) this.#broke();
    }, 2_000);
    try {
      this.#link = openLink(address, {
        opened: () => { clearTimeout(this.#slow); this.#open = true; told.opened(); },
        heard: (text) => this.#take(text),
        closed: () => this.#broke(),
      }, WebSocket);
    } catch (why) {
      this.close();
      throw why;
    }
  }

  /** The answer to a line, as an object or a text. What is answered `again` is sent again, so many times in all at most. */
  async ask(line, most = AGAIN_TIMES) {
    for (let times = 1; ; times++) {
      const answer = await this.#send(typeof line === "string" ? line : JSON.stringify(line));
      if (answer.type !== "again" || times >= most) return answer;
      await later(AGAIN_PAUSE * times);
    }
  }

  /** The answer to a request, or the error that it was refused with. */
  async granted(line) {
    const answer = await this.ask(line);
    const error = errorOf(answer);
    if (error) throw error;
    return answer;
  }

  close() {
    if (this.#over) return;
    this.#over = true;
    clearTimeout(this.#slow);
    clearInterval(this.#check);
    this.#link?.close();
    this.#waiting.splice(0).forEach(({ cut }) => cut(new SarpuntxeError("fault", "cut")));
  }

  #send(text) {
    return new Promise((answered, cut) => {
      if (!this.#open || this.#over) return cut(new SarpuntxeError("fault", "not-sent"));
      this.#waiting.push({ answered, cut, since: Date.now() });
      this.#link.send(text);
    });
  }

  #take(text) {
    const line = JSON.parse(text);
    const asked = STREAM.includes(line.type) ? null : this.#waiting.shift();
    this.#told.heard?.(line, text);
    asked?.answered(line);
  }

  #broke() {
    if (this.#over) return;
    this.close();
    this.#told.closed();
  }
}

/** A connection that is made anew whenever it breaks, after pauses that grow. Each time it is another session of the server. */
export class Connection {
  #address; #opened; #heard; #told; #WebSocket; #session = null; #failures = 0; #pause = null; #over = false;
  #online = () => this.connect();
  #seen = () => { if (this.#pause !== null && !isHidden()) this.connect(); };

  /**
   * `opened(session)` is called whenever a connection stands, and once what it answers is done the next pause is the shortest again.
   * `heard(line, text)` is called for each line that the server sends, and `told(state, pause)` when the state changes:
   * `connecting`, `silent`, `open`, or `broken` with the milliseconds until the next try. An address that is none is thrown back.
   */
  constructor(address, { opened, heard, told }, { WebSocket } = {}) {
    [this.#address, this.#opened, this.#heard, this.#told, this.#WebSocket] = [address, opened, heard, told, WebSocket];
    this.connect();
    // (without the network's word a connection of a network that is gone looks as if it stood)
    globalThis.addEventListener?.("online", this.#online);
    globalThis.document?.addEventListener("visibilitychange", this.#seen);
  }

  /** Connects now: at first, in place of waiting for the end of a pause, or to begin another session. */
  connect() {
    if (this.#over) return;
    this.#drop();
    this.#told("connecting");
    const session = new Session(this.#address, {
      opened: () => this.#begin(session),
      silent: () => this.#told("silent"),
      heard: (line, text) => this.#heard(line, text),
      closed: () => this.#broke(session),
    }, this.#WebSocket);
    this.#session = session;
  }

  /** Gives up a connection that stands, and makes another one after a pause, as if it had broken. */
  retry() {
    if (this.#session) this.#broke(this.#session);
  }

  /** The answer to a line, as an object or a text. What is answered `again` is sent again, so many times in all at most. */
  async ask(line, most = AGAIN_TIMES) {
    if (!this.#session) throw new SarpuntxeError("fault", "not-sent");
    return this.#session.ask(line, most);
  }

  /** Ends the connection for good. What waits for an answer gets none. */
  close() {
    this.#over = true;
    this.#drop();
    globalThis.removeEventListener?.("online", this.#online);
    globalThis.document?.removeEventListener("visibilitychange", this.#seen);
  }

  async #begin(session) {
    this.#told("open");
    await this.#opened(session);
    if (session === this.#session) this.#failures = 0;
  }

  #broke(session) {
    if (session !== this.#session) return;
    this.#drop();
    const longest = isHidden() ? LONGEST_PAUSE_HIDDEN : LONGEST_PAUSE;
    const pause = Math.min(longest, FIRST_PAUSE * 2 ** Math.min(this.#failures++, 8)) * (0.75 + Math.random() / 4);
    this.#pause = setTimeout(() => this.connect(), pause);
    this.#told("broken", pause);
  }

  #drop() {
    clearTimeout(this.#pause);
    const session = this.#session;
    [this.#pause, this.#session] = [null, null];
    session?.close();
  }
}

// ---- the server's lobby

/** A server: its games and matches, and the seats of these. It holds one connection, which is made when something is asked. */
export class Server {
  #address; #options; #session = null;

  constructor(address, options = {}) {
    [this.#address, this.#options] = [address, options];
    new URL(address);
  }

  /** Opens the connection, unless it is open. A call opens it by itself, too. */
  open() {
    const opening = this.#session ??= new Promise((done, failed) => {
      const over = (reason) => { if (this.#session === opening) this.#session = null; failed(new SarpuntxeError("fault", reason)); };
      const session = new Session(this.#address, {
        opened: () => done(session),
        silent: () => { session.close(); over("silent"); },
        closed: () => over("unreachable"),
      }, this.#options.WebSocket);
    });
    return opening.then(() => this, (why) => { if (this.#session === opening) this.#session = null; throw why; });
  }

  /** Gives the connection back to the server. The next call opens another one. */
  close() {
    this.#session?.then((session) => session.close(), () => {});
    this.#session = null;
  }

  async #ask(line) {
    await this.open();
    return (await this.#session).granted(line);
  }

  games = async () => (await this.#ask({ type: "games" })).games;
  matches = async (game) => (await this.#ask({ game, type: "matches" })).matches;
  look = async (match) => (await this.#ask({ match, type: "look" })).row;
  create = async (game, seats) => (await this.#ask({ game, seats, type: "create" })).match;
  rename = async ({ match, seat, key }, name) => { await this.#ask({ key, match, name, seat, type: "rename" }); };
  leave = async ({ match, seat, key }) => { await this.#ask({ key, match, seat, type: "leave" }); };
  takeover = async (match, seat) => { await this.#ask({ match, seat, type: "takeover" }); };

  /** All games, each with its matches. */
  async lobby() {
    const games = await this.games();
    return Promise.all(games.map(async (game) => ({ game, matches: await this.matches(game) })));
  }

  /** Takes a seat, or the first free one if the seat is null, and answers the place: `{ match, seat, key }`. */
  async join(match, seat, name) {
    if (seat !== null) {
      const { key } = await this.#ask({ match, name, seat, type: "join" });
      return { match, seat, key };
    }
    const { players } = await this.look(match);
    for (const { seat: at } of players.filter((player) => player.name === null)) {
      try {
        return await this.join(match, at, name);
      } catch (why) {
        if (why.reason !== "seat-taken") throw why;
      }
    }
    throw new SarpuntxeError("refused", "seat-taken");
  }

  /** Follows a match on a connection of its own: at a seat, or as a spectator if there is no key. */
  follow(place, options = {}) {
    return new Match(this.#address, place, { ...this.#options, ...options });
  }
}

/** A server to which there is a connection. */
export const connect = (address, options) => new Server(address, options).open();

// ---- a match

/** A match that is followed. It connects anew when its connection breaks, until it is closed, left or gone. */
export class Match {
  #place; #options; #protocol; #connection; #session = null; #stream = null; #state; #acts = []; #ticket = 0;
  #listeners = new Set(); #looks; #looked = 0;

  constructor(address, { match, seat = null, key = null }, options = {}) {
    [this.#place, this.#options] = [{ match, seat, key }, options];
    this.#protocol = options.guess ? 1 : options.protocol ?? 2;
    this.#state = { status: "connecting", pause: null, row: null, settled: null, shown: null, guessed: 0, guesses: false, waiting: [], mayAct: false, error: null };
    this.#connection = new Connection(address, {
      opened: (session) => this.#opened(session),
      heard: (line, text) => this.#heard(line, text),
      told: (state, pause) => this.#told(state, pause),
    }, options);
    this.#looks = setInterval(() => this.#lookAgain(), options.look ?? LOOK);
  }

  get match() { return this.#place.match; }
  get seat() { return this.#place.seat; }
  /** What is known now. It is another object whenever something has changed. */
  get state() { return this.#state; }

  /** Calls the listener with the state whenever it has changed. What it answers ends that. */
  subscribe(listener) {
    this.#listeners.add(listener);
    return () => this.#listeners.delete(listener);
  }

  /** The first state, from now on, for which `holds(state)` is true. */
  until(holds) {
    return new Promise((found, failed) => {
      const look = (state) => {
        if (holds(state)) found(state);
        else if (state.status === "ended") failed(state.error);
        else return;
        done();
      };
      const done = this.subscribe(look);
      look(this.#state);
    });
  }

  /** The states, to the end. One that changes again before it is taken is passed over. */
  async *[Symbol.asyncIterator]() {
    for (let last = null; ;) {
      const before = last;
      const state = await this.until((now) => now !== before).catch(() => null);
      if (state === null) return;
      yield last = state;
      if (state.status === "ended") return;
    }
  }

  move(name, ...args) { return this.act(move(name, ...args)); }
  endTurn(to = null) { return this.act(endTurn(to)); }
  event(name, to = null) { return this.act(event(name, to)); }
  undo() { return this.act(undo()); }
  redo() { return this.act(redo()); }

  /** Acts, and answers the number of the state that the action made. It throws if the action doesn't count. */
  act(asked) {
    const stream = this.#stream;
    if (this.#state.status !== "open") return Promise.reject(new SarpuntxeError("fault", "not-sent"));
    if (this.#place.key === null) return Promise.reject(new SarpuntxeError("no", "unauthorized"));
    const one = { asked, stream, number: stream.settled.number };
    const decided = new Promise((counted, failed) => { Object.assign(one, { counted, failed }); });
    this.#acts.push(one);
    this.#tell({});
    this.#send(stream, one);
    return decided;
  }

  look = async () => this.#row((await this.#granted({ match: this.match, type: "look" })).row);

  /** Asks something else over the match's own connection, and answers the server's line, whatever it is. */
  async ask(line) {
    if (!this.#session) throw new SarpuntxeError("fault", "not-sent");
    return this.#session.ask(line);
  }

  async rename(name) {
    await this.#granted({ ...this.#place, name, type: "rename" });
    await this.look();
  }

  /** Gives up the seat. The match is followed no more. */
  async leave() {
    await this.#granted({ ...this.#place, type: "leave" });
    this.#end("left");
  }

  /** Connects now, in place of waiting for the end of a pause. */
  reconnect() {
    if (["broken", "waiting"].includes(this.#state.status)) this.#connection.connect();
  }

  /** Ends the connection for good. The seat stays taken. */
  close() { this.#end("closed"); }

  // ---- its connection

  /** It is open once its stream has begun. */
  #told(state, pause = null) {
    if (state === "open") return;
    if (state === "silent") return this.#tell({ status: "waiting" });
    [this.#session, this.#stream] = [null, null];
    this.#tell({ status: state, pause });
  }

  /** Begins the stream. A refusal is for good; after anything else the connection is made anew. */
  async #opened(session) {
    this.#session = session;
    try {
      await this.#begin(session);
    } catch (why) {
      if (session !== this.#session) return;
      if (why.kind === "refused" || why.kind === "ended") return this.#end(why.reason, why);
      if (!(why instanceof SarpuntxeError)) return this.#end("closed", why);
      this.#connection.retry();
    }
  }

  #end(reason, error = new SarpuntxeError("ended", reason)) {
    if (this.#state.status === "ended") return;
    this.#connection.close();
    [this.#session, this.#stream] = [null, null];
    clearInterval(this.#looks);
    this.#acts.splice(0).forEach(({ failed }) => failed(error));
    this.#tell({ status: "ended", pause: null, error });
  }

  async #granted(line) {
    if (!this.#session) throw new SarpuntxeError("fault", "not-sent");
    return this.#session.granted(line);
  }

  // ---- its stream

  /** Looks at the match, and begins its stream. What has no verdict yet is found in the log, or has not counted. */
  async #begin(session) {
    const { row } = await session.granted({ match: this.match, type: "look" });
    if (this.#state.row && this.#state.row.game !== row.game) return this.#end("replaced");
    const { guess = null } = this.#options;
    const program = await (typeof guess === "function" ? guess(row.game) : guess);
    const stream = { game: row.game, settled: null, guess: null, program };
    if (session !== this.#session) return;
    this.#stream = stream;
    this.#row(row);
    const line = { ...this.#place, type: "sync" };
    const begun = await this.#run(stream, `${row.game} ${JSON.stringify(line)}`);
    if (session !== this.#session) return;
    let answer = await session.ask(begun ?? (this.#protocol === 1 ? line : { ...line, protocol: this.#protocol }));
    if (answer.field === "protocol" && this.#protocol !== 1) {
      this.#protocol = 1;
      answer = await session.ask(line);
    }
    const error = errorOf(answer);
    if (error) throw error;
    if (session === this.#session) this.#settle();
  }

  #heard(line, text) {
    const stream = this.#stream;
    this.#options.heard?.(line);
    if (line.type === "bye") return line.why === "left" ? this.#end("left") : undefined;
    if (!stream || line.type === "refused") return;
    if (line.type === "sync") {
      if (!isLater(this.#state.settled, line.snapshot)) return this.#end("replaced");
      stream.settled = line.snapshot;
    } else if (line.type === "update" || line.type === "change") {
      stream.settled = nextSnapshot(stream.settled, line);
      if (!stream.settled) return this.#connection.connect();
      // Who acts at a seat that was free has sat down since.
      if (this.#state.row.players[line.entry.seat]?.name === null) this.look().catch(() => {});
    } else if (!["ok", "no", "again"].includes(line.type)) {
      return;
    }
    this.#run(stream, `<${text}`);
    this.#show(stream);
  }

  #show(stream) {
    if (stream !== this.#stream || !stream.settled) return;
    const shown = stream.guess?.number >= stream.settled.number ? stream.guess : stream.settled;
    if (this.#state.status === "open" && shown === this.#state.shown && stream.settled === this.#state.settled) return;
    this.#tell({ status: "open", pause: null, settled: stream.settled, shown });
  }

  /** Gives a line to the program that guesses, if there is one, and answers the line that it sends. If it fails, nothing is guessed in this stream. */
  async #run(stream, line) {
    const { program, settled } = stream;
    if (!program) return null;
    let made = null;
    try {
      const { send, shown } = await program.run(line);
      made = send;
      if (stream.program) stream.guess = shown;
      if (shown && shown.number < (settled?.number ?? 0)) stopGuessing(stream);
    } catch {
      stopGuessing(stream);
    }
    this.#show(stream);
    return made;
  }

  async #send(stream, one) {
    const made = await this.#run(stream, `!act ${JSON.stringify(one.asked)}`);
    if (stream !== this.#stream) return this.#undecided();
    if (made === null) stopGuessing(stream);
    one.number = made === null ? stream.settled.number : JSON.parse(made).number;
    const { match, key } = this.#place;
    const line = made ?? { act: one.asked, key, match, number: one.number, ticket: ++this.#ticket, type: "act" };
    try {
      // A guess that is answered `again` was taken back, so that line isn't sent again.
      const answer = await this.#session.ask(line, made === null ? AGAIN_TIMES : 1);
      this.#decide(one, answer.type === "ok" ? null : errorOf(answer), answer.number);
      if (answer.reason === "not-attached") this.#connection.connect();
    } catch {
      this.#undecided();
    }
  }

  /** An act without a verdict waits for the next stream, unless that has begun already. */
  #undecided() {
    if (this.#stream?.settled && this.#state.status === "open") this.#settle();
  }

  /** Says of each act that had no verdict when the connection broke whether it is in the log. */
  #settle() {
    const { game, settled } = this.#stream;
    let from = 0;
    for (const one of [...this.#acts]) {
      if (one.stream === this.#stream) continue;
      const at = placeOf(one, this.#place.seat, game, settled.log, from);
      if (at >= 0) from = at + 1;
      this.#decide(one, at >= 0 ? null : new SarpuntxeError("fault", "cut"), at + 1);
    }
  }

  #decide(one, error, number) {
    if (!this.#acts.includes(one)) return;
    this.#acts = this.#acts.filter((other) => other !== one);
    this.#tell({});
    if (error) one.failed(error);
    else one.counted(number);
  }

  // ---- who sits where

  /** Nobody is told who sits down or leaves, so it is asked for. In a hidden page that is done seldom. */
  #lookAgain() {
    const since = Date.now() - this.#looked;
    if (this.#state.status !== "open" || (isHidden() && since < LOOK_HIDDEN)) return;
    this.look().catch(() => {});
  }

  #row(row) {
    this.#looked = Date.now();
    if (JSON.stringify(row) !== JSON.stringify(this.#state.row)) this.#tell({ row });
    return row;
  }

  #tell(news) {
    const state = { ...this.#state, ...news, waiting: this.#acts.map(({ asked }) => asked) };
    state.guessed = state.shown ? state.shown.number - state.settled.number : 0;
    state.guesses = Boolean(this.#stream?.program);
    state.mayAct = state.status === "open" && mayAct(state.shown.ctx, this.#place.seat);
    this.#state = state;
    [...this.#listeners].forEach((listener) => listener(state));
  }
}

function stopGuessing(stream) {
  [stream.program, stream.guess] = [null, null];
}

/** Whether a snapshot can be of the match that was seen before: a log only grows. */
function isLater(before, next) {
  const last = (before?.log.length ?? 0) - 1;
  return next.log.length > last && JSON.stringify(next.log[last]) === JSON.stringify(before?.log[last]);
}

/** Where an act stands in the log, or -1. Most fit one state only; a move that ignores the number may stand further on. */
function placeOf({ asked, number }, seat, game, log, from) {
  const ignores = GAMES[game]?.ignoring.includes(asked.move) ?? true;
  const least = Math.max(number, from);
  const words = JSON.stringify(sorted(asked));
  return log.findIndex((entry, at) => at >= least && (ignores || at === number) && entry.seat === seat && JSON.stringify(sorted(entry.act)) === words);
}

const sorted = (act) => Object.fromEntries(Object.entries(act).sort(([a], [b]) => (a < b ? -1 : 1)));

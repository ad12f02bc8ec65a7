// What the client makes of lines that the program says seldom, said here by a server of a few words; and of a program that guesses ahead.
import assert from "node:assert/strict";
import { after, test } from "node:test";
import { Connection, FAULTS, REASONS, REFUSALS, SarpuntxeError, connect, nextSnapshot } from "../sarpuntxe.mjs";
import { endAll, endLater, pretend } from "./server.mjs";

const KEY = "a".repeat(32);
const PLACE = { match: "0-1", seat: 0, key: KEY };
const ROW = { game: "pig", match: "0-1", over: false, players: [{ name: "ann", seat: 0 }, { name: null, seat: 1 }] };
const CTX = { activePlayers: null, currentPlayer: 0, gameover: null, numMoves: 0, numPlayers: 2, phase: null, playOrder: [0, 1], playOrderPos: 0, turn: 1 };
const snapshot = (number) => ({ ctx: CTX, g: { pot: number, totals: [0, 0] }, log: Array.from({ length: number }, (_, at) => entry(at)), number });
const entry = (number, move = "roll") => ({ act: { args: [], kind: "move", move }, number, phase: null, seat: 0, turn: 1 });
const update = (number) => ({ ctx: CTX, entry: entry(number - 1), g: { pot: number, totals: [0, 0] }, number, type: "update" });
const sync = (number) => ({ match: "0-1", seat: 0, snapshot: snapshot(number), type: "sync" });
const ok = ({ ticket }, number) => ({ number, ticket, type: "ok" });

after(endAll);

/** Follows a match of a server that answers `sync` and `act` so, and everything else as one would. */
async function follow(answers, options = { protocol: 1 }, place = PLACE) {
  const server = await pretend((line, session) => {
    if (answers[line.type]) return answers[line.type](line, session);
    if (line.type === "look") return [{ row: ROW, type: "match" }];
    if (line.type === "sync") return [sync(0)];
    return [{ field: "type", reason: "bad-message", type: "refused" }];
  });
  const lobby = await connect(server.address);
  const match = lobby.follow(place, options);
  endLater(() => match.close());
  lobby.close();
  return match;
}

const opened = (match) => match.until(({ status }) => status === "open");
const is = (kind, reason) => (error) => error instanceof SarpuntxeError && error.kind === kind && error.reason === reason;

test("a line that is answered `again` is sent again", async () => {
  let times = 0;
  const match = await follow({ act: (line) => ++times < 3 ? [{ ticket: line.ticket, type: "again" }] : [update(1), ok(line, 1)] });
  await opened(match);
  assert.equal(await match.move("roll"), 1);
  assert.equal(times, 3);
  match.close();
});

test("a session that has fallen behind begins anew", async () => {
  const match = await follow({
    sync: (_, session) => [sync(session)],
    act: (_, session) => session === 2 ? [{ type: "bye", why: "lagging" }] : [{ number: 3, reason: "game-over", ticket: 1, type: "no" }],
  });
  await opened(match);
  const lost = match.move("hold");
  await match.until(({ status }) => status === "open");
  setTimeout(() => match.close(), 50);
  await assert.rejects(lost, is("ended", "closed"));
});

test("a missing update makes the stream begin anew", async () => {
  const match = await follow({ sync: (_, session) => [sync(session === 2 ? 0 : 3)], act: (line) => [update(2), ok(line, 2)] });
  await opened(match);
  const counted = match.move("roll");
  await match.until(({ settled }) => settled.number === 3);
  // The log has it at its number, so it has counted.
  assert.equal(await counted, 1);
  match.close();
});

test("where protocol 2 is not spoken, protocol 1 is", async () => {
  const asked = [];
  const match = await follow({
    sync: (line) => { asked.push(line.protocol); return line.protocol ? [{ field: "protocol", reason: "bad-message", type: "refused" }] : [sync(0)]; },
  }, {});
  await opened(match);
  assert.deepEqual(asked, [2, undefined]);
  match.close();
});

test("who acts at a seat that was free is looked for, other lines can be asked for, and each is heard", async () => {
  const heard = [];
  const match = await follow({
    act: (line) => [{ ...update(1), entry: { ...entry(0), seat: 1 } }, ok(line, 1)],
  }, { protocol: 1, look: 60_000, heard: ({ type }) => heard.push(type) });
  await assert.rejects(match.ask({ type: "nonsense" }), is("fault", "not-sent"));
  await opened(match);
  await match.move("roll");
  assert.equal((await match.ask({ type: "nonsense" })).reason, "bad-message");
  assert.deepEqual(heard, ["match", "sync", "update", "ok", "match", "refused"]);
  match.close();
});

test("a key that counts no more ends the match", async () => {
  const match = await follow({ sync: () => [{ field: null, reason: "unauthorized", type: "refused" }] });
  await assert.rejects(opened(match), is("refused", "unauthorized"));
  await assert.rejects(match.move("roll"), is("fault", "not-sent"));
});

test("a session that has lost its stream begins it anew", async () => {
  const match = await follow({ act: (line, session) => session === 2 ? [{ field: null, reason: "not-attached", type: "refused" }] : [update(1), ok(line, 1)] });
  await opened(match);
  await assert.rejects(match.move("roll"), is("refused", "not-attached"));
  await opened(match);
  assert.equal(await match.move("roll"), 1);
  match.close();
});

test("pauses grow to five seconds at most", async () => {
  const match = await follow({ look: () => null });
  const pauses = [];
  await match.until(({ pause }) => { if (pause) pauses.push(pause); return pauses.length >= 4; });
  assert.ok(pauses.at(-1) > pauses[0] && pauses.every((pause) => pause <= 5_000), pauses.join());
  match.close();
});

test("a connection is made anew after a cut, and what was asked of the last one is cut", async () => {
  const asked = [], told = [], heard = [];
  const server = await pretend((line, session) => { asked.push([session, line.type]); return line.type === "look" ? null : [{ games: [], type: "games" }]; });
  let stands;
  const opened = new Promise((done) => { stands = done; });
  const connection = new Connection(server.address, {
    opened: async (session) => {
      assert.deepEqual((await session.ask({ type: "games" })).games, []);
      if (asked.length === 1) await assert.rejects(connection.ask('{"type":"look"}'), is("fault", "cut"));
      else stands();
    },
    heard: (line, text) => heard.push([line.type, JSON.parse(text).type]),
    told: (state, pause) => told.push(pause === undefined ? state : [state, pause > 0 && pause <= 5_000]),
  });
  endLater(() => connection.close());
  await opened;
  assert.deepEqual(asked, [[1, "games"], [1, "look"], [2, "games"]]);
  assert.deepEqual(told, ["connecting", "open", ["broken", true], "connecting", "open"]);
  assert.deepEqual(heard, [["games", "games"], ["games", "games"]]);
  connection.close();
  await assert.rejects(connection.ask({ type: "games" }), is("fault", "not-sent"));
  connection.connect();
  assert.equal(told.length, 5, "it is over for good");
});

test("an address that is none is thrown back", () => {
  const handlers = { opened() {}, heard() {}, told() {} };
  for (const address of ["", "nonsense", "ws://:0:0/"]) assert.throws(() => new Connection(address, handlers), TypeError);
});

test("nobody answers at an address", async () => {
  const server = await pretend(() => null);
  server.stop();
  await assert.rejects(connect(server.address), is("fault", "unreachable"));
  await assert.rejects(connect(`${server.address.replace("tcp:", "ws:")}/`), is("fault", "unreachable"));
});

test("every word of the protocol has words for people", () => {
  for (const [kind, words] of [["refused", REFUSALS], ["no", REASONS], ["fault", FAULTS]]) {
    for (const [reason, said] of Object.entries(words)) assert.equal(new SarpuntxeError(kind, reason).message, said);
  }
  assert.match(new SarpuntxeError("no", "a-later-word").message, /a-later-word/);
});

test("a change is laid over the view", () => {
  const line = { ctx: { turn: 2 }, entry: entry(0, "hold"), g: { gone: ["pot"], put: { totals: [5, 0] } }, number: 1, type: "change", was: 0 };
  assert.deepEqual(nextSnapshot(snapshot(0), line), { ctx: { ...CTX, turn: 2 }, g: { totals: [5, 0] }, log: [entry(0, "hold")], number: 1 });
  assert.equal(nextSnapshot(snapshot(2), line), null);
});

/** A program as the page runs it, which guesses that each act adds one to the pot. */
function guesser() {
  let settled = null, waits = [], ticket = 0;
  const shown = () => settled && { ...settled, g: { ...settled.g, pot: settled.g.pot + waits.length }, number: settled.number + waits.length };
  const take = (line) => {
    if (line.type === "sync") [settled, waits] = [line.snapshot, []];
    if (line.type === "update") settled = nextSnapshot(settled, line);
    if (["ok", "no", "again"].includes(line.type)) waits.shift();
  };
  return {
    heard: [],
    async run(line) {
      this.heard.push(line);
      let send = null;
      if (line.startsWith("<")) take(JSON.parse(line.slice(1)));
      else if (line.startsWith("!act ")) {
        const act = JSON.parse(line.slice(5));
        send = JSON.stringify({ act, key: KEY, match: "0-1", number: settled.number + waits.length, ticket: ++ticket, type: "act" });
        waits.push(act);
      } else send = line.slice(line.indexOf(" ") + 1);
      return { send, shown: shown() };
    },
  };
}

test("a program that guesses is handed the lines, and its guess is shown until it is settled", async () => {
  const guess = guesser();
  let answer;
  const match = await follow({ act: (line) => { answer = line; return []; } }, { guess: (game) => game === "pig" ? Promise.resolve(guess) : null });
  await opened(match);
  assert.ok(match.state.guesses);
  assert.equal(guess.heard[0], `pig ${JSON.stringify({ ...PLACE, type: "sync" })}`);
  const asked = match.move("roll");
  const state = await match.until(({ guessed }) => guessed === 1);
  assert.deepEqual([state.settled.number, state.shown.number, state.shown.g.pot], [0, 1, 1]);
  match.move("roll").catch(() => {});
  await match.until(({ guessed }) => guessed === 2);
  assert.equal(answer?.number ?? 0, 0);
  match.close();
  await assert.rejects(asked, is("ended", "closed"));
});

test("what the server refuses is taken back, and a program that fails is done without", async () => {
  const guess = guesser();
  const match = await follow({
    act: (line) => line.act.move === "hold" ? [{ number: 0, reason: "invalid-move", ticket: line.ticket, type: "no" }] : [update(1), ok(line, 1)],
  }, { guess });
  await opened(match);
  const refused = match.move("hold");
  await match.until(({ guessed }) => guessed === 1);
  await assert.rejects(refused, is("no", "invalid-move"));
  await match.until(({ guessed }) => guessed === 0);
  guess.run = () => Promise.reject(new Error("over"));
  assert.equal(await match.move("roll"), 1);
  assert.deepEqual([match.state.guessed, match.state.shown.number], [0, 1]);
  match.close();
});

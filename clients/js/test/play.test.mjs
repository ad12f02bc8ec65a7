// Plays against the program: the lobby, each game to its end, each protocol, and what becomes of a match when connections break.
import assert from "node:assert/strict";
import { mkdtemp, rm } from "node:fs/promises";
import { tmpdir } from "node:os";
import { join } from "node:path";
import { after, before, test } from "node:test";
import { GAMES, activeSeats, connect, endTurn, mayAct, move, undo } from "../sarpuntxe.mjs";
import { endAll, endLater, relay, skip, start } from "./server.mjs";

let line, web;
before(async () => { if (!skip) [line, web] = [await start(), await start({ words: ["--ws"] })]; });
after(endAll);
const lineAt = () => `tcp://127.0.0.1:${line.port}`;
const webAt = () => `ws://127.0.0.1:${web.port}/`;

const opened = (match) => match.until(({ status }) => status === "open");
const at = (match, number) => match.until(({ settled }) => settled?.number >= number);
const refused = (kind, reason) => (error) => error.kind === kind && error.reason === reason && error.message.length > 10;

/** Numbers that look drawn, and are the same in each run. */
function chance(seed) {
  return (below) => {
    seed ^= seed << 13; seed ^= seed >>> 17; seed ^= seed << 5;
    return (seed >>> 0) % below;
  };
}

/** What a seat that may act does. */
function choose(game, { ctx, g }, seat, draw) {
  if (game === "tic-tac-toe") return move("clickCell", g.cells.map((owner, cell) => owner === null ? cell : null).filter((cell) => cell !== null)[0]);
  if (game === "countdown") return ctx.numMoves === 1 && draw(2) ? [endTurn(), undo()][draw(2)] : draw(3) ? move("take", 1 + draw(Math.min(3, g.heap))) : move("wild");
  if (game === "pig") return move(g.pot && !draw(3) ? "hold" : "roll");
  if (game === "high-hand") {
    if (ctx.phase === "draw") return move("draw");
    return g.common.table[seat] === null ? move("lay", draw(g.players[seat].hand.length)) : draw(3) ? endTurn() : undo();
  }
  if (game === "blind-bid") return draw(2) ? move("boast", draw(10)) : move("bid", 1 + draw(100));
  return move("write", ["two words", "żółć", "猫", "a"][draw(4)]);
}

async function table(address, game, options = [{}, {}, {}]) {
  const server = await connect(address);
  const match = await server.create(game, 2);
  const places = [await server.join(match, 0, "ann"), await server.join(match, null, "bob"), { match }];
  server.close();
  const follows = places.map((place, who) => server.follow(place, options[who]));
  endLater(() => follows.forEach((one) => one.close()));
  await Promise.all(follows.map(opened));
  return { server, match, places, follows };
}

for (const game of Object.keys(GAMES)) {
  for (const [name, address] of [["lines", lineAt], ["a WebSocket", webAt]]) {
    test(`${game} is played to its end over ${name}, and both protocols say the same`, { skip }, async () => {
      const { server, places, follows } = await table(address(), game, [{ protocol: 1 }, { protocol: 2 }, { protocol: 2 }]);
      const draw = chance(20_261_201);
      while (!follows[2].state.settled.ctx.gameover) {
        const { seat } = activeSeats(follows[2].state.settled.ctx)[0];
        assert.ok(follows[seat].state.mayAct);
        const number = await follows[seat].act(choose(game, follows[seat].state.settled, seat, draw));
        await Promise.all(follows.map((one) => at(one, number)));
      }
      const { ctx, log } = follows[2].state.settled;
      assert.equal(log.length, follows[2].state.settled.number);
      assert.deepEqual(follows.map(({ state }) => state.settled.ctx), [ctx, ctx, ctx]);
      assert.equal(mayAct(ctx, 0), false);
      for (const [who, protocol] of [[0, 2], [1, 1], [2, 1]]) {
        const anew = server.follow(places[who], { protocol });
        await opened(anew);
        assert.deepEqual(anew.state.settled, follows[who].state.settled);
        anew.close();
      }
      await assert.rejects(follows[0].undo(), refused("no", "game-over"));
      await follows[0].leave();
      await follows[1].leave();
      await assert.rejects(follows[2].until(() => false), refused("ended", "left"));
    });
  }
}

test("the lobby lists games and matches, and each refusal has its word", { skip }, async () => {
  const server = await connect(webAt());
  assert.deepEqual(await server.games(), Object.keys(GAMES).sort());
  const match = await server.create("captions", 3);
  const place = await server.join(match, 1, "ann");
  assert.match(place.key, /^[0-9a-f]{32}$/);
  const { matches } = (await server.lobby()).find(({ game }) => game === "captions");
  assert.deepEqual(matches.find((row) => row.match === match).players.map(({ name }) => name), [null, "ann", null]);
  await server.rename(place, "eve");
  assert.equal((await server.look(match)).players[1].name, "eve");
  await assert.rejects(server.matches("chess"), refused("refused", "no-game"));
  await assert.rejects(server.create("pig", 9), refused("refused", "bad-seats"));
  await assert.rejects(server.look("63-7"), refused("refused", "no-match"));
  await assert.rejects(server.join(match, 1, "bob"), refused("refused", "seat-taken"));
  await assert.rejects(server.join(match, 7, "bob"), refused("refused", "no-seat"));
  await assert.rejects(server.join(match, 0, ""), refused("refused", "bad-name"));
  await assert.rejects(server.rename({ ...place, key: "0".repeat(32) }, "bob"), refused("refused", "unauthorized"));
  await assert.rejects(server.takeover(match, 0), refused("refused", "not-a-bot"));
  await assert.rejects(server.look("nonsense"), (error) => error.reason === "bad-message" && error.field === "match");
  await server.leave(place);
  await assert.rejects(server.look(match), refused("refused", "no-match"));
  server.close();
  // The next call opens the connection anew.
  assert.equal((await server.games()).length, 6);
  server.close();
});

test("undo, redo and events, and why they are refused", { skip }, async () => {
  const { follows: [ann, bob, eve] } = await table(lineAt(), "countdown");
  await assert.rejects(ann.undo(), refused("no", "nothing-to-undo"));
  await assert.rejects(ann.endTurn(), refused("no", "too-early"));
  await assert.rejects(bob.move("take", 1), refused("no", "not-active"));
  await assert.rejects(ann.move("take", 9), refused("no", "invalid-move"));
  await assert.rejects(ann.event("endGame"), refused("no", "unknown-move"));
  await assert.rejects(ann.move("take", 0.5), (error) => error.reason === "bad-message" && error.field === "act" || error.field === null);
  await assert.rejects(eve.move("take", 1), refused("no", "unauthorized"));
  await ann.move("take", 3);
  assert.equal(ann.state.settled.g.heap, 18);
  await ann.undo();
  assert.equal(ann.state.settled.g.heap, 21);
  await ann.redo();
  assert.equal(ann.state.settled.g.heap, 18);
  const number = await ann.endTurn(1);
  await at(bob, number);
  assert.ok(bob.state.mayAct);
  [ann, bob, eve].forEach((one) => one.close());
  await assert.rejects(ann.move("take", 1), refused("fault", "not-sent"));
});

test("the states are a stream, and who sits down is seen", { skip }, async () => {
  const server = await connect(webAt());
  const match = await server.create("pig", 2);
  const ann = server.follow(await server.join(match, 0, "ann"), { look: 50 });
  const seen = [];
  const done = (async () => { for await (const state of ann) seen.push(state); })();
  await opened(ann);
  await server.join(match, 1, "bob");
  await ann.until(({ row }) => row.players[1].name === "bob");
  await ann.rename("eve");
  assert.equal(ann.state.row.players[0].name, "eve");
  await ann.move("roll");
  await later(0);
  ann.close();
  await done;
  assert.equal(seen.at(-1).status, "ended");
  assert.equal(seen.at(-1).error.reason, "closed");
  assert.ok(seen.some(({ settled }) => settled?.number === 1));
  server.close();
});

test("after a cut the match goes on, and the log says what had counted", { skip }, async () => {
  const between = await relay(line.port);
  const { server, places, follows } = await table(lineAt(), "pig");
  follows.forEach((one) => one.close());
  const ann = server.follow(places[0]), far = (await connect(`tcp://127.0.0.1:${between.port}`)).follow(places[0]);
  await Promise.all([opened(ann), opened(far)]);
  between.deaf = true;
  const counted = far.move("roll");
  await at(ann, 1);
  between.deaf = false;
  between.cut();
  assert.equal(await counted, 1);
  assert.equal(far.state.status, "open");
  assert.deepEqual(far.state.settled, ann.state.settled);
  // While it is away nothing can be asked for, and what it says is known.
  between.cut();
  await far.until(({ status }) => status === "broken");
  assert.ok(far.state.pause > 0 && far.state.pause <= 5_000);
  await assert.rejects(far.move("roll"), refused("fault", "not-sent"));
  far.reconnect();
  await opened(far);
  [ann, far].forEach((one) => one.close());
  between.stop();
});

test("an action that was lost on the way is said to be lost, and isn't made again", { skip }, async () => {
  const between = await relay(line.port);
  const { places, follows } = await table(lineAt(), "pig");
  follows.forEach((one) => one.close());
  const ann = (await connect(`tcp://127.0.0.1:${between.port}`)).follow(places[0]);
  await opened(ann);
  between.mute = true;
  const lost = ann.move("roll");
  await ann.until(({ waiting }) => waiting.length === 1);
  await later(50);
  between.mute = false;
  between.cut();
  await assert.rejects(lost, refused("fault", "cut"));
  assert.deepEqual([ann.state.waiting, ann.state.settled.number], [[], 0]);
  ann.close();
  between.stop();
});

test("a server that keeps its rooms comes back, and one that doesn't says so", { skip }, async () => {
  const rooms = await mkdtemp(join(tmpdir(), "sarpuntxe-"));
  const keeps = await start({ words: ["--ws", "--keep", rooms] });
  const { follows: [ann, bob] } = await table(`ws://127.0.0.1:${keeps.port}/`, "tic-tac-toe");
  await ann.move("clickCell", 4);
  await at(bob, 1);
  await keeps.stop("SIGKILL");
  await bob.until(({ status }) => status === "broken");
  const again = await start({ port: keeps.port, words: ["--ws", "--keep", rooms] });
  await opened(bob);
  await bob.move("clickCell", 0);
  await opened(ann);
  await at(ann, 2);
  await again.stop("SIGKILL");
  const other = await start({ port: keeps.port, words: ["--ws"] });
  await assert.rejects(ann.until(() => false), refused("refused", "no-match"));
  bob.close();
  await other.stop();
  await rm(rooms, { recursive: true });
});

test("another match of the same name is not taken for the one that was watched", { skip }, async () => {
  const first = await start();
  const { follows } = await table(`tcp://127.0.0.1:${first.port}`, "pig");
  await follows[0].move("roll");
  await at(follows[2], 1);
  await first.stop("SIGKILL");
  const second = await start({ port: first.port });
  const host = await connect(`tcp://127.0.0.1:${first.port}`);
  const match = await host.create("pig", 2);
  assert.equal(match, follows[2].match);
  await assert.rejects(follows[2].until(() => false), refused("ended", "replaced"));
  follows.forEach((one) => one.close());
  host.close();
  await second.stop();
});

test("a bot is asked for its seat, and the match goes on with a person", { skip }, async () => {
  const bots = await start({ words: ["--bots", "pig", "--seats", "2", "--pace", "1"] });
  const server = await connect(`tcp://127.0.0.1:${bots.port}`);
  for (let asked = false; !asked; await later(20)) asked = await server.takeover("0-1", 1).then(() => true, () => false);
  const watch = server.follow({ match: "0-1" }, { look: 50 });
  await watch.until(({ row }) => row?.players[1].name === null);
  const ann = server.follow(await server.join("0-1", 1, "ann"));
  await ann.until(({ mayAct }) => mayAct);
  await ann.move("roll");
  [watch, ann, server].forEach((one) => one.close());
  await bots.stop();
});

const later = (pause) => new Promise((done) => setTimeout(done, pause));

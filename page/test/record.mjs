// A long session of a page's program, recorded from the server: matches of all games, in which one seat's lines and actions are written down as a
// page would hand them to the program. What is done is drawn from a fixed seed, and much of it is against the rules.
import { Session } from "./server.mjs";

const draws = (seed) => () => {
  // A generator of Marsaglia's kind: three shifts.
  seed ^= seed << 13; seed ^= seed >>> 17; seed ^= seed << 5;
  return (seed >>> 0) / 2 ** 32;
};

const move = (name, ...args) => ({ args, kind: "move", move: name });
const event = (name) => ({ event: name, kind: "event", to: null });
const UNDO = { kind: "undo" };
const REDO = { kind: "redo" };

/** What a seat of a game may try. */
const ACTS = {
  "tic-tac-toe": (below) => [move("clickCell", below(9)), move("clickCell", below(10)), UNDO, REDO],
  countdown: (below) => [move("take", 1 + below(4)), move("take", 1), move("wild"), event("endTurn"), UNDO, REDO],
  pig: () => [move("roll"), move("roll"), move("hold"), UNDO],
  "high-hand": (below) => [move("draw"), move("draw"), move("lay", below(2)), move("lay", 0), event("endTurn"), UNDO],
  "blind-bid": (below) => [move("boast", below(11)), move("boast", below(10)), move("bid", 1 + below(100)), UNDO],
  captions: (below) => [move("write", "a cat".repeat(1 + below(14))), move("write", "ein Häuschen 猫"), event("endTurn")],
};
const STEPS = 40;

/** Lines for the program's standard input, of so many matches of each game. */
export async function record(address, matches) {
  const draw = draws(20_261_129);
  const below = (bound) => Math.floor(draw() * bound);
  const lines = [];
  const clerk = await Session.open(address);
  for (let match = 0; match < matches; match++) {
    for (const game of Object.keys(ACTS)) await recordMatch(address, clerk, game, below, lines);
  }
  clerk.close();
  return lines;
}

/** The clerk makes the match and gives up its seats, since a session ends whose seat is given up. */
async function recordMatch(address, clerk, game, below, lines) {
  const [ann, bob] = [await Session.open(address), await Session.open(address)];
  const { match } = await clerk.ask({ game, seats: 2, type: "create" });
  const keys = [];
  for (const seat of [0, 1]) keys.push((await clerk.ask({ match, name: "someone", seat, type: "join" })).key);
  const sync = { key: keys[0], match, seat: 0, type: "sync" };
  lines.push(`${game} ${JSON.stringify(sync)}`);
  ann.heard = (line) => lines.push(`<${line}`);
  await ann.ask(sync);
  await bob.follow(match, 1, keys[1]);
  const tickets = [1, 1];
  for (let step = 0; step < STEPS; step++) {
    const seat = below(2);
    const acts = ACTS[game](below);
    const act = acts[below(acts.length)];
    const session = [ann, bob][seat];
    if (seat === 0) lines.push(`!act ${JSON.stringify(act)}`);
    if (below(20) === 0) lines.push("!move", "<nonsense");
    const { type } = await session.ask({ act, key: keys[seat], match, number: session.snapshot.number, ticket: tickets[seat]++, type: "act" });
    // The other one has heard of it before the next is done.
    if (type === "ok") await [bob, ann][seat].at(session.snapshot.number);
  }
  ann.heard = () => {};
  for (const seat of [0, 1]) await clerk.ask({ key: keys[seat], match, seat, type: "leave" });
  ann.close();
  bob.close();
}

// What a match's state and log mean in words, for any game.
import { bytes } from "./lines.js";
import { activeSeats } from "./sarpuntxe.js";

/** A text of another person, with what could turn the direction of the text around it or break the line left out. */
export const plain = (text) => text.replace(/[\p{Cc}\u2028\u2029\u202a-\u202e\u2066-\u2069]/gu, "\ufffd");

/** "ann", "ann and bob", "ann, bob and eve". */
export const listed = (words) => words.length < 2 ? words.join("") : `${words.slice(0, -1).join(", ")} and ${words.at(-1)}`;

const LONGEST_NAME = 32;

/** What is wrong with a name that was typed, or null. A letter with an accent takes two places or more, and an emoji four. */
export function nameFault(name) {
  if (name === "") return `Please write your name (up to ${LONGEST_NAME} letters).`;
  if (bytes(name) <= LONGEST_NAME) return null;
  return name.length > LONGEST_NAME ? `Please write a shorter name (up to ${LONGEST_NAME} letters).`
    : "Please write a shorter name: letters with accents and emoji take more room than others.";
}

const COUNTED = ["first", "second", "third", "fourth", "fifth", "sixth", "seventh", "eighth"];

/** "a second player": the one for whom the table waits, of so many who sit. */
export const nextPlayer = (sitting) => COUNTED[sitting] ? `a ${COUNTED[sitting]} player` : "another player";

/**
 * The places in the log of the actions that are done and of those that are undone.
 * `about` has, for each entry, the place of the action that it makes, undoes or does again.
 */
export function trail(log) {
  const done = [], undone = [];
  const about = log.map(({ act }, at) => {
    if (act.kind === "undo") return pass(done, undone);
    if (act.kind === "redo") return pass(undone, done);
    done.push(at);
    undone.length = 0;
    return at;
  });
  return { done, undone, about };
}

function pass(from, to) {
  to.push(from.pop());
  return to.at(-1);
}

/** Whether, as far as the log tells, a seat may undo or redo. `undoable` are the moves that the game lets be undone, or null. */
export function backAndForth({ ctx, log }, seat, undoable) {
  const { done, undone } = trail(log);
  const alone = activeSeats(ctx).length === 1 && activeSeats(ctx)[0].seat === seat;
  const last = log[done.at(-1)], next = log[undone.at(-1)];
  return {
    undo: alone && last !== undefined && last.seat === seat && last.turn === ctx.turn && last.act.kind === "move"
      && (undoable === null || undoable.includes(last.act.move)),
    redo: alone && next !== undefined && next.seat === seat,
  };
}

/**
 * How the match ended, or null. `name(seat)` names a player, `seat` is one's own, or null,
 * and `scores` are the seats' scores where the game has some: who has the most of them shares the win.
 */
export function ending(gameover, seat, name, scores = null) {
  if (!gameover) return null;
  if (gameover.draw) return shared(seat, name, scores) ?? "It is a draw.";
  if (gameover.winner === undefined) return "The match has ended.";
  return gameover.winner === seat ? "You have won!" : `${name(gameover.winner)} has won.`;
}

/** Who share a win of several, or null if all do, or if nothing tells. */
function shared(seat, name, scores) {
  if (!scores) return null;
  const most = Math.max(...scores);
  const best = [...scores.keys()].filter((at) => scores[at] === most);
  if (best.length < 2 || best.length === scores.length) return null;
  const names = [...best.filter((at) => at === seat).map(() => "you"), ...best.filter((at) => at !== seat).map(name)];
  const words = listed(names);
  return `${words[0].toUpperCase()}${words.slice(1)} share the win.`;
}

/** For whom the match waits, as the table says it. `players` says who sits where, `seat` is one's own, or null. */
export function turnWords(ctx, seat, name, players) {
  const seats = activeSeats(ctx).map((one) => one.seat);
  const sits = (at) => players[at]?.name !== null;
  const sitting = players.filter((one) => one.name !== null).length;
  const others = seats.filter((one) => one !== seat && sits(one)).map(name);
  const comes = seats.some((one) => one !== seat && !sits(one));
  if (!seats.length) return "Nothing can be done here any more.";
  if (seats.includes(seat)) {
    if (sitting === 1 && players.length > 1) return `Waiting for ${nextPlayer(sitting)}. You may begin.`;
    return "Your turn.";
  }
  if (comes && !others.length) return `Waiting for ${nextPlayer(sitting)}.`;
  return others.length === 1 ? `${others[0]} is thinking.` : `${listed(others)} are thinking.`;
}

/** An entry of the log by its player's name. `said` is what it makes, undoes or does again, in the game's words. */
export function entryWords({ act }, said, player) {
  const means = { undo: "took back:", redo: "did again:" }[act.kind];
  return [player, means, said].filter(Boolean).join(" ");
}

/** An event in words. Moves are the games' to say. */
export function eventWords(act, name) {
  if (act.event === "endTurn") return act.to === null ? "ended the turn" : `ended the turn, and ${name(act.to)} is next`;
  return act.to === null ? `raised ${act.event}` : `raised ${act.event} ${act.to}`;
}

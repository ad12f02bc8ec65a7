// The messages of the protocol: the lines that the page sends, what a player may ask for, and what each refusal means in words.
import { SarpuntxeError } from "./sarpuntxe.js";

export { endTurn, move, redo, undo } from "./sarpuntxe.js";

export const games = () => JSON.stringify({ type: "games" });
export const matches = (game) => JSON.stringify({ game, type: "matches" });
export const create = (game, seats) => JSON.stringify({ game, seats, type: "create" });
export const join = (match, seat, name) => JSON.stringify({ match, name, seat, type: "join" });
export const rename = (match, seat, key, name) => JSON.stringify({ key, match, name, seat, type: "rename" });
export const leave = (match, seat, key) => JSON.stringify({ key, match, seat, type: "leave" });
export const takeover = (match, seat) => JSON.stringify({ match, seat, type: "takeover" });

/** Whether a request had no answer, since the connection broke before. */
export const isCut = (why) => why instanceof SarpuntxeError && why.kind === "fault" && why.reason !== "again";

/** How many bytes a text takes on a line, which is what names and captions are measured in. A plain letter takes one. */
export const bytes = (text) => new TextEncoder().encode(text).length;

const refusals = {
  "bad-message": "The server did not understand that.",
  "no-game": "The server does not play that game.",
  "full": "The server has no room for another match now. Clear away a finished match of yours, or try again later.",
  "bad-seats": "The game is not played by so many.",
  "no-start": "The game could not begin.",
  "no-match": "There is no such match on this server.",
  "no-seat": "There is no such seat, or nobody sits there.",
  "seat-taken": "Somebody else has just taken that seat.",
  "bad-name": "Please write your name (up to 32 letters).",
  "unauthorized": "That seat is no longer yours.",
  "already-attached": "This connection follows a match already.",
  "not-attached": "The connection had lost the match, and is made anew. Choose once more.",
  "not-a-bot": "A person plays that seat, or nobody: only a bot can be asked to leave it.",
};

const verdicts = {
  "no-match": "That was meant for another match.",
  "unauthorized": "You may not act here: this is not your seat.",
  "game-over": "The match is over.",
  "match-full": "This match has had as many actions as a match can have. It cannot go on.",
  "cannot-undo-now": "Nothing can be taken back or done again now: others may act too, or it is not your turn.",
  "not-active": "It is not your turn.",
  "unknown-move": "That is not possible at this point of the game.",
  "wrong-number": "The match had moved on before that arrived. Look again, and choose anew.",
  "nothing-to-undo": "There is nothing to take back in this turn.",
  "nothing-to-redo": "There is nothing to do again.",
  "not-yours": "That was another player's action.",
  "not-undoable": "This game does not let that be taken back.",
  "invalid-move": "The rules of the game do not allow that.",
  "too-early": "The turn cannot end yet: make a move first.",
  "too-many-words": "That would draw more random numbers than one action may.",
  "too-many-events": "That would lead to more events than one action may.",
};

export const again = "The server is out of memory at the moment, and did nothing. Try again.";

const byes = {
  left: "The seat was given up, or the match was removed.",
  lagging: "This page fell too far behind, and the server ended its session.",
};

const fields = { name: refusals["bad-name"], act: "That is too long, or no whole number." };

/** What an error of the client means in words, which has the reason of the line that it stands for. */
export const ofError = ({ kind, reason, field }) => inWords(kind === "fault" ? { type: "again" } : { type: kind, reason, field });

/** What a line that is no success means in words: a refusal, a verdict `no`, an `again` or a `bye`. */
export function inWords(line) {
  if (line.type === "no") return verdicts[line.reason] ?? `The server refused that: ${line.reason}.`;
  if (line.type === "again") return again;
  if (line.type === "bye") return byes[line.why] ?? `The server ended the session: ${line.why}.`;
  if (line.type !== "refused") return `The server answered ${line.type}.`;
  if (line.reason === "bad-message" && fields[line.field]) return fields[line.field];
  return refusals[line.reason] ?? `The server refused that: ${line.reason}.`;
}

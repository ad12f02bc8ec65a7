// The games that the page draws, by the server's names. A described game is drawn by its hints, on the table of table/;
// one that the page doesn't know is shown plainly.
//
// A game here is an object:
//   title, glyph, rules    for people
//   least, most            how many seats it takes
//   ahead                  how many actions of a player may be on their way at once, where they are guessed
//   undoable               the moves that the game lets be undone, or null if the page doesn't know
//   say(act, name)         a move in words, behind the player's name; `name(seat)` names a player
//   hint(table)            what the player may do now, in words
//   tell(entry, before, after, name)   a move or an event in words, where the two states tell more of it, or null; it may be left out, as the next two
//   against(act, table)    what the rules have against a move that the server has refused by them, or null
//   scores(g)              the seats' scores, for the end, or null
//   make(act)              its board, as { element, actions, show(table), beside(seat) }; `act(asked)` asks the server for an action,
//                          `actions`, which may be left out, are the main controls: they stand beside the turn,
//                          and so may `beside`, what stands at a seat beside the name, as elements
//
// A table is what there is to show: { g, ctx, log, number } of the snapshot, `settled`, the last one that the server settled, `guessed`, how many
// actions this one is ahead of it, `before`, the snapshot before this one if it was seen,
// `seat`, one's own or null, `turns`, whether it is that seat's turn, `may`, whether it may act just now, as not without a connection,
// `seats`, how many there are, and `name(seat)`.
import ticTacToe from "./tic-tac-toe.js";
import countdown from "./countdown.js";
import pig from "./pig.js";
import highHand from "./high-hand.js";
import blindBid from "./blind-bid.js";
import captions from "./captions.js";
import { unknown } from "./unknown.js";
import { describedGame } from "../table/described.js";

const known = {
  "tic-tac-toe": ticTacToe,
  "countdown": countdown,
  "pig": pig,
  "high-hand": highHand,
  "blind-bid": blindBid,
  "captions": captions,
};

/** The games that the page draws, in the order in which a server names them. */
export const knownGames = Object.keys(known).sort();
/** Whether the page draws a game, and so whether its program plays it. */
export const isKnown = (name) => Object.hasOwn(known, name);

const described = new Map();

/**
 * Takes a description of a game, the TOML file as data, and hints that stand beside it: from then on the page draws the game by them.
 * `more` may have `offers(table)`, what is offered to the viewer's seat.
 */
export const learn = (description, beside = {}, more = {}) => { described.set(description.game, describedGame(description, beside, more)); };

export const gameNamed = (name) => ({ ahead: 1, ...(isKnown(name) ? known[name] : described.get(name) ?? unknown(name)) });

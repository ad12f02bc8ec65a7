// High Hand: the table's row of cards, decks and hands; a round that has ended stays on it until the next card is laid.
import { describedGame } from "../table/described.js";
import { look } from "../table/pieces.js";
import { element, setText } from "../elements.js";

const cardWords = (card) => look({ items: "cards" }, card).words;

/** The round that ended between two states, or null: its cards, and the seat that took it with the highest one. */
function taken(before, after) {
  const { table: cards } = before.g.common, { scores } = after.g.common;
  if (cards.includes(null) || after.g.common.table.some((card) => card !== null)) return null;
  return { cards, seat: scores.findIndex((score, at) => score > before.g.common.scores[at]) };
}

const description = {
  game: "high-hand", seats: [2, 4], about: "Draw two cards each. Then lay one a turn: the highest on the table scores. Most points win.", scores: "scores",
  common: { table: "[0..51?; seats]", left: "0..52", scores: "[0..5000; seats]", hands: "[0..52; seats]" },
  players: { hand: "[0..51; ..52]" },
  events: ["endTurn"],
  moves: { draw: { undoable: false }, lay: { args: ["place: 0..51"], undoable: true } },
  show: { "table": { as: "row", items: "cards", of: "seat" }, "me.hand": { as: "hand", items: "cards", click: "lay(place)" } },
};
const hints = {
  title: "High Hand", glyph: "♥",
  show: {
    "left": { as: "deck", label: "Deck" }, "table": { label: "On the table", none: "free" }, "scores": { as: "counters", of: "seat", label: "points" },
    "hands": { as: "backs", of: "seat", label: "in hand" }, "me.hand": { label: "Your hand" },
  },
  moves: { draw: { label: "Draw a card" }, lay: { label: "Lay" } },
};

let round = null;
const game = describedGame(description, hints, {
  against: (act, { g, seat }) => act.move === "lay" && g.common.table[seat] !== null ? "You have laid a card already." : null,
  tell({ act, seat }, before, after, name) {
    if (act.move === "lay" && after.g.common.table[seat] !== null) return `laid the ${cardWords(after.g.common.table[seat])}`;
    const ended = taken(before, after);
    return ended && act.event === "endTurn" ? `ended the turn: ${name(ended.seat)} takes the round with the ${cardWords(ended.cards[ended.seat])}` : null;
  },
  say: ({ move: name, args }) => name === "draw" ? "drew a card" : `laid card ${args[0] + 1} of the hand`,
  hint: ({ ctx }) => ctx.phase === "draw" ? "Draw a card." : ctx.numMoves ? "End the turn, or take the card back." : "Lay a card of your hand.",
  offers({ g, ctx, seat }) {
    if (ctx.phase === "draw") return [["draw", []]];
    return g.common.table[seat] === null ? g.players[seat].hand.map((_, place) => ["lay", [place]]) : [];
  },
  mayEnd: ({ ctx }) => ctx.phase === "play" && ctx.numMoves > 0,
  marks: () => round ? { table: [round.seat] } : {},
});

export default {
  ...game,
  make(act) {
    const drawn = game.make(act), story = element("p", { class: "story" });
    round = null;
    return {
      element: element("div", {}, drawn.element, story), actions: drawn.actions, beside: (seat) => drawn.beside(seat),
      show(table) {
        const { g, before, name } = table;
        if (g.common.table.some((card) => card !== null)) round = null;
        else if (before) round = taken(before, table) ?? round;
        drawn.show(round ? { ...table, g: { ...g, common: { ...g.common, table: round.cards } } } : table);
        setText(story, round ? `${name(round.seat)} takes the round with the ${cardWords(round.cards[round.seat])}.` : "");
      },
    };
  },
};

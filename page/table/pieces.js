// What stands for a value: cards, dice, discs and other drawn pieces, tokens, or a text. The pieces are drawn, so that no font has to have them.
import { make, svg } from "./make.js";

const RANKS = ["2", "3", "4", "5", "6", "7", "8", "9", "10", "J", "Q", "K", "A"];
const SPOKEN = ["two", "three", "four", "five", "six", "seven", "eight", "nine", "ten", "jack", "queen", "king", "ace"];
const SUITS = {
  clubs: "M16 1.5a6.9 6.9 0 0 1 6 10.3 6.9 6.9 0 1 1-4.5 12c.4 3 1.3 5 3.2 7.2h-9.4c1.9-2.2 2.8-4.2 3.2-7.2a6.9 6.9 0 1 1-4.5-12 6.9 6.9 0 0 1 6-10.3z",
  diamonds: "M16 1c3.4 5.6 7 10.3 11.5 15C23 20.7 19.4 25.4 16 31 12.6 25.4 9 20.7 4.5 16 9 11.3 12.6 6.6 16 1z",
  hearts: "M16 30C6 21 2 15.5 2 10 2 5.5 5.5 2.5 9.3 2.5c3 0 5.5 1.7 6.7 4.5 1.2-2.8 3.7-4.5 6.7-4.5C26.5 2.5 30 5.5 30 10c0 5.5-4 11-14 20z",
  spades: "M16 1.5c5.5 7 14 11.5 14 18.3 0 4.3-3.1 7-6.5 7-2.5 0-4.5-1-5.9-2.8.2 2.8 1 4.8 2.9 7h-9c1.9-2.2 2.7-4.2 2.9-7-1.4 1.8-3.4 2.8-5.9 2.8-3.4 "
    + "0-6.5-2.7-6.5-7C2 13 10.5 8.5 16 1.5z",
};
const USUAL = ["clubs", "diamonds", "hearts", "spades"];
// Which of the nine places of a die's face have a pip.
const PIPS = [[], [4], [0, 8], [0, 4, 8], [0, 2, 6, 8], [0, 2, 4, 6, 8], [0, 2, 3, 5, 6, 8]];
const SHAPES = ["disc", "stone", "man", "king", "cross", "ring", "tile", "hit", "miss", "ship"];
const CROWN = "M18 66 12 30l20 15L50 20l18 25 20-15-6 36z";
const BLAST = "M50 8 59 34 86 22 72 48 94 62 66 66 66 93 48 72 27 90 30 63 5 56 29 43 17 18 42 32z";
// Signs that descriptions name have the same drawn pieces: systems draw these signs differently, or not at all.
const SIGNS = {
  "🔴": "disc red", "🟡": "disc yellow", "🔵": "disc blue", "🟢": "disc green", "🟠": "disc orange", "🟣": "disc purple",
  "⚫": "stone black", "⚪": "stone white", "✕": "cross red", "◯": "ring blue",
  "⛀": "man white", "⛂": "man black", "⛁": "king white", "⛃": "king black",
  "·": "miss", "✸": "hit", "🟥": "tile red", "🟦": "tile blue", "🟩": "tile green", "🟨": "tile yellow", "⬜": "tile sand", "⬛": "tile black",
};
// Chessmen: both sides have the full figures, in their colour, and the words of what they are.
const MEN = { "♟": "pawn", "♞": "knight", "♝": "bishop", "♜": "rook", "♛": "queen", "♚": "king" };
const WHITE_MEN = { "♙": "♟", "♘": "♞", "♗": "♝", "♖": "♜", "♕": "♛", "♔": "♚" };
const SUIT_SIGNS = { "♣": "clubs", "♦": "diamonds", "♥": "hearts", "♠": "spades" };
const NONE = { node: null, words: "empty", kind: "none", tint: "" };
const isRed = (suit) => suit === "hearts" || suit === "diamonds";
const drawn = (...parts) => svg("svg", { "viewBox": "0 0 100 100", "aria-hidden": "true" }, ...parts);

/**
 * What a value looks like: `node`, `words` for those who hear the page, `kind`, and `tint`, the colour of a piece.
 * `how` has `items`, `suits` for cards, and `words` if others are to be heard; `least` is the least value of the type.
 */
export function look(how, value, least = 0) {
  const seen = looks(how, value, least);
  return seen.kind === "none" ? seen : { ...seen, words: how.words?.[value - least] ?? seen.words };
}

function looks(how, value, least) {
  if (value === null || value === undefined || value === "") return NONE;
  const { items } = how;
  if (items === "cards") return cardLook(USUAL[value % 4], value >> 2);
  if (items === "cards13") return cardLook((how.suits ?? USUAL)[Math.floor(value / 13)], value % 13);
  if (items === "dice") return { node: die(value), words: value < 1 ? "not rolled" : String(value), kind: "die", tint: "" };
  if (items === "tokens") return { node: tokens(value), words: String(value), kind: "tokens", tint: "" };
  if (items === "big") return { node: make("strong", { class: "great" }, String(value)), words: String(value), kind: "number", tint: "" };
  if (items === "suits") return suitLook((how.suits ?? USUAL)[value]);
  if (Array.isArray(items)) return named(items[value - least] ?? String(value), how, value);
  return { node: make("span", { class: "number" }, String(value)), words: String(value), kind: typeof value === "number" ? "number" : "text", tint: "" };
}

const suitLook = (name) => ({ node: suitSign(name), words: name, kind: "suit", tint: "" });

function named(text, how, value) {
  if (text === "") return NONE;
  if (text in SUIT_SIGNS) return suitLook(SUIT_SIGNS[text]);
  if (text in MEN || text in WHITE_MEN) return chessman(WHITE_MEN[text] ?? text, text in MEN ? "black" : "white");
  const [shape, colour = ""] = (SIGNS[text] ?? text).split(" ");
  if (SHAPES.includes(shape)) return { node: piece(shape, colour), words: [colour, shape].filter(Boolean).join(" "), kind: "piece", tint: colour };
  if (how.face === "card") return namedCard(text, value);
  return { node: make("span", { class: "words" }, text), words: text, kind: "text", tint: "" };
}

function chessman(sign, colour) {
  const figure = svg("text", { "x": 50, "y": 80, "text-anchor": "middle", "font-size": 86 });
  figure.append(`${sign}\ufe0e`);
  return { node: make("span", { class: ["man-of", colour] }, drawn(figure)), words: `${colour} ${MEN[sign]}`, kind: "piece", tint: colour };
}

/** A drawn piece, as a red disc. */
export function piece(shape, colour) {
  return make("span", { "class": ["piece", shape, colour], "aria-hidden": "true" }, inside(shape));
}

function inside(shape) {
  if (shape === "cross") return drawn(svg("path", { d: "M24 24 76 76M76 24 24 76", class: "stroke" }));
  if (shape === "ring") return drawn(svg("circle", { cx: 50, cy: 50, r: 29, class: "stroke" }));
  if (shape === "hit") return drawn(svg("path", { d: BLAST, class: "blast" }), svg("circle", { cx: 49, cy: 53, r: 12, class: "core" }));
  if (shape === "king") return drawn(svg("path", { d: CROWN, transform: "translate(22 24) scale(.56)", class: "crown" }));
  return null;
}

// ---- cards

function suitSign(name) {
  return svg("svg", { "viewBox": "0 0 32 32", "class": `suit ${isRed(name) ? "red" : "black"}`, "aria-hidden": "true" }, svg("path", { d: SUITS[name] }));
}

const cardLook = (suit, rank) => ({ node: face(RANKS[rank], suit), words: `${SPOKEN[rank]} of ${suit}`, kind: "card", tint: "" });

function face(rank, suit) {
  const court = "JQK".includes(rank), wide = rank === "10";
  const at = (x, y, size) => svg("path", { d: SUITS[suit], transform: `translate(${x} ${y}) scale(${size / 32})` });
  const index = svg("text", { "x": 20, "y": 36, "text-anchor": "middle", "class": "rank", "font-size": wide ? 30 : 36, "textLength": wide ? 34 : null,
    "lengthAdjust": wide ? "spacingAndGlyphs" : null });
  index.append(rank);
  const parts = court ? [svg("rect", { x: 39, y: 12, width: 51, height: 116, rx: 7, class: "panel" }),
    svg("path", { d: CROWN, transform: "translate(45.5 26) scale(.38)", class: "crown" })] : [];
  return svg("svg", { "viewBox": "0 0 100 140", "class": `face ${isRed(suit) ? "red" : "black"}`, "aria-hidden": "true" },
    svg("rect", { x: 1.5, y: 1.5, width: 97, height: 137, rx: 11, class: "ground" }), ...parts, index, at(8, 44, 24),
    court ? at(44, 74, 41) : rank === "A" ? at(34, 64, 56) : at(42, 76, 48));
}

/** A card that has a name alone, or a rank of one or two letters. */
const namedCard = (text, value) => ({
  node: make("span", { "class": ["face", text.length < 3 ? "short" : ["named", `tone${Math.abs(value) % 8}`]], "aria-hidden": "true" }, make("span", {}, text)),
  words: text, kind: "card", tint: "",
});

/** The back of a card, whose face isn't told. */
export const back = () => make("span", { "class": "face back", "aria-hidden": "true" });

// ---- dice and tokens

/** A die that shows a number, or nothing yet if it is 0. */
export function die(value) {
  const pips = (PIPS[value] ?? []).map((at) => svg("circle", { cx: 24 + 26 * (at % 3), cy: 24 + 26 * Math.floor(at / 3), r: 9.5, class: "pip" }));
  return svg("svg", { "viewBox": "0 0 100 100", "class": value ? "cube" : "cube blank", "aria-hidden": "true" },
    svg("rect", { x: 3, y: 3, width: 94, height: 94, rx: 20 }), ...pips);
}

/** As many small stones, in a spiral, so that a heap looks like one. */
function tokens(count) {
  const shown = Math.min(count, 24), turn = 2.399963, wide = shown < 8 ? 15 : 39 / Math.sqrt(shown);
  const stones = Array.from({ length: shown }, (_, at) => {
    const far = shown === 1 ? 0 : wide * Math.sqrt(at + .6), angle = at * turn;
    const [x, y] = [50 + far * Math.cos(angle), 50 + far * Math.sin(angle)];
    return svg("circle", { cx: x.toFixed(1), cy: y.toFixed(1), r: shown > 14 ? 7.5 : 9.5, class: `token t${at % 3}` });
  });
  return make("span", { class: "tokens" }, drawn(...stones), make("span", { class: "count" }, String(count)));
}

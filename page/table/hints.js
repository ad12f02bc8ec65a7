// The display hints of a description, read as data: what is drawn, in which order, and what a click means. A hint that can't be true is refused by name.
import { argumentsOf, typeOf, Unread } from "./types.js";

const isText = (value) => typeof value === "string";
const isFlag = (value) => typeof value === "boolean";
const isCount = (value) => Number.isInteger(value) && value > 0;
const texts = (value) => Array.isArray(value) && value.every(isText);
const oneOf = (...words) => ({ is: (value) => words.includes(value), wanted: `one of ${words.join(", ")}` });
const text = { is: isText, wanted: "a text" }, flag = { is: isFlag, wanted: "true or false" }, list = { is: texts, wanted: "a list of texts" };

const SUITS = ["clubs", "diamonds", "hearts", "spades"];
const SLOT = {
  as: oneOf("grid", "hand", "pile", "deck", "row", "counter", "counters", "backs", "tint", "edge", "ground", "hidden"),
  rows: { is: (value) => isCount(value) || value === "seats", wanted: "a count, or seats" },
  columns: { is: isCount, wanted: "a count" },
  boards: oneOf("seats"),
  flip: flag, turn: flag, sort: flag, counted: flag, score: flag, zero: flag,
  items: {
    is: (value) => texts(value) || ["cards", "cards13", "dice", "tokens", "suits", "big", "seat"].includes(value),
    wanted: "a list of texts, or one of cards, cards13, dice, tokens, suits, big, seat",
  },
  suits: { is: (value) => texts(value) && [...value].sort().join() === SUITS.join(), wanted: "clubs, diamonds, hearts and spades in their order" },
  of: oneOf("seat"),
  click: { is: (value) => isText(value) || texts(value), wanted: "a text, or a list of texts" },
  label: text, ask: text, own: text, kept: text,
  board: oneOf("plain", "paper", "cloth", "checks", "points", "holes", "hex", "sea", "pits", "words", "sheet"),
  value: oneOf("seat"),
  seats: { is: (value) => Array.isArray(value) && value.every(Number.isInteger), wanted: "a list of numbers, one for each seat" },
  layout: list, names: list, words: list, none: text,
  on: text,
  where: oneOf("others"),
  aim: { is: (value) => typeof value === "object" && Object.values(value).every(texts), wanted: "a table of lists of texts" },
  toggle: text,
  face: oneOf("card"),
  most: { is: isCount, wanted: "a count" },
};
const ARGUMENT = Object.fromEntries(["label", "ask", "items", "suits", "names", "most"].map((name) => [name, SLOT[name]]));
const MOVE = {
  label: text, say: text, ask: text, open: flag, about: text,
  names: { is: (value) => typeof value === "object" && Object.values(value).every(isText), wanted: "a table of slots" },
};
const WHOLE = { title: text, glyph: text, sides: list, show: null, moves: null };
// What of a move is no hint.
const RULES = ["args", "when", "do", "undoable", "client", "redact", "noLimit", "ignoreStaleStateID"];

function check(hint, known, path) {
  for (const [name, value] of Object.entries(hint)) {
    if (!(name in known)) throw new Unread("unknown-hint", `${path}.${name}`, `the hints here are ${Object.keys(known).join(", ")}`);
    if (known[name] && !known[name].is(value)) throw new Unread("bad-hint", `${path}.${name}`, `wanted ${known[name].wanted}`);
  }
}

/** What a click says: `"1: guard(row)"` is the move `guard`, whose first argument is the row, for items of value 1. */
function readClick(said, moves, path) {
  const [, only, move, given] = /^(?:(-?\d+): ?)?(\w+)\(([^)]*)\)$/.exec(said) ?? [];
  if (!move) throw new Unread("bad-hint", path, `${said} is no click, as MOVE(place)`);
  if (!(move in moves)) throw new Unread("no-move", path, `there is no move ${move}`);
  const names = given.split(",").map((one) => one.trim()).filter(Boolean);
  const two = names.join() === "from,to";
  const wrong = two ? null : names.find((one) => !["place", "row", "column", "item"].includes(one));
  if (wrong) throw new Unread("bad-hint", path, `${wrong} is none of place, row, column, item`);
  if (names.length > moves[move].args.length) throw new Unread("bad-hint", path, `${move} has ${moves[move].args.length} arguments`);
  return { move, only: only === undefined ? null : Number(only), names, two };
}

const usual = (type) => type.rows !== null || type.columns !== null ? "grid" : type.list ? "row" : "counter";

/** "clickCell" as "Click cell". */
export const spoken = (name) => {
  const words = name.replace(/[-_]/g, " ").replace(/([a-z])([A-Z])/g, (_, a, b) => `${a} ${b.toLowerCase()}`);
  return words[0].toUpperCase() + words.slice(1);
};

/** The hints of a description, and those that stand beside it, which count before its own. */
function together(description, beside) {
  const show = { ...description.show };
  for (const [slot, hint] of Object.entries(beside.show ?? {})) show[slot] = { ...show[slot], ...hint };
  // What stands beside comes first, in its own order.
  const order = [...new Set([...Object.keys(beside.show ?? {}), ...Object.keys(show)])];
  return Object.fromEntries(order.map((slot) => [slot, show[slot]]));
}

/**
 * Reads a description, the TOML file as data, with more hints beside it. It answers `{ game, title, glyph, about, sides, seats, events, scores, parts, moves,
 * args }`: the parts of the table in the order in which they are drawn, and `args`, the hints of arguments by `MOVE.ARGUMENT`.
 */
export function readTable(description, beside = {}) {
  const { game } = description;
  check(beside, WHOLE, game);
  const [least, most] = [description.seats].flat().length === 2 ? description.seats : [description.seats, description.seats];
  const constants = Object.fromEntries(Object.entries(description.const ?? {}).filter(([, value]) => Number.isInteger(value)));
  const kinds = { constants, most };
  const strange = Object.keys(beside.moves ?? {}).find((name) => !(name in description.moves));
  if (strange) throw new Unread("no-move", `${game}.moves.${strange}`, "there is no such move");
  const moves = Object.fromEntries(Object.entries(description.moves).map(([name, move]) => {
    const hint = { ...move, ...beside.moves?.[name] };
    check(Object.fromEntries(Object.entries(hint).filter(([member]) => !RULES.includes(member))), MOVE, `${game}.moves.${name}`);
    return [name, { ...hint, name, args: argumentsOf(move.args ?? [], kinds, `${game}.moves.${name}`) }];
  }));
  const parts = [], args = {}, show = together(description, beside);
  const slots = Object.fromEntries([["", description.common], ["me.", description.players]].flatMap(([front, table]) =>
    Object.entries(table ?? {}).map(([name, type]) => [front + name, typeOf(type, kinds, `${game}.${front}${name}`)])));
  for (const [key, hint] of Object.entries(show)) {
    const path = `${game}.show.${key}`, [move, name] = key.split(".");
    if (key in slots) {
      check(hint, SLOT, path);
      if (hint.on !== undefined && !(hint.on in slots)) throw new Unread("no-slot", `${path}.on`, `there is no slot ${hint.on}`);
      if (hint.toggle !== undefined && !(hint.toggle in moves)) throw new Unread("no-move", `${path}.toggle`, `there is no move ${hint.toggle}`);
    } else if (move in moves && moves[move].args.some((arg) => arg.name === name)) {
      check(hint, ARGUMENT, path);
      args[key] = hint;
    } else {
      throw new Unread("no-slot", path, "there is no such slot, and no such argument of a move");
    }
  }
  const order = [...Object.keys(show), ...Object.keys(slots).filter((key) => !(key in show))].filter((key) => key in slots);
  for (const key of order) {
    const hint = show[key] ?? {}, mine = key.startsWith("me."), name = mine ? key.slice(3) : key, type = slots[key];
    // A description that has hints leaves out what it doesn't mean to show.
    const as = hint.as ?? (Object.keys(description.show ?? {}).length && !show[key] ? "hidden" : usual(type));
    const clicks = [hint.click ?? []].flat().map((said) => readClick(said, moves, `${game}.show.${key}.click`));
    parts.push({ key, name, mine, type, hint, as, label: hint.label ?? spoken(name), least: type.least, clicks, toggle: hint.toggle ?? null });
  }
  return {
    game, title: beside.title ?? spoken(game), glyph: beside.glyph ?? "…", about: description.about ?? "", sides: beside.sides ?? [], seats: [least, most],
    events: description.events ?? [], minMoves: description.turn?.minMoves ?? 0, scores: description.scores ?? null,
    parts: parts.filter(({ as }) => as !== "hidden"), moves, args,
  };
}

// A described game for the page: what its description and its hints say becomes a game as boards/index.js has one.
import { endTurn, move } from "../lines.js";
import { plain } from "../words.js";
import { readTable, spoken } from "./hints.js";
import { look } from "./pieces.js";
import { Table } from "./table.js";

/** A move in words, by its hint `say`, in which `{n}` is an argument, and `{n+1}` one that people count from 1. */
function sayer(read) {
  const told = (made, at, value, name) => {
    const arg = made.args[at], part = read.parts.find(({ key }) => key === made.names?.[arg.name]);
    if (arg.kind === "seat") return name(value);
    if (part?.hint.names) return part.hint.names[value];
    const how = part?.hint ?? read.args[`${made.name}.${arg.name}`];
    return how?.items ? look(how, value, part ? part.least : arg.least).words : plain(String(value));
  };
  return ({ move: moved, args }, name) => {
    const made = read.moves[moved];
    if (!made) return plain([moved, ...args ?? []].join(" "));
    const bare = (made.label ?? spoken(moved)).toLowerCase();
    if (args === null) return made.say && !made.say.includes("{") ? made.say : bare;
    if (!made.say) return [bare, ...args.map((value, at) => told(made, at, value, name))].join(" ");
    return made.say.replace(/\{(\w+)(\+1)?\}/g, (_, key, more) => {
      const at = made.args.findIndex((arg) => arg.name === key);
      return at < 0 ? "" : more ? String(args[at] + 1) : told(made, at, args[at], name);
    });
  };
}

/**
 * The game of a description, with hints that stand beside it. `more` takes the place of what follows from them, and may have `offers(table)`,
 * what is offered to the viewer's seat, and `marks(table)`, places to mark.
 */
export function describedGame(description, beside = {}, more = {}) {
  const read = readTable(description, beside);
  const scores = read.scores ?? read.parts.find(({ hint }) => hint.score)?.key ?? null;
  // What the description doesn't say of it follows from its code, which the page doesn't read.
  const all = Object.values(read.moves), isSaid = all.every((one) => typeof one.undoable === "boolean");
  const undoable = isSaid ? all.filter((one) => one.undoable).map(({ name }) => name) : null;
  return {
    title: plain(read.title), glyph: read.glyph, least: read.seats[0], most: read.seats[1], rules: plain(read.about), undoable,
    say: sayer(read),
    hint: (table) => hintOf(read, more.offers?.(table) ?? null),
    scores: (g) => scores === null ? null : (g.common ?? g)[scores],
    make: (act) => new Table(read, { move: (name, args) => act(move(name, ...args)), endTurn: () => act(endTurn()) }, more),
    ...more,
  };
}

/** What the player may do, by the first move that is offered and has a hint for it. */
function hintOf(read, offers) {
  const isOffered = (name) => offers === null || offers.some(([one]) => one === name);
  return Object.values(read.moves).find(({ ask, name }) => ask && isOffered(name))?.ask ?? "";
}

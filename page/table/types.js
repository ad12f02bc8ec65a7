// The types of a description's slots and arguments, as docs/LANGUAGE.md writes them, read for who draws what they hold.

/** Something of a description that the table can't read: `name` is a stable word, `path` says where it stands, the message is for its author. */
export class Unread extends Error {
  constructor(name, path, why) {
    super(`${path}: ${name}: ${why}`);
    [this.name, this.path] = [name, path];
  }
}

const ITEM = /^(?:(seat)|(text)|([-\w]+) *\.\.(<?) *([-\w]+)) *(\?)?$/;
const LIST = /^\[([^;\]]+);([^\]]+)\]$/;

/**
 * The type of a slot: `kind` is `number`, `seat` or `text`, `least` and `greatest` are its range, `free` says whether it may be null, `list` whether it
 * is a list or a grid, `rows` and `columns` are those of a grid, `bySeats` says whether each seat has an item, or `columns` of them, and `count` is how
 * many items a list has at most.
 */
export function typeOf(text, { constants, most }, path) {
  const [bare] = String(text).split("=");
  const list = LIST.exec(bare.trim());
  if (!list) return { ...itemOf(bare.trim(), { constants, most }, path), list: false, rows: null, columns: null, bySeats: false };
  const [count, by = null] = list[2].split(/\bby\b/).map((one) => one.trim());
  const bySeats = count === "seats";
  const size = (one) => one === null ? null : numberOf(one, constants, path);
  const rows = bySeats || by === null ? null : size(count);
  const rest = by === null ? 1 : size(by), first = lengthOf(count, { constants, most }, path);
  return { ...itemOf(list[1].trim(), { constants, most }, path), list: true, rows, columns: size(by), bySeats, count: first * rest };
}

/** An argument of a move: its name and its type, `offer`, the values that are offered of it, or null, and whether it may be any text. */
export function argumentsOf(lines, { constants, most }, path) {
  return lines.flatMap((line) => {
    const [front, offered = null] = line.split(/ offer (?=\[)/);
    const [group] = front.split(/ in (?=[\w.]+$)/);
    return group.split(",").map((one) => {
      const [name, type = ""] = one.split(":").map((part) => part.trim());
      return { name, ...itemOf(type, { constants, most }, `${path}.${name}`), offer: offered === null ? null : offersOf(offered, path) };
    });
  });
}

function itemOf(text, { constants, most }, path) {
  const found = ITEM.exec(text);
  if (!found) throw new Unread("bad-type", path, `${text} is no type of an item`);
  const [, seat, isText, from, below, to, free] = found;
  if (seat) return { kind: "seat", least: 0, greatest: most - 1, free: Boolean(free) };
  if (isText) return { kind: "text", least: 0, greatest: 0, free: Boolean(free) };
  return { kind: "number", least: numberOf(from, constants, path), greatest: numberOf(to, constants, path) - (below ? 1 : 0), free: Boolean(free) };
}

function lengthOf(count, { constants, most }, path) {
  const bare = count.replace(/^\.\./, "").trim();
  return bare === "seats" ? most : numberOf(bare, constants, path);
}

function numberOf(word, constants, path) {
  const sign = word.startsWith("-") ? -1 : 1, bare = word.replace(/^-/, "");
  const number = /^\d+$/.test(bare) ? Number(bare) : constants[bare];
  if (!Number.isInteger(number)) throw new Unread("bad-type", path, `${word} is no number, and no constant that is one`);
  return sign * number;
}

function offersOf(text, path) {
  try { return JSON.parse(text); } catch { throw new Unread("bad-type", path, `${text} is no list of what is offered`); }
}

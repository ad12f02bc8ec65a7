// Which actions a click may mean, and what is still to be asked. It knows the offers alone: it judges no rule.

/** Arguments of which not all values are offered, as texts: an offer says nothing about them. */
export const isOpen = (arg) => arg.kind === "text" || arg.offer !== null;

export class Asking {
  /** What is asked for now: a move, its arguments by their places, where the click was, and moves of which one is to be chosen. */
  move = null; args = {}; from = null; either = null; draft = {}; latest = null;
  #moves; #offers = [];

  constructor(moves) {
    this.#moves = moves;
  }

  /** New offers, as `[move, arguments]`; null if nobody knows them, and then any may be one. What was begun is dropped if it can't be done any more. */
  begin(offers) {
    this.#offers = offers;
    if (this.move && !this.fits(this.move, this.args).length) this.drop();
  }

  drop() {
    [this.move, this.args, this.from, this.either, this.draft, this.latest] = [null, {}, null, null, {}, null];
  }

  get isKnown() {
    return this.#offers !== null;
  }

  /** The moves that are offered, each once. */
  offered() {
    return this.#offers === null ? Object.keys(this.#moves) : [...new Set(this.#offers.map(([name]) => name))];
  }

  /** The rows of arguments of a move's offers that have these values at these places. */
  fits(move, args) {
    const about = this.#moves[move]?.args ?? [];
    if (this.#offers === null) return Object.entries(args).every(([at, value]) => may(about[at], value)) ? [about.map((arg, at) => args[at] ?? null)] : [];
    const same = (row) => Object.entries(args).every(([at, value]) => isOpen(about[at]) || row[at] === value);
    return this.#offers.filter(([name, row]) => name === move && same(row)).map(([, row]) => row);
  }

  /** The arguments that are not known yet, each with its place; one that can have one value alone is known. */
  missing() {
    const rows = this.fits(this.move, this.args);
    const isOne = (arg, at) => this.isKnown && !isOpen(arg) && new Set(rows.map((row) => row[at])).size < 2;
    return this.#moves[this.move].args.map((arg, at) => ({ ...arg, at })).filter((arg) => !(arg.at in this.args) && !isOne(arg, arg.at));
  }

  /** The values that an argument may have beside the others, in rising order. */
  values(at) {
    const arg = this.#moves[this.move].args[at];
    if (!this.isKnown) return arg.offer ?? Array.from({ length: Math.min(64, arg.greatest - arg.least + 1) }, (_, step) => arg.least + step);
    if (arg.offer !== null) return arg.offer;
    const rest = Object.fromEntries(Object.entries(this.args).filter(([place]) => Number(place) !== at));
    return [...new Set(this.fits(this.move, rest).map((row) => row[at]))].sort((a, b) => a - b);
  }

  /** The whole row of arguments, or null if some are missing. */
  row(args = this.args) {
    const [first] = this.fits(this.move, args);
    if (!first) return null;
    const row = this.#moves[this.move].args.map((_, at) => args[at] ?? first[at]);
    return row.includes(null) ? null : row;
  }

  /** What a form shows: what was set, and of the rest the offer that is nearest to it. */
  nearest() {
    const set = { ...this.args, ...this.draft };
    if (!this.isKnown) return Object.fromEntries(this.missing().map((arg) => [arg.at, set[arg.at] ?? (arg.kind === "text" ? "" : arg.least)]));
    const closed = this.missing().filter((arg) => !isOpen(arg));
    const far = (row) => closed.reduce((sum, { at }) => sum + (at in set ? Math.abs(row[at] - set[at]) : 0), 0);
    const rows = this.fits(this.move, this.latest === null ? this.args : { ...this.args, [this.latest]: set[this.latest] });
    const row = rows.reduce((best, one) => best === null || far(one) < far(best) ? one : best, null);
    for (const { at } of closed) if (row) set[at] = row[at];
    return set;
  }
}

/** Whether an argument may have a value at all, by its range. */
const may = (arg, value) => arg !== undefined && (arg.kind === "text" || value !== null && value >= arg.least && value <= arg.greatest);

// The table of a game by its hints: it draws what a view says, marks what is offered, and asks for the action that was chosen. It judges no rule.
import { Asking } from "./asking.js";
import { drawGrid } from "./board.js";
import { drawControls } from "./controls.js";
import { spoken } from "./hints.js";
import { follow, make } from "./make.js";
import { back, look } from "./pieces.js";

const KEYS = { ArrowLeft: [0, -1], ArrowRight: [0, 1], ArrowUp: [-1, 0], ArrowDown: [1, 0] };
/** What a list is of, as a class of the style. */
const kindOf = ({ hint, type }) => isCards(hint) ? "of-cards" : hint.items === "dice" ? "of-dice" : hint.items === "tokens" ? "of-heaps"
  : type.kind === "text" ? "of-texts" : null;
const isCards = ({ items, face }) => items === "cards" || items === "cards13" || face === "card";

/** A board as boards/index.js has one: `element`, `actions` and `show(table)`; and `beside(table)`, what stands at the seats. */
export class Table {
  element = make("div", { class: "drawn" });
  actions = make("div", { class: "asks" });
  described; parts; asking; kept = new Set();
  #act; #offers; #marks; #mayEnd; #now = null; #entered = new Map();

  /**
   * `described` is what `readTable` has read. `act` has `move(name, args)` and `endTurn()`.
   * `offers(table)` answers what is offered to the viewer's seat, as `[move, arguments]`, or null if nobody knows;
   * `marks(table)` answers the places to mark, as where a line has won, by the names of slots; `mayEnd(table)` whether the turn may be ended.
   */
  constructor(described, act, { offers = () => null, marks = () => ({}), mayEnd = ({ ctx }) => ctx.numMoves >= described.minMoves } = {}) {
    [this.described, this.parts, this.#act, this.#offers, this.#marks, this.#mayEnd] = [described, described.parts, act, offers, marks, mayEnd];
    this.asking = new Asking(described.moves);
    this.element.addEventListener("keydown", (pressed) => this.#arrows(pressed));
    this.element.addEventListener("focusin", ({ target }) => this.#enter(target));
    for (const one of [this.element, this.actions]) one.addEventListener("keydown", ({ key }) => { if (key === "Escape" && this.asking.from) this.cancel(); });
  }

  show(table) {
    if (table.number !== this.#now?.number || table.seat !== this.#now?.seat) {
      this.kept.clear();
      if (this.asking.either) this.asking.drop();
    }
    this.#now = table;
    this.asking.begin(table.turns && !table.ctx.gameover ? this.#offers(table) : []);
    this.#only();
    this.draw();
  }

  // ---- what is seen

  get seat() { return this.#now.seat; }
  get seats() { return this.#now.seats; }
  get may() { return this.#now.may; }
  name(seat) { return this.#now.name(seat); }

  /** The value of a part; undefined if there is none, as of a hand that isn't one's own. */
  read(part, state = this.#now) {
    if (part.mine) return this.seat === null ? undefined : state.g.players?.[this.seat]?.[part.name];
    return (state.g.common ?? state.g)[part.name];
  }

  /** Whether an item of a list, or a value, is another one than before the last action. */
  changed(part, at = null) {
    const { before } = this.#now;
    if (!before) return false;
    const [was, is] = [this.read(part, before), this.read(part)];
    if (at === null) return JSON.stringify(was) !== JSON.stringify(is);
    if (was?.[at] === is?.[at]) return false;
    // Where something came to a free place, that is what was done, and not what it turned.
    const none = (value) => value === null || value === undefined;
    const came = part.as === "grid" && part.type.free ? is.map((value, place) => none(was?.[place]) && !none(value)) : [];
    return came.some(Boolean) ? came[at] : true;
  }

  /** How a place is marked beside what stands there: as guessed, or as the game says. */
  marks(part, at) {
    const guessed = this.#now.guessed > 0 && this.read(part, this.#now.settled)?.[at] !== this.read(part)?.[at];
    const wins = this.#marks(this.#now)[part.key]?.includes(at);
    return { classes: [guessed && "guess", wins && "wins"], words: [guessed && "guessed"] };
  }

  // ---- what a click means

  can(part, cell) { return this.may && this.#meant(part, cell).length > 0; }
  chosen(part, cell) { return this.asking.from?.part === part && this.asking.from.at === cell.at; }
  aimed(part, cell) { return this.may && this.#aimed(part, cell) !== null; }

  #clicks(part, cell) {
    return (cell.clicks ?? part.clicks).filter(({ only }) => only === null || only === cell.item).map(({ move, names, two }) =>
      ({ move, names, two, args: two ? { 0: cell.place } : Object.fromEntries(names.map((name, at) => [at, cell[name]])), part, cell }));
  }

  #meant(part, cell) {
    return this.#clicks(part, cell).filter(({ move, args }) => this.asking.fits(move, args).length);
  }

  /** What a click on a place means as the second one: the place of a move from one to another, or the way of one. */
  #aimed(part, cell) {
    const { from } = this.asking;
    if (!from || from.part !== part) return null;
    const fits = (one) => this.asking.fits(one.move, one.args).length ? one : null;
    if (from.two) return cell.at === from.at ? null : fits({ move: this.asking.move, args: { ...this.asking.args, 1: cell.place } });
    for (const [key, ways] of Object.entries(part.hint.aim ?? {})) {
      const [move, name] = key.split("."), place = this.described.moves[move].args.findIndex((arg) => arg.name === name);
      const way = ways.findIndex((one) => one === `${cell.row - from.row} ${cell.column - from.column}`);
      const click = this.#clicks(part, from).find((one) => one.move === move);
      const found = way < 0 || !click ? null : fits({ move, args: { ...click.args, [place]: way } });
      if (found) return found;
    }
    return null;
  }

  /** Whether an argument is told by a second click. */
  isAimed(move, name) {
    const { from } = this.asking;
    if (!from) return false;
    const place = this.described.moves[move].args.findIndex((arg) => arg.name === name);
    return from.two && place === 1 || `${move}.${name}` in (from.part.hint.aim ?? {});
  }

  click(part, cell) {
    if (this.seat === null) return;
    const aim = this.asking.from ? this.#aimed(part, cell) : null, meant = this.#meant(part, cell);
    if (aim && this.may) return this.begin({ ...aim, part, cell: this.asking.from });
    if (!meant.length || !this.may) {
      if (this.asking.from) return this.cancel();
      // What the rules seem not to allow is asked for all the same, if it is whole: the server says why not.
      const whole = this.#clicks(part, cell).find(({ move, names, two }) => !two && names.length === this.described.moves[move].args.length);
      return whole ? this.#act.move(whole.move, Object.values(whole.args)) : undefined;
    }
    const ways = Object.keys(part.hint.aim ?? {}).map((key) => key.split(".")[0]);
    if (meant.length > 1 && !meant.every(({ move }) => ways.includes(move))) {
      this.asking.drop();
      [this.asking.either, this.asking.from] = [meant, { ...cell, part }];
      return this.draw();
    }
    this.begin(meant[0]);
  }

  /** Begins a move with what is known of its arguments. It is sent once it is whole; else the rest is asked for. */
  begin({ move, args, part = null, cell = null, two = false }) {
    const isSecond = this.asking.from && this.asking.from === cell;
    this.asking.drop();
    Object.assign(this.asking, { move, args, from: cell && !isSecond ? { ...cell, part, two } : null });
    if (isSecond) this.asking.from = null;
    this.#next();
  }

  give(at, value) {
    this.asking.args[at] = value;
    this.#next();
  }

  #next() {
    const { move } = this.asking;
    const aims = this.described.moves[move].args.some((arg, at) => !(at in this.asking.args) && this.isAimed(move, arg.name));
    const row = this.asking.missing().length || aims ? null : this.asking.row();
    if (row) this.send(move, row); else this.draw();
  }

  send(move, args) {
    this.asking.drop();
    this.#act.move(move, args);
    this.#only();
    this.draw();
  }

  end() { this.#act.endTurn(); }

  cancel() {
    this.asking.drop();
    this.#only();
    this.draw();
  }

  /** If one move alone is to be made, and no part begins it, its arguments are asked for at once. */
  #only() {
    const loose = this.loose(), open = loose.filter((move) => this.described.moves[move].open), moves = open.length ? open : loose;
    if (this.asking.move || this.asking.either || !moves.length || !open.length && (moves.length !== 1 || this.started().size)) return;
    if (!this.described.moves[moves[0]].args.length) return;
    this.asking.move = moves[0];
    // A single row isn't sent by itself: it gets a button.
    if (!this.asking.missing().length) this.asking.drop();
  }

  /** The moves that a click on some part begins now, and those that need a button. */
  started() {
    const by = this.parts.flatMap((part) => [...part.clicks.map(({ move }) => move), part.toggle].filter(Boolean));
    return new Set(this.asking.offered().filter((move) => by.includes(move)));
  }

  loose() { return this.asking.offered().filter((move) => !this.started().has(move)); }
  toggles() { return this.parts.filter(({ toggle }) => toggle && this.asking.offered().includes(toggle)); }
  mayEnd() { return this.#now.turns && this.described.events.includes("endTurn") && this.#mayEnd(this.#now); }
  label(move) { return this.described.moves[move].label ?? spoken(move); }
  how(move, arg) { return this.described.args[`${move}.${arg.name}`] ?? {}; }

  /** What is asked once a move has begun by a click. */
  question(move) {
    const { from } = this.asking;
    if (from.two || Object.keys(from.part.hint.aim ?? {}).some((key) => key.split(".")[0] === move)) return "Where to?";
    const [arg] = this.asking.missing();
    return arg ? this.how(move, arg).ask ?? (arg.kind === "seat" ? `${this.label(move)}: whom?` : null) : null;
  }

  // ---- the drawing

  draw() {
    const middle = [], boards = [], facts = [], own = [];
    for (const part of this.parts) {
      const value = part.hint.on || this.#isBeside(part) ? undefined : this.read(part);
      if (value === undefined) continue;
      if (part.as === "grid") boards.push(...drawGrid(part, value, this));
      else if (part.as === "hand") (part.mine ? own : middle).push(this.#hand(part, value));
      else if (part.as === "counter") facts.push(this.#fact(part, value));
      else middle.push(this.#row(part, value));
    }
    const some = (list) => list.filter(Boolean);
    const felt = make("div", { class: "felt" }, some(facts).length ? make("div", { class: "facts" }, some(facts)) : null,
      some(middle).length ? make("div", { class: "middle" }, some(middle)) : null,
      boards.length ? make("div", { class: ["boards", boards.length > 1 && "many"] }, boards) : null);
    const made = make("div", { class: ["drawn", this.#now.turns && "turns", some(own).length && "has-own"] }, felt.children.length ? felt : null, some(own));
    this.#rove(made);
    const key = document.activeElement?.closest?.("[data-key]")?.dataset.key, within = this.element.contains(document.activeElement);
    follow(this.element, made);
    follow(this.actions, make("div", { class: "asks" }, drawControls(this)));
    if (within && key && !this.element.contains(document.activeElement)) this.#refocus(key);
  }

  /** The place that had the focus is gone: the last one of its part has it. */
  #refocus(key) {
    const all = [...this.element.querySelectorAll(`[data-key^="${CSS.escape(key.replace(/:[^:]*$/, ""))}:"]`)];
    (all.find((one) => one.dataset.key === key) ?? all.at(-1))?.focus({ preventScroll: true });
  }

  #isBeside(part) { return part.hint.of === "seat" && (part.as === "counters" || part.as === "backs"); }

  /** The piece with which a seat plays, or its number on its colour. */
  badge(seat) {
    const part = this.parts.find(({ hint }) => hint.value === "seat" || hint.seats);
    const seen = part ? look(part.hint, part.hint.seats?.[seat] ?? seat, part.least) : null;
    if (seen?.kind === "piece") return make("span", { "class": "badge", "role": "img", "aria-label": seen.words }, seen.node);
    return make("span", { "class": `dot seat${seat % 8}`, "aria-hidden": "true" }, String(seat + 1));
  }

  /** What stands at a seat, beside its name: its piece, its side, and its counts. */
  beside(seat) {
    const made = [], side = this.described.sides[seat];
    for (const part of this.parts) {
      const { hint } = part, value = this.#isBeside(part) ? this.read(part)?.[seat] : undefined;
      if (hint.value === "seat" || hint.seats) made.push(this.badge(seat));
      if (hint.counted) made.push(this.#count("", this.read(part).filter((one) => one === (hint.seats?.[seat] ?? seat)).length));
      if (value === undefined || value === null || value === 0 && hint.zero === false) continue;
      const seen = hint.items ? look(hint, value, part.least) : null;
      const named = (words) => ({ "class": "count", "role": "img", "aria-label": `${this.name(seat)}, ${words}` });
      if (seen) made.push(seen.node && make("span", named(seen.words), seen.node));
      else if (part.as === "backs") made.push(make("span", named(`${part.label}: ${value}`), make("i"), String(value)));
      else made.push(this.#count(part.label, value));
    }
    return [...side ? [make("span", { class: "count" }, side)] : [], ...made.filter(Boolean)];
  }

  #count(label, value) {
    const words = (value === 1 ? label.replace(/s$/, "") : label).toLowerCase();
    return make("span", { class: "count" }, make("b", {}, String(value)), words ? ` ${words}` : null);
  }

  #fact(part, value) {
    const { hint } = part;
    if (value === 0 && hint.zero === false || Array.isArray(value)) return null;
    const seen = this.#look(part, value);
    if (seen.kind === "none") return null;
    const shown = make("strong", ["text", "number"].includes(seen.kind) ? {} : { "role": "img", "aria-label": seen.words }, seen.node);
    const most = hint.most ? make("span", {}, `of ${hint.most}`) : null;
    return make("p", { class: ["fact", this.changed(part) && "last"] }, make("span", {}, part.label), shown, most);
  }

  /** A list of items to be chosen from, or whose places are kept or not. */
  #hand(part, list) {
    if (!list.length) return null;
    const items = list.map((item, place) => ({ part, item, place, at: place, row: 0, column: place }));
    if (part.hint.sort) items.sort((a, b) => a.item - b.item);
    const toggles = part.toggle && this.may && this.asking.fits(part.toggle, {}).length > 1;
    const had = this.#now.before && part.mine ? [...this.read(part, this.#now.before) ?? []] : null;
    const drawn = items.map((cell, at) => this.#item(part, cell, { at, toggles, fresh: had ? !take(had, cell.item) : this.changed(part, cell.at) && cell.item !== 0 }));
    // More than seven lie in two rows.
    const per = items.length > 7 ? Math.ceil(items.length / 2) : Math.max(4, items.length);
    return make("section", {
      "class": ["hand", part.mine && "own", kindOf(part)], "aria-label": part.label, "data-keys": part.key, "vars": { n: items.length, per },
    }, make("h3", {}, part.label), make("div", { class: "items" }, drawn));
  }

  #item(part, cell, { at, toggles, fresh }) {
    const seen = look(part.hint, cell.item, part.least), can = this.can(part, cell), kept = this.kept.has(cell.place);
    const [meant] = [...this.#meant(part, cell), ...this.#clicks(part, cell)];
    // A card's name says what pressing it does.
    const says = seen.kind === "card" && part.hint.face !== "card" && meant ? `${this.label(meant.move)} the ${seen.words}` : seen.words;
    const words = seen.kind === "die" ? `die ${cell.place + 1}: ${seen.words}` : says;
    const about = part.hint.face === "card" ? this.described.moves[part.clicks.find(({ only }) => only === cell.item)?.move]?.about : null;
    const classes = ["item", `k-${seen.kind}`, can && "can", kept && "kept", fresh && "last", this.chosen(part, cell) && "chosen"];
    const inside = [seen.node, kept ? make("span", { class: "keeps" }, part.hint.kept ?? "kept") : null, about ? make("small", {}, about) : null];
    const shared = { "type": "button", "class": classes, "data-key": `${part.key}:${at}`, "data-row": 0, "data-column": at };
    if (toggles) return make("button", { ...shared, "aria-label": words, "aria-pressed": String(kept), "onclick": () => this.#toggle(cell.place) }, inside);
    if (!part.clicks.length || this.seat === null) return make("div", { "class": classes, "role": "img", "aria-label": words }, inside);
    return make("button", { ...shared, "aria-label": words, "aria-disabled": String(!can), "onclick": () => this.click(part, cell) }, inside);
  }

  #toggle(place) {
    if (!this.kept.delete(place)) this.kept.add(place);
    this.draw();
  }

  /** A deck, a pile, or a row of items. */
  #row(part, value) {
    const { hint } = part;
    if (part.as === "deck" || part.as === "pile") {
      const isOpen = Array.isArray(value), count = isOpen ? value.length : value, seen = isOpen && count ? look(hint, value.at(-1), part.least) : null;
      const shown = count ? [seen?.node ?? back(), make("span", { class: "many-of" }, String(count))] : [make("span", { class: "gap" }, "empty")];
      const words = !count ? "empty" : seen ? `${seen.words}, ${count} in all` : String(count);
      return this.#spot(part, shown, `${part.label}: ${words}`, count > 1, isOpen && count > 0 && this.changed(part));
    }
    const list = Array.isArray(value) ? value : [value];
    const isEmpty = list.every((one) => one === null || one === "");
    if (!list.length || isEmpty && !isCards(hint)) return null;
    const drawn = list.map((item, at) => this.#place(part, { part, item, place: at, at, column: at, row: 0 }));
    return make("section", {
      "class": ["row", hint.of === "seat" && "by-seat", kindOf(part)], "aria-label": part.label, "data-keys": part.key, "vars": { n: list.length },
    }, hint.label ? make("h3", {}, part.label) : null, make("div", { class: "items" }, drawn));
  }

  #place(part, cell) {
    const { hint } = part, seen = this.#look(part, cell.item);
    const title = hint.of === "seat" ? this.name(cell.at) : hint.names?.[cell.at] ?? null;
    const marks = this.marks(part, cell.at), can = this.can(part, cell), aimed = this.aimed(part, cell);
    const last = seen.kind !== "none" && part.type.kind !== "text" && this.changed(part, cell.at);
    const classes = ["item", `k-${seen.kind}`, can && "can", aimed && "aim", this.chosen(part, cell) && "chosen", last && "last", marks.classes];
    const words = `${title ?? `place ${cell.at + 1}`}: ${seen.kind === "none" ? hint.none ?? "empty" : seen.words}`;
    const inside = [seen.node ?? make("span", { class: ["gap", isCards(hint) && "of-card"] }),
      title === null ? null : make("span", { class: "under" }, make("bdi", {}, title))];
    if (!part.clicks.length) return make("div", { "class": classes, "role": "img", "aria-label": words }, inside);
    return make("button", {
      "type": "button", "class": classes, "aria-label": words, "aria-disabled": String(!can && !aimed), "data-key": `${part.key}:${cell.at}`, "data-row": 0,
      "data-column": cell.at, "onclick": () => this.click(part, cell),
    }, inside);
  }

  /** What a value of a part looks like; a seat is its player's name. */
  #look(part, value) {
    if (value === null || part.type.kind !== "seat" && part.hint.items !== "seat") return look(part.hint, value, part.least);
    return { node: make("span", { class: "words" }, make("bdi", {}, this.name(value))), words: this.name(value), kind: "text" };
  }

  #spot(part, inside, words, deep, last = false) {
    const stack = make("span", { class: ["stack", deep && "deep", last && "last"] }, inside);
    return make("div", { "class": "spot", "role": "img", "aria-label": words }, stack, make("span", { class: "under" }, part.label));
  }

  // ---- the keyboard: one place of a part is reached by Tab, and the arrows go on from there

  #places(of) { return [...of.querySelectorAll("button[data-row]")]; }

  #rove(made) {
    for (const of of made.querySelectorAll("[data-keys]")) {
      const all = this.#places(of), kept = all.find((one) => one.dataset.key === this.#entered.get(of.dataset.keys));
      const reached = kept ?? all.find((one) => one.getAttribute("aria-disabled") !== "true") ?? all[0];
      for (const one of all) one.tabIndex = one === reached ? 0 : -1;
    }
  }

  #enter(target) {
    const place = target.closest("button[data-row]"), of = place?.closest("[data-keys]");
    if (!of) return;
    this.#entered.set(of.dataset.keys, place.dataset.key);
    for (const one of this.#places(of)) one.tabIndex = one === place ? 0 : -1;
  }

  #arrows(event) {
    const from = event.target.closest?.("button[data-row]"), of = from?.closest("[data-keys]"), step = KEYS[event.key];
    if (!of || !step && event.key !== "Home" && event.key !== "End") return;
    event.preventDefault();
    const all = this.#places(of);
    const to = event.key === "Home" ? all[0] : event.key === "End" ? all.at(-1) : nextOf(from, all, step);
    to?.focus();
  }
}

/** The nearest place in a direction; in a row up is back, and down is on. */
function nextOf(from, all, [down, right]) {
  const [row, column] = [Number(from.dataset.row), Number(from.dataset.column)];
  if (all.every((one) => one.dataset.row === from.dataset.row)) return all[all.indexOf(from) + down + right];
  const far = (one) => Math.abs(Number(one.dataset.row) - row) + Math.abs(Number(one.dataset.column) - column);
  const ahead = all.filter((one) => {
    const [y, x] = [Number(one.dataset.row) - row, Number(one.dataset.column) - column];
    return down ? x === 0 && Math.sign(y) === down : y === 0 && Math.sign(x) === right;
  });
  return ahead.sort((a, b) => far(a) - far(b))[0];
}

/** Takes one out of a list, and says whether it was there. */
function take(list, item) {
  const at = list.indexOf(item);
  if (at >= 0) list.splice(at, 1);
  return at >= 0;
}

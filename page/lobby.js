// The lobby: the games, their matches, and making one.
import { linkTo } from "./address.js";
import { button, element, keepingFocus, nameField, section, setText, unseen } from "./elements.js";
import { gameNamed, knownGames } from "./boards/index.js";
import { forgetSeat, keepGames, keptGames, seatIn } from "./keys.js";
import * as lines from "./lines.js";
import { beginMatch, isBot } from "./seats.js";
import { listed, plain } from "./words.js";

const REFRESH = 4_000;

export class Lobby {
  #place; #connection = null; #games = new Map(); #list; #alert; #timer; #onVisible; #asking = null; #name = nameField("player-name");
  #isOpen = false; #later = null;

  constructor(place) {
    this.#place = place;
    this.#alert = element("p", { class: "alert", role: "alert" });
    this.#list = element("div", { class: "games", id: "games", tabIndex: -1 });
    const intro = element("p", { class: "quiet" },
      "Write your name, make a match and send its link to your friends. Or take a free seat in one that is there.");
    place.main.replaceChildren(element("h1", { tabIndex: -1 }, "Matches"), intro, this.#name.element, this.#alert, this.#list);
    document.title = "Sarpuntxe";
    this.#showGames(keptGames(place.address) ?? knownGames);
    // A connection takes one of the server's few places, so a lobby that nobody sees gives its place back.
    this.#onVisible = () => document.hidden ? this.#rest() : this.connect();
    document.addEventListener("visibilitychange", this.#onVisible);
    this.#timer = setInterval(() => this.#refresh(), REFRESH);
    this.connect();
  }

  connect() {
    this.#rest();
    if (document.hidden) return;
    const told = (state, pause) => {
      this.#isOpen = state === "open";
      this.#place.told(state, pause);
    };
    this.#connection = this.#place.connect({ opened: () => this.#begin(), heard: () => {}, told });
  }

  close() {
    clearInterval(this.#timer);
    document.removeEventListener("visibilitychange", this.#onVisible);
    this.#rest();
  }

  #rest() {
    this.#connection?.close();
    [this.#connection, this.#isOpen, this.#later] = [null, false, null];
    this.#place.told("rests");
  }

  /** Asks, and answers the line, or null if the connection broke before. What is refused is said. */
  async #ask(line) {
    try {
      const answer = await this.#connection?.ask(line);
      if (["refused", "again"].includes(answer?.type)) { setText(this.#alert, lines.inWords(answer)); return null; }
      return answer ?? null;
    } catch (why) {
      if (lines.isCut(why)) return null;
      throw why;
    }
  }

  /** Asks at once for the matches of the games that are shown, and for the games. If those are others, it asks for the matches of these. */
  async #begin() {
    const later = this.#later;
    this.#later = null;
    const asked = this.#ask(lines.games()), refreshed = this.#refresh();
    later?.();
    const answer = await asked;
    if (!answer) return;
    keepGames(this.#place.address, answer.games);
    if ([...this.#games.keys()].join() === answer.games.join()) return;
    await refreshed;
    setText(this.#alert, "");
    this.#showGames(answer.games);
    this.#refresh();
  }

  #showGames(names) {
    this.#games = new Map(names.map((name) => [name, this.#section(name)]));
    this.#list.replaceChildren(...[...this.#games.values()].map((one) => one.section));
  }

  /** Asks for the matches of each game, unless it still waits for those that it has asked for. */
  #refresh() {
    this.#asking ??= Promise.all([...this.#games].map(async ([name, parts]) => {
      const answer = await this.#ask(lines.matches(name));
      if (answer) this.#showMatches(parts, answer.matches);
    })).finally(() => { this.#asking = null; });
    return this.#asking;
  }

  /** The part of a game: its rules, a form for a new match, its matches, and those that are over, folded. */
  #section(name) {
    const game = gameNamed(name);
    const counts = Array.from({ length: game.most - game.least + 1 }, (_, at) => game.least + at);
    const seats = element("select", { id: `seats-${name}` }, ...counts.map((count) => new Option(count, count)));
    if (counts.includes(2)) seats.value = 2;
    const form = element("form", { class: "choices" }, element("label", { for: seats.id }, "Seats", unseen(` of ${game.title}`)), seats,
      element("button", { type: "submit", id: `new-${name}` }, "New match", unseen(` of ${game.title}`)));
    form.addEventListener("submit", (event) => { event.preventDefault(); this.#create(name, Number(seats.value)); });
    const matches = element("ul", { class: "matches", id: `matches-${name}` });
    const none = element("p", { class: "quiet" }, "Looking for matches …");
    const count = element("span");
    const summary = element("summary", {}, count, unseen(` of ${game.title}`));
    const finished = element("ul", { class: "matches", id: `finished-${name}` });
    const folded = element("details", { hidden: true }, summary, finished);
    const whole = section(`game-${name}`, game.title, { class: "game" }, element("p", { class: "quiet" }, game.rules), form, none, matches, folded);
    whole.querySelector("h2").prepend(element("span", { class: "glyph", "aria-hidden": "true" }, game.glyph));
    return { section: whole, title: game.title, matches, none, finished, folded, count };
  }

  /** Makes a match and sits down in it, once there is a name and the connection stands. Of what is asked for before that the last one is done. */
  async #create(game, seats) {
    setText(this.#alert, "");
    const name = this.#name.read();
    if (name === null) return;
    if (!this.#isOpen) {
      this.#later = () => this.#create(game, seats);
      return;
    }
    const answer = await beginMatch((line) => this.#ask(line), this.#place.address, game, seats, name);
    if (answer) this.#place.go(answer.match);
  }

  #showMatches({ section: whole, title, matches, none, finished, folded, count }, rows) {
    const over = rows.filter((row) => row.over), on = rows.filter((row) => !row.over);
    none.hidden = on.length > 0;
    setText(none, "No match is on.");
    setText(count, `${over.length} finished`);
    keepingFocus(whole, () => {
      folded.hidden = over.length === 0;
      this.#showRows(matches, on, title);
      this.#showRows(finished, over, title);
    }, () => whole.querySelector("button[type=submit]"));
  }

  /** Brings a list up to date and keeps the rows that stay, so that the focus stays too. */
  #showRows(list, rows, title) {
    const there = new Map([...list.children].map((item) => [item.dataset.match, item]));
    rows.forEach((row, at) => {
      const item = there.get(row.match) ?? this.#item(row.match);
      there.delete(row.match);
      if (list.children[at] !== item) list.insertBefore(item, list.children[at] ?? null);
      const words = this.#openWords(row);
      setText(item.querySelector(".players"), this.#rowWords(row));
      setText(item.querySelector(".open"), words);
      item.querySelector(".open").setAttribute("aria-label", `${words}: ${title}, match ${row.match}`);
      const clear = item.querySelector("button");
      clear.hidden = !row.over || seatIn(this.#place.address, row.match) === null;
      clear.setAttribute("aria-label", `Clear away match ${row.match}`);
    });
    there.forEach((item) => item.remove());
  }

  #item(match) {
    const open = element("a", { class: "open", href: linkTo(match) });
    open.addEventListener("click", (event) => {
      if (event.button || event.ctrlKey || event.metaKey || event.shiftKey) return;
      event.preventDefault();
      this.#place.go(match);
    });
    const item = element("li", {}, element("span", { class: "match-name" }, match), element("bdi", { class: "players" }), open,
      button("Clear away", () => this.#clear(match), { class: "clear" }));
    item.dataset.match = match;
    return item;
  }

  /** Gives up the own seat of a match that is over. Once all its players have, the match is gone, and its room is free. */
  async #clear(match) {
    const kept = seatIn(this.#place.address, match);
    const answer = kept && await this.#connection?.ask(lines.leave(match, kept.seat, kept.key)).catch(() => null);
    if (!answer || answer.type === "again") return;
    forgetSeat(this.#place.address, match);
    setText(this.#alert, answer.type === "refused" ? lines.inWords(answer) : "");
    this.#refresh();
  }

  #rowWords({ players }) {
    const names = players.filter(({ name }) => name !== null).map(({ name }) => plain(name));
    const free = players.length - names.length;
    const seats = free ? `${free} ${free === 1 ? "seat" : "seats"} free` : null;
    return [listed(names), seats].filter(Boolean).join(" · ");
  }

  #openWords({ match, players, over }) {
    if (over) return "See the result";
    if (seatIn(this.#place.address, match)) return "Play on";
    if (players.some(({ name }) => name === null)) return "Join";
    return players.some(({ name }) => isBot(name)) ? "Play a bot" : "Watch";
  }
}

// The seats of a match: the strip of who sits where, joining, and what a player can do with the own seat. And beginning a match.
import { button, dot, element, nameField, offer, section, setText } from "./elements.js";
import { keepSeat } from "./keys.js";
import * as lines from "./lines.js";
import { plain } from "./words.js";

/** Whether a seat's name is one that the server's bots have. A person may have it too: then the server refuses to ask. */
export const isBot = (name) => name !== null && /^bot\d{1,2}$/.test(name);

/** Makes a match and sits down at its first seat. `ask(line)` answers the server's line. The answer is that to the making. */
export async function beginMatch(ask, address, game, seats, name) {
  const made = await ask(lines.create(game, seats));
  if (made?.type !== "created") return made;
  const joined = await ask(lines.join(made.match, 0, name));
  if (joined?.type === "joined") keepSeat(address, made.match, joined.seat, joined.key);
  return made;
}

export class Seats {
  element = element("ul", { class: "seats", "aria-label": "Seats" });
  #take; #ask; #name = nameField("player-name"); #seat; #free; #join; #bots; #form; #off = false;
  #newName = nameField("new-name"); #rename; #giveUp; #yes; #items = []; #asks = [];

  /** `take(seat, name)`, `rename(name)` and `leave()` ask the server, and `ask(seat, name)` asks the bot of a seat to leave it. */
  constructor({ take, rename, leave, ask }) {
    [this.#take, this.#ask] = [take, ask];
    this.#layJoin();
    this.#layOwn(rename, leave);
  }

  /** The part in which one takes a seat: one button for the first free one. */
  #layJoin() {
    this.#seat = element("select", { id: "join-seat" });
    this.#free = element("div", { class: "field" }, element("label", { for: "join-seat" }, "Seat"), this.#seat);
    this.#join = element("button", { type: "submit", class: "first", id: "join" }, "Join");
    this.#form = element("form", { class: "choices" }, this.#free, this.#join);
    this.#bots = element("div", { class: "choices" });
    this.join = section("join", "Join this match", { class: "panel" }, this.#name.element, this.#form, this.#bots);
    const said = () => setText(this.#join, this.#name.input.value.trim() ? `Join as ${plain(this.#name.input.value.trim())}` : "Join");
    const submit = (event) => { event.preventDefault(); this.#named((name) => this.#take(Number(this.#seat.value), name)); };
    this.#form.addEventListener("submit", submit);
    this.#name.input.addEventListener("input", said);
    this.#name.input.addEventListener("keydown", (event) => { if (event.key === "Enter" && !this.#form.hidden) submit(event); });
    said();
  }

  /** What a player can do with the own seat. */
  #layOwn(rename, leave) {
    this.#rename = button("Change my name", () => {
      const name = this.#off ? null : this.#newName.read();
      if (name !== null) rename(name);
    }, { id: "rename" });
    const stay = (now) => { really.hidden = !now; this.#giveUp.hidden = now; };
    this.#giveUp = button("Give up my seat", () => { stay(true); no.focus(); }, { id: "give-up" });
    this.#yes = button("Yes, give it up", () => { if (!this.#off) { stay(false); leave(); } }, { id: "give-up-really" });
    const no = button("No", () => { stay(false); this.#giveUp.focus(); });
    const really = element("div", { class: "choices", hidden: true }, "Really? The seat becomes free.", this.#yes, no);
    this.own = element("div", { class: "own-seat" }, this.#newName.element, element("div", { class: "choices" }, this.#rename, this.#giveUp, really));
  }

  /** Does something with the name that was typed, unless it is none, or the connection is down. */
  #named(run) {
    if (this.#off) return;
    const name = this.#name.read();
    if (name !== null) run(name);
  }

  /**
   * `seat` is one's own or null, `over` tells whether the match is, and `off` whether the server cannot be asked now.
   * `beside(seat)` answers the elements that stand at a seat beside its name.
   */
  show({ players, active, seat, over, off, beside }) {
    this.#off = off;
    while (this.#items.length > players.length) this.#items.pop().remove();
    players.forEach((player, at) => {
      const item = this.#items[at] ?? this.#add(at);
      this.#showSeat(item, player, active, seat);
      item.querySelector(".counts").replaceChildren(...beside(at));
    });
    const free = players.filter(({ name }) => name === null).map((player) => player.seat);
    const bots = players.filter(({ name }) => isBot(name)).map((player) => player.seat);
    this.join.hidden = seat !== null || over || free.length + bots.length === 0;
    this.#form.hidden = free.length === 0;
    setText(this.join.querySelector("h2"), free.length ? "Join this match" : "Play in a bot's place");
    this.#showFree(free);
    this.#showBots(bots, players);
    this.own.hidden = seat === null || over;
    for (const one of [this.#join, this.#rename, this.#giveUp, this.#yes, ...this.#asks]) offer(one, !off);
  }

  #showFree(free) {
    this.#free.hidden = free.length < 2;
    if ([...this.#seat.options].map(({ value }) => Number(value)).join() === free.join()) return;
    const chosen = this.#seat.value;
    this.#seat.replaceChildren(...free.map((at) => new Option(String(at + 1), at)));
    if (free.includes(Number(chosen)) && chosen !== "") this.#seat.value = chosen;
  }

  #showBots(bots, players) {
    this.#bots.hidden = bots.length === 0;
    if (this.#asks.map((one) => one.dataset.seat).join() === bots.join()) return;
    this.#asks = bots.map((at) => {
      const one = button(`Play in place of ${plain(players[at].name)}`, () => this.#named((name) => this.#ask(at, name)), { id: `ask-${at}` });
      one.dataset.seat = at;
      return one;
    });
    this.#bots.replaceChildren(...this.#asks);
  }

  #showSeat(item, { name, seat: at }, active, seat) {
    const acts = active.some((one) => one.seat === at);
    setText(item.querySelector("bdi"), name === null ? "free" : plain(name));
    setText(item.querySelector(".notes"), [at === seat && "you", acts && "to play"].filter(Boolean).join(", "));
    item.classList.toggle("acts", acts);
    item.classList.toggle("free", name === null);
  }

  #add(at) {
    const item = element("li", {}, dot(at), element("bdi"), element("span", { class: "notes" }), element("span", { class: "counts" }));
    this.#items.push(item);
    this.element.append(item);
    return item;
  }
}

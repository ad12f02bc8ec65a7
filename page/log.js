// The log of a match in words, the newest entry first. It names people as they were when the page first saw the entry, and keeps what
// only two states in a row tell, as which card was laid.
import { dot, element, setText } from "./elements.js";
import { entryWords, eventWords, trail } from "./words.js";

export class Log {
  #list = element("ol", { class: "log", reversed: true });
  #none = element("p", { class: "quiet" }, "Nobody has moved yet.");
  #items = []; #known = [];
  element = element("div", {}, this.#none, this.#list);

  /** Keeps what is known of the newest entry: the words of the game for it, or null. */
  learn(log, words) {
    const at = log.length - 1;
    this.#know(log[at], at).words ??= words;
  }

  /** Shows a log, and behind it what is on its way to the server. Entries that are undone are struck through. */
  show(log, pending, game, name, sits) {
    const entries = [...log, ...pending];
    const { undone, about } = trail(entries);
    const struck = new Set(undone);
    const known = entries.map((entry, at) => this.#know(entry, at));
    known.forEach((one, at) => { if (at < log.length && sits(entries[at].seat)) one.player ??= name(entries[at].seat); });
    const say = (at) => known[at].words ?? (entries[at].act.kind === "move" ? game.say(entries[at].act, name) : eventWords(entries[at].act, name));
    this.#none.hidden = entries.length > 0;
    while (this.#items.length > entries.length) this.#items.pop().remove();
    entries.forEach((entry, at) => {
      const item = this.#items[at] ?? this.#add();
      if (item.dataset.seat !== String(entry.seat)) item.firstChild.replaceWith(dot(entry.seat));
      item.dataset.seat = entry.seat;
      setText(item.querySelector("bdi"), entryWords(entry, say(about[at] ?? at), known[at].player ?? name(entry.seat)));
      item.classList.toggle("undone", struck.has(at));
      item.classList.toggle("pending", at >= log.length);
    });
  }

  /** What is known of the entry at a place, as long as the same entry stands there. */
  #know(entry, at) {
    const is = JSON.stringify([entry.seat, entry.act, entry.turn]);
    if (this.#known[at]?.is !== is) this.#known[at] = { is, player: null, words: null };
    return this.#known[at];
  }

  #add() {
    const item = element("li", {}, element("span"), element("bdi"));
    this.#items.push(item);
    this.#list.prepend(item);
    return item;
  }
}

// A match: its board, who sits where, and what a player does. The client of the server follows it.
import { leadsNobodyHere, linkTo, mayGuess, qrCode } from "./address.js";
import { Bell } from "./bell.js";
import { gameNamed, isKnown } from "./boards/index.js";
import { button, dot, element, keepingFocus, offer, section, setText, squares, tabs } from "./elements.js";
import { startProgram } from "./guess.js";
import { forgetSeat, keepSeat, lastName, seatIn } from "./keys.js";
import * as lines from "./lines.js";
import { Log } from "./log.js";
import { Match as Followed, SarpuntxeError, activeSeats } from "./sarpuntxe.js";
import { beginMatch, Seats } from "./seats.js";
import { backAndForth, ending, nameFault, plain, turnWords } from "./words.js";

const PAUSE_AFTER_REFUSAL = 5_000;
const LINK_LINE = 34;

export class Match {
  #place; #match; #live = null; #unsubscribe = () => {}; #state = { status: "connecting", waiting: [] }; #closed = false; #cuts = 0;
  #row = null; #gameName = null; #game = null; #board = null; #seat = null; #key = null;
  #shown = null; #before = null; #lostAct = false; #program = mayGuess() ? startProgram() : Promise.resolve(null); #wanted = null;
  #lost = null; #table = null; #parts = {}; #log = new Log(); #seats; #bell = new Bell();

  constructor(place, match) {
    [this.#place, this.#match] = [place, match];
    this.#seats = new Seats({
      take: (seat, name) => this.#take(seat, name),
      rename: (name) => this.#rename(name),
      leave: () => this.#leave(),
      ask: (seat, name) => this.#askFor(seat, name),
    });
    this.#lay();
    this.#follow();
  }

  connect() {
    this.#live?.reconnect();
  }

  close() {
    this.#closed = true;
    this.#drop();
    this.#bell.close();
  }

  // ---- what the server says

  /** Follows the match from the kept seat, or as a spectator. It connects anew by itself. */
  #follow() {
    if (this.#closed) return;
    this.#drop();
    const kept = seatIn(this.#place.address, this.#match);
    [this.#seat, this.#key] = [kept?.seat ?? null, kept?.key ?? null];
    const place = { match: this.#match, seat: this.#seat, key: this.#key };
    const guess = (game) => isKnown(game) ? this.#program : null;
    try {
      this.#live = new Followed(this.#place.address, place, { guess, heard: (line) => this.#heard(line) });
    } catch {
      return this.#place.told("wrong");
    }
    this.#unsubscribe = this.#live.subscribe((state) => this.#changed(state));
    this.#changed(this.#live.state);
  }

  #drop() {
    this.#unsubscribe();
    this.#live?.close();
    this.#live = null;
  }

  #heard(line) {
    if (line.type === "bye") this.#say(lines.inWords(line));
  }

  /**
   * Without a connection nothing can be asked for, and what is shown may be old.
   * Until there is something to show the head of the page says how the connection is, and then the turn's strip.
   */
  #changed(state) {
    if (this.#state.status === "open" && state.status !== "open") this.#cuts++;
    this.#state = state;
    if (state.status === "ended") return this.#ended(state.error);
    const told = state.status === "waiting" ? "silent" : state.status;
    if (told === "open") this.#lost = null;
    if (told === "broken" || told === "silent") this.#lost = told;
    if (state.row && state.row !== this.#row) this.#sits(state.row);
    const shown = this.#off ? state.settled : state.shown;
    if (shown) this.#show(shown);
    this.#place.told(this.#parts.all.hidden ? told : "rests", state.pause);
    this.#draw();
    this.#takeWanted();
  }

  /** Whether the server cannot be asked now. */
  get #off() {
    return this.#state.status !== "open";
  }

  /** Who sits where. A server that was started anew may have another match of this name. */
  #sits(row) {
    this.#row = row;
    if (this.#gameName !== row.game) this.#layGame(row.game);
  }

  /** The match can't be followed so any more. Most of it can still be watched. */
  #ended(why) {
    if (!(why instanceof SarpuntxeError)) throw why;
    if (why.reason === "no-match") return this.#gone(lines.ofError(why));
    if (why.reason === "left" || why.reason === "replaced") return this.#follow();
    if (why.reason === "unauthorized" && this.#key !== null) {
      forgetSeat(this.#place.address, this.#match);
      this.#say("The seat that you had here is no longer yours. You are watching now.");
      return this.#follow();
    }
    this.#say(lines.ofError(why));
    setTimeout(() => this.#follow(), PAUSE_AFTER_REFUSAL);
  }

  #show(shown) {
    if (shown === this.#shown) return;
    this.#before = shown.number === this.#shown?.number + 1 ? this.#shown : null;
    this.#shown = shown;
    // What is guessed has no entry in the log yet.
    if (this.#before && shown.log.length > this.#before.log.length) {
      this.#log.learn(shown.log, this.#game.tell?.(shown.log.at(-1), this.#before, shown, (seat) => this.#name(seat)) ?? null);
    }
  }

  // ---- what the player does

  /** Acts. Where actions are guessed a next one can follow before the server has judged the last. */
  #act(asked) {
    if (this.#off || this.#key === null) return;
    if (this.#state.waiting.length >= (this.#state.guesses ? this.#game.ahead : 1)) return;
    this.#say("");
    this.#lostAct = false;
    const cuts = this.#cuts;
    this.#live.act(asked).then(() => this.#decided(asked, cuts, null), (why) => this.#decided(asked, cuts, why));
  }

  /** An action has counted, or has not. After a cut that is said in any case, since nobody could see it. */
  #decided(asked, cuts, why) {
    if (why?.kind === "ended" || why?.reason === "not-sent") return;
    if (why?.reason === "cut" || cuts !== this.#cuts && why === null) {
      this.#lostAct ||= why !== null;
      return this.#say(this.#lostAct ? "The connection broke before what you did had counted. Choose anew."
        : "The connection broke, but what you did has counted.");
    }
    if (why === null) return;
    const against = why.reason === "invalid-move" ? this.#game.against?.(asked, this.#table) : null;
    this.#say(against ?? lines.ofError(why));
  }

  /** Asks the bot of a seat to leave it, and takes the seat once it is free. */
  #askFor(seat, name) {
    this.#request(lines.takeover(this.#match, seat), () => {
      this.#wanted = { seat, name };
      this.#note("The bot was asked for its seat. You sit down as soon as it has left.");
    });
  }

  #takeWanted() {
    const wanted = this.#wanted;
    if (!wanted || this.#off || this.#row?.players[wanted.seat]?.name !== null) return;
    this.#wanted = null;
    this.#note("");
    if (this.#seat === null) this.#take(wanted.seat, wanted.name);
  }

  #take(seat, name) {
    this.#request(lines.join(this.#match, seat, name), (answer) => {
      keepSeat(this.#place.address, this.#match, answer.seat, answer.key);
      this.#follow();
    });
  }

  #rename(name) {
    this.#request(lines.rename(this.#match, this.#seat, this.#key, name), () => this.#look());
  }

  #leave() {
    this.#request(lines.leave(this.#match, this.#seat, this.#key), () => {
      forgetSeat(this.#place.address, this.#match);
      this.#follow();
    });
  }

  /** Makes a new match of the same game, for as many, and goes there. */
  #again() {
    if (this.#off) return;
    this.#say("");
    const name = lastName().trim();
    this.#guard(async () => {
      const ask = (line) => this.#live.ask(line);
      const [game, seats] = [this.#gameName, this.#shown.ctx.numPlayers];
      const made = nameFault(name) ? await ask(lines.create(game, seats)) : await beginMatch(ask, this.#place.address, game, seats, name);
      if (made.type === "created") this.#place.go(made.match); else this.#say(lines.inWords(made));
    });
  }

  /** Sends a request, and does something if it is granted. A refusal is said, and the seats are looked at again. */
  #request(line, granted) {
    this.#say("");
    this.#guard(async () => {
      const answer = await this.#live.ask(line).catch((why) => {
        this.#say("The connection broke before that was answered.");
        throw why;
      });
      if (!["refused", "again"].includes(answer.type)) return granted(answer);
      this.#say(lines.inWords(answer));
      this.#look();
    });
  }

  /** Asks who sits where before it is time. */
  #look() {
    this.#live.look().catch(() => {});
  }

  /** Runs what asks the server. If the connection breaks meanwhile, what comes next begins with a new one. */
  async #guard(run) {
    try {
      await run();
    } catch (why) {
      if (!lines.isCut(why)) throw why;
    }
  }

  // ---- what is shown

  /** Says what went wrong. */
  #say(words) {
    setText(this.#parts.all.hidden ? this.#parts.early : this.#parts.alert, words);
    if (words) this.#note("");
  }

  /** Says what goes on, where nothing is wrong. */
  #note(words) {
    setText(this.#parts.note, words);
  }

  #name(seat) {
    const name = this.#row?.players[seat]?.name ?? null;
    return name === null ? `seat ${seat + 1}` : plain(name);
  }

  /** Lays out the parts that every game has. */
  #lay() {
    const part = (tag, properties, ...children) => element(tag, properties, ...children);
    this.#parts = {
      title: part("h1", { tabIndex: -1 }, "Match"),
      rules: part("p", { class: "quiet rules" }),
      about: part("p", {}),
      turn: part("p", { class: "turn", role: "status" }),
      retry: button("Try now", () => this.connect(), { id: "retry", hidden: true }),
      alert: part("p", { class: "alert", role: "alert", id: "alert" }),
      note: part("p", { class: "note", role: "status", id: "note" }),
      board: part("div", { class: "board", id: "board", tabIndex: -1, role: "group", "aria-label": "The game" }),
      actions: part("div", { class: "actions" }),
      undo: button("Undo", () => this.#act(lines.undo()), { id: "undo" }),
      redo: button("Redo", () => this.#act(lines.redo()), { id: "redo" }),
      watching: part("p", { class: "quiet watching" }, "You are watching."),
    };
    const p = this.#parts;
    p.invite = this.#invite();
    p.result = this.#result();
    p.lead = part("div", { class: "lead" }, this.#seats.join, p.result);
    p.table = part("section", { class: "table", "aria-label": "Table" }, this.#seats.element, p.watching, p.board);
    p.back = part("div", { class: "choices back" }, p.undo, p.redo);
    p.bar = part("section", { class: "bar-of-turn", "aria-label": "Turn" }, p.alert, p.note,
      part("div", { class: "strip" }, p.turn, p.retry), part("div", { class: "controls" }, p.actions, p.back));
    p.inviting = part("div", {});
    p.tabs = tabs("About the match", [
      { id: "moves", label: "Moves", part: part("div", {}, this.#log.element) },
      { id: "invite", label: "Invite", part: p.inviting },
      { id: "about", label: "About", part: part("div", {}, p.about, this.#bell.choice, this.#seats.own) },
    ]);
    // Nothing is shown before the first state, so that nothing moves under a finger.
    p.all = part("div", { class: "match", hidden: true }, p.lead, p.table, p.bar, part("div", { class: "side" }, this.#bell.question, p.tabs.element));
    p.early = part("p", { class: "quiet" }, "The match is being fetched …");
    this.#place.main.replaceChildren(p.title, p.rules, p.early, p.all);
  }

  /** The part with the match's link: whole, to copy, to share, and as a code for a phone's camera. */
  #invite() {
    const address = linkTo(this.#match);
    const rows = Math.ceil(address.length / LINK_LINE);
    const link = element("textarea", { class: "address", readOnly: true, value: address, rows, "aria-label": "Link to this match" });
    link.addEventListener("focus", () => link.select());
    const copy = button("Copy the link", () => this.#copy(link, copy), { id: "copy" });
    const share = navigator.share ? [button("Share", () => navigator.share({ url: address, title: this.#game.title }).catch(() => {}), { id: "share" })] : [];
    const code = qrCode(address);
    const warning = leadsNobodyHere(address)
      ? [element("p", { class: "warning" }, "Others can't open this address: use this machine's address, start with LISTEN=0.0.0.0:7000")] : [];
    const words = element("div", { class: "words" }, element("p", { class: "quiet" }, "Whoever has this link can take a free seat, or watch."),
      ...warning, link);
    return section("inviting", "Invite", { class: "panel invite" }, words, element("div", { class: "choices" }, copy, ...share),
      ...(code ? [squares(code, "The link as a QR code")] : []));
  }

  /** The part that says how the match ended, and what comes next. */
  #result() {
    const p = this.#parts;
    const home = element("a", { class: "as-button", id: "back-to-lobby", href: linkTo(null) }, "Back to the lobby");
    home.addEventListener("click", (event) => {
      if (event.button || event.ctrlKey || event.metaKey || event.shiftKey) return;
      event.preventDefault();
      this.#place.go(null);
    });
    p.again = button("New match of the same game", () => this.#again(), { id: "again", class: "first" });
    p.scores = element("ul", { class: "chips" });
    const made = section("result", "", { class: "panel result", hidden: true }, p.scores, element("div", { class: "choices" }, p.again, home));
    p.ended = made.querySelector("h2");
    p.ended.tabIndex = -1;
    const said = element("div", { role: "status" });
    made.prepend(said);
    said.append(p.ended);
    return made;
  }

  #layGame(name) {
    // A server that was started anew may have another match of this name.
    [this.#gameName, this.#game, this.#shown, this.#before] = [name, gameNamed(name), null, null];
    this.#board = this.#game.make((asked) => this.#act(asked));
    const p = this.#parts;
    setText(p.title, this.#game.title);
    setText(p.rules, this.#game.rules);
    setText(p.about, `${this.#game.rules} This is match ${this.#match}.`);
    p.board.replaceChildren(this.#board.element);
    p.actions.replaceChildren(...(this.#board.actions ? [this.#board.actions] : []));
  }

  #draw() {
    if (!this.#shown || !this.#row) return;
    keepingFocus(this.#place.main, () => this.#drawAll(), () => this.#parts.result.hidden ? this.#parts.board : this.#parts.ended);
  }

  #drawAll() {
    const { ctx, log, number } = this.#shown;
    const name = (seat) => this.#name(seat);
    const { players } = this.#row;
    const off = this.#off, over = Boolean(ctx.gameover);
    const active = activeSeats(ctx);
    const turns = active.some((one) => one.seat === this.#seat);
    const waiting = off ? [] : this.#state.waiting;
    const settled = off ? this.#shown : this.#state.settled;
    const guessed = Math.max(0, number - settled.number);
    const full = guessed > 0 && waiting.length >= this.#game.ahead;
    const may = turns && !full && !off;
    const table = { ...this.#shown, before: this.#before, settled, guessed, seat: this.#seat, may, turns, seats: ctx.numPlayers, name };
    this.#table = table;
    const p = this.#parts;
    if (p.early.isConnected) {
      p.early.hidden = true;
      this.#place.told("rests");
    }
    p.all.hidden = false;
    const end = ending(ctx.gameover, this.#seat, name, this.#game.scores?.(this.#shown.g));
    const turn = full ? "Your move is shown already, and on its way to the server."
      : [turnWords(ctx, this.#seat, name, players), turns ? this.#game.hint(table) : ""].join(" ").trim();
    setText(p.turn, this.#lost ? this.#lostWords() : end ?? turn);
    p.turn.classList.toggle("own", turns && !this.#lost);
    p.turn.classList.toggle("lost", this.#lost !== null);
    p.retry.hidden = this.#lost !== "broken";
    this.#board.show(table);
    p.board.classList.toggle("guessed", guessed > 0);
    p.board.classList.toggle("waits", (waiting.length > 0 && !guessed) || off);
    this.#drawBack(may);
    p.actions.hidden = over || this.#seat === null;
    p.watching.hidden = this.#seat !== null || over;
    p.bar.classList.toggle("ended", over && !this.#lost);
    this.#seats.show({ players, active, seat: this.#seat, over, off, beside: (seat) => this.#board.beside?.(seat) ?? [] });
    this.#drawLead(end, over, off, name);
    const pending = waiting.map((act) => ({ act, seat: this.#seat }));
    this.#log.show(log, pending, this.#game, name, (seat) => players[seat]?.name !== null);
    this.#drawTitle(end, turns, turnWords(ctx, this.#seat, name, players));
    // What is guessed says nothing of the turn.
    const settledTurn = activeSeats(settled.ctx).some((one) => one.seat === this.#seat);
    this.#bell.show({ seat: over ? null : this.#seat, turn: off ? null : settledTurn, title: this.#game.title });
  }

  /** The tab tells whose turn it is. */
  #drawTitle(end, turns, words) {
    const said = this.#lost ? "Connection lost" : end ?? (turns ? "Your turn" : words.replace(/\.$/, ""));
    document.title = `${said} · ${this.#game.title}`;
  }

  #lostWords() {
    return this.#lost === "silent" ? "Connection lost – the server does not answer yet …" : "Connection lost – reconnecting …";
  }

  /** What stands first: how it ended, or what invites others until all seats are taken, or what lets one sit down. */
  #drawLead(end, over, off, name) {
    const p = this.#parts;
    const free = this.#row.players.some((player) => player.name === null);
    const first = !over && free && this.#seat !== null;
    const where = first ? p.lead : p.inviting;
    if (p.invite.parentElement !== where) where.append(p.invite);
    p.tabs.offer("invite", !first && !over);
    p.rules.hidden = over || !free;
    p.result.hidden = !over;
    setText(p.ended, end ?? "");
    offer(p.again, !off);
    const scores = over ? this.#game.scores?.(this.#shown.g) ?? [] : [];
    p.scores.hidden = scores.length === 0;
    const best = Math.max(...scores);
    p.scores.replaceChildren(...scores.map((score, at) => element("li", { class: score === best ? "best" : "" }, dot(at),
      element("bdi", {}, name(at)), element("strong", {}, String(score)))));
  }

  /** Undo and redo, where there is something to undo or to do again. */
  #drawBack(may) {
    const { undo, redo } = backAndForth(this.#shown, this.#seat, this.#game.undoable);
    this.#parts.undo.hidden = !(may && undo);
    this.#parts.redo.hidden = !(may && redo);
    this.#parts.back.hidden = this.#parts.undo.hidden && this.#parts.redo.hidden;
  }

  /** The match isn't there, or no longer. */
  #gone(words) {
    this.close();
    forgetSeat(this.#place.address, this.#match);
    this.#place.told("rests");
    const home = element("a", { href: linkTo(null) }, "See the matches that there are");
    home.addEventListener("click", (event) => { event.preventDefault(); this.#place.go(null); });
    this.#place.main.replaceChildren(element("h1", { tabIndex: -1 }, "No such match"), element("p", { class: "alert", role: "alert" }, words),
      element("p", {}, "It may have been removed with its last player, or the server was started anew."), element("p", {}, home));
    document.title = "No such match";
  }

  async #copy(link, copy) {
    const written = navigator.clipboard?.writeText(link.value) ?? Promise.reject();
    const copied = await written.then(() => true, () => {
      link.focus();
      const done = document.execCommand("copy");
      copy.focus();
      return done;
    });
    setText(copy, copied ? "Copied" : "Copy it by hand");
    setTimeout(() => setText(copy, "Copy the link"), 2_000);
  }
}

// What tells players that it is their turn: a sound, and a notification if the page isn't in sight. It is off until a player wants it,
// which a match asks once in each browser, and the tab "About" lets change.
import { button, element, keepingFocus, setText } from "./elements.js";
import { keepBell, keptBell } from "./keys.js";

// Two short notes: how high, and when they begin, in seconds.
const NOTES = [[660, 0], [880, 0.14]];
const LASTS = 0.22, LOUD = 0.15;

/** The browser's notifications, where it has some: on a page that came by plain HTTP from another machine it has none. */
const notices = () => globalThis.isSecureContext && globalThis.Notification ? globalThis.Notification : null;

export class Bell {
  question; choice;
  #turn = null; #seat = null; #sound = null; #notice = null;
  // A browser lets a page sound only once somebody has pressed something there.
  #pressed = () => { if (keptBell()) this.#wake(); };

  constructor() {
    this.question = element("div", { class: "choices ask-bell", hidden: true }, element("span", {}, "Shall this page tell you when it is your turn?"),
      button("Yes, tell me", () => this.#want(true), { id: "bell-yes" }), button("No, thanks", () => this.#want(false), { id: "bell-no" }));
    this.choice = button("", () => this.#want(!keptBell()), { id: "bell" });
    for (const type of ["click", "keydown"]) addEventListener(type, this.#pressed);
  }

  close() {
    for (const type of ["click", "keydown"]) removeEventListener(type, this.#pressed);
    this.#notice?.close();
    this.#sound?.close();
    this.#sound = null;
  }

  /** `seat` is one's own, or null if there is nothing to be told; `turn` says whether it is its turn, or null if that isn't known now. */
  show({ seat, turn, title }) {
    const kept = keptBell();
    this.question.hidden = seat === null || kept !== null;
    this.choice.hidden = seat === null;
    setText(this.choice, kept ? "Don't tell me when it is my turn" : "Tell me when it is my turn");
    if (seat !== this.#seat) [this.#seat, this.#turn] = [seat, null];
    if (turn === null) return;
    if (turn && this.#turn === false && kept) this.#ring(title);
    if (!turn) this.#notice?.close();
    this.#turn = turn;
  }

  #want(on) {
    keepBell(on);
    keepingFocus(this.question, () => this.show({ seat: this.#seat, turn: null }), () => document.getElementById("board"));
    if (!on) return;
    this.#wake();
    this.#play();
    if (notices()?.permission === "default") notices().requestPermission();
  }

  #wake() {
    if (!globalThis.AudioContext) return;
    this.#sound ??= new AudioContext();
    if (this.#sound.state === "suspended") this.#sound.resume().catch(() => {});
  }

  #ring(title) {
    this.#play();
    if (!document.hidden || notices()?.permission !== "granted") return;
    try {
      this.#notice = new (notices())("Your turn", { body: title, icon: document.querySelector("link[rel=icon]").href, tag: location.href });
      this.#notice.onclick = () => { focus(); this.#notice.close(); };
    } catch {
      // Some phones have notifications for installed pages alone.
    }
  }

  #play() {
    const sound = this.#sound;
    if (!sound) return;
    for (const [pitch, begins] of NOTES) {
      const note = sound.createOscillator(), loud = sound.createGain(), at = sound.currentTime + begins;
      note.frequency.value = pitch;
      loud.gain.setValueAtTime(LOUD, at);
      loud.gain.exponentialRampToValueAtTime(0.001, at + LASTS);
      note.connect(loud).connect(sound.destination);
      note.start(at);
      note.stop(at + LASTS);
    }
  }
}

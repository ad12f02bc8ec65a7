// A game that the page doesn't know: its state as JSON, and fields for a move and its arguments.
import { endTurn, move } from "../lines.js";
import { button, element, offer, setText } from "../elements.js";
import { plain } from "../words.js";

const WHOLE = /^-?\d+$/;

/** The arguments of a move as they are typed, with commas between: whole numbers, and all else as texts. */
const argumentsOf = (typed) => typed.trim() === "" ? [] : typed.split(",").map((one) => WHOLE.test(one.trim()) ? Number(one) : one.trim());

export const unknown = (name) => ({
  title: plain(name), glyph: "…", least: 1, most: 16,
  rules: "This page does not know the game: it shows the state as it is, and takes moves by their names.",
  undoable: null,
  say: ({ move: moved, args }) => plain(args === null ? `${moved}, hidden` : [moved, ...args].join(" ")),
  hint: () => "Name a move, and its arguments.",

  make(act) {
    const state = element("pre", { class: "state", tabIndex: 0, "aria-label": "State" });
    const moved = element("input", { id: "move-name", autocomplete: "off", size: 12 });
    const typed = element("input", { id: "move-arguments", autocomplete: "off", size: 12 });
    const go = element("button", { type: "submit", class: "first" }, "Move");
    const end = button("End the turn", () => act(endTurn()));
    const form = element("form", { class: "choices" }, element("label", { for: "move-name" }, "Move"), moved,
      element("label", { for: "move-arguments" }, "Arguments, with commas between"), typed, go, end);
    form.addEventListener("submit", (event) => { event.preventDefault(); act(move(moved.value.trim(), ...argumentsOf(typed.value))); });
    return {
      element: element("div", {}, state, form),
      show({ g, ctx, may, seat }) {
        setText(state, JSON.stringify(g, null, 1).split("\n").map(plain).join("\n"));
        form.hidden = seat === null || Boolean(ctx.gameover);
        offer(go, may);
        offer(end, may);
      },
    };
  },
});

// Blind Bid: one sealed bid each, and boasts beside it.
import { move } from "../lines.js";
import { button, element, field, offer } from "../elements.js";
import { sealedRows } from "./sealed.js";

const WHOLE = /^\d{1,9}$/;
const MOST = 100;

export default {
  title: "Blind Bid", glyph: "?", least: 2, most: 8,
  rules: "Seal one bid, 1 to 100. Boast as you like until then. Once all have bid, the greatest bid wins.",
  ahead: 16, undoable: ["boast"],
  say: ({ move: name, args }) => name === "boast" ? `boasted ${args[0]}` : args ? `sealed a bid of ${args[0]}` : "sealed a bid",
  against: () => `Bids go from 1 to ${MOST}.`,
  scores: (g) => g.common.revealed,
  hint: () => "Boast, or seal your bid: it is final.",

  make(act) {
    const rows = element("ul", { class: "scores" });
    const bid = field("bid", `Your bid, 1 to ${MOST}`, { inputMode: "numeric", size: 5 });
    const seal = element("button", { type: "submit", class: "first" }, "Seal the bid");
    const form = element("form", { class: "choices" }, bid.element, seal);
    const boasts = [...Array(10).keys()].map((n) => button(String(n), () => act(move("boast", n)), { "aria-label": `Boast ${n}` }));
    const boasting = element("div", { class: "boasts", role: "group", "aria-label": "Boast" }, element("span", {}, "Boast"), ...boasts);
    form.addEventListener("submit", (event) => {
      event.preventDefault();
      const typed = bid.input.value.trim(), number = Number(typed);
      if (!WHOLE.test(typed)) return bid.fail("Please write a whole number.");
      if (number < 1 || number > MOST) return bid.fail(`Bids go from 1 to ${MOST}.`);
      act(move("bid", number));
    });
    const boastWords = (n) => n ? `boasts ${n}` : "boasts nothing";
    return {
      element: element("div", {}, rows, boasting),
      actions: form,
      show(table) {
        rows.replaceChildren(...sealedRows(table, {
          own: (g) => g.players[table.seat]?.bid ?? null,
          told: (g, at) => g.common.revealed?.[at] ?? null,
          beside: (g, at) => boastWords(g.common.boasts[at]),
        }));
        form.hidden = boasting.hidden = !table.turns;
        offer(seal, table.may);
        boasts.forEach((one) => offer(one, table.may));
      },
    };
  },
};

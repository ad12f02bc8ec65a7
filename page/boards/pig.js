// Pig: a die, a pot and the totals.
import { move } from "../lines.js";
import { button, dot, element, offer, setText } from "../elements.js";
import { die as drawn } from "../table/pieces.js";

const GOAL = 20;

/** What the last action rolled, if it was a roll and the state before it was seen: no line tells it by itself. */
function rolled({ log, g, before }) {
  if (!before || log.at(-1)?.act.move !== "roll") return null;
  return g.pot > before.g.pot ? g.pot - before.g.pot : 1;
}

export default {
  title: "Pig", glyph: "⚄", least: 2, most: 4,
  rules: "Roll as often as you dare, then hold. A 1 loses the pot and the turn. The first with 20 points wins.",
  undoable: [],
  say: ({ move: name }) => name === "roll" ? "rolled the die" : "held",
  against: () => "The pot is empty: roll first.",
  tell({ act }, before, after) {
    const face = rolled({ ...after, before });
    return act.move === "hold" ? `held ${before.g.pot}` : face === 1 ? "rolled a 1 and lost the pot" : face ? `rolled a ${face}` : null;
  },
  scores: (g) => g.totals,
  hint: ({ g }) => g.pot ? `Roll once more, or hold the ${g.pot}.` : "Roll the die.",

  make(act) {
    const die = element("div", { class: "die", role: "img" });
    const fell = element("p", { class: "quiet" });
    const pot = element("p", { class: "big" });
    const totals = element("ul", { class: "scores" });
    const roll = button("Roll", () => act(move("roll")), { class: "first" });
    const hold = button("Hold", () => act(move("hold")));
    return {
      element: element("div", {}, element("div", { class: "rolls" }, die, element("div", {}, pot, fell)), totals),
      actions: element("div", { class: "choices" }, roll, hold),
      show(table) {
        const { g, may, name } = table;
        const face = rolled(table);
        die.classList.toggle("blank", face === null);
        die.setAttribute("aria-label", face ? `The die shows ${face}` : "The die");
        die.replaceChildren(drawn(face ?? 0));
        setText(fell, face === null ? "" : face === 1 ? "A 1: the pot is lost." : `A ${face}.`);
        setText(pot, `Pot ${g.pot}`);
        offer(roll, may);
        offer(hold, may && g.pot > 0);
        totals.replaceChildren(...g.totals.map((total, at) => element("li", {}, dot(at), element("bdi", {}, name(at)),
          element("meter", { max: GOAL, value: total, "aria-hidden": "true" }), element("strong", {}, String(total)))));
      },
    };
  },
};

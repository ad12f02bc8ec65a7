// Countdown: a heap, from which one to three are taken.
import { endTurn, move } from "../lines.js";
import { button, element, offer, setText } from "../elements.js";

const FULL = 21;

export default {
  title: "Countdown", glyph: "21", least: 2, most: 4,
  rules: "Take 1 to 3 from a heap of 21, once or twice a turn. Whoever takes the last one wins.",
  undoable: ["take", "wild"],
  say: ({ move: name, args }) => name === "take" ? `took ${args[0]}` : "took as many as a die said",
  hint: ({ ctx }) => ctx.numMoves ? "Move once more, or end the turn." : "Take 1, 2 or 3, or let a die choose.",
  against: (act, { g }) => g.heap < 3 ? `Only ${g.heap} ${g.heap === 1 ? "is" : "are"} left.` : null,
  tell: ({ act }, before, after) => act.move === "wild" ? `took ${before.g.heap - after.g.heap}, as a die said` : null,

  make(act) {
    const count = element("p", { class: "big" });
    const stones = Array.from({ length: FULL }, () => element("span", { class: "stone" }));
    const last = element("p", { class: "quiet" });
    const takes = [1, 2, 3].map((n) => button(`Take ${n}`, () => act(move("take", n))));
    const wild = button("Take by a die, 1 to 3", () => act(move("wild")));
    const next = element("select", { id: "next-seat" });
    const end = button("End the turn", () => act(endTurn(next.value === "" ? null : Number(next.value))));
    const ends = element("div", { class: "choices" }, end, element("label", { for: "next-seat" }, "then plays"), next);
    return {
      element: element("div", {}, count, element("div", { class: "stones", "aria-hidden": "true" }, ...stones), last),
      actions: element("div", {}, element("div", { class: "choices" }, ...takes, wild), ends),
      show({ g, ctx, may, turns, name, seats }) {
        setText(count, g.heap === 1 ? "1 is left" : `${g.heap} are left`);
        stones.forEach((stone, at) => stone.classList.toggle("taken", at >= g.heap));
        setText(last, g.last === null ? "Nobody has taken any." : `${name(g.last)} took last.`);
        takes.forEach((take, at) => offer(take, may && at < g.heap));
        offer(wild, may);
        offer(end, may);
        ends.hidden = !turns || ctx.numMoves === 0;
        if (next.options.length !== seats + 1) next.replaceChildren(...[null, ...Array(seats).keys()].map((to) => new Option("", to ?? "")));
        [...next.options].forEach((option, at) => setText(option, at ? name(at - 1) : "the next in order"));
      },
    };
  },
};

// The list of the seats of a game in which each seals something that is shown to all at the end.
import { dot, element } from "../elements.js";
import { activeSeats } from "../sarpuntxe.js";

/**
 * A row for each seat. `own(g)` is what one's own seat has sealed, or null; `told(g, seat)` what was revealed, or null before the end;
 * `beside(g, seat)` are words that stand beside it, or null.
 */
export function sealedRows({ g, ctx, seat, seats, name }, { own, told, beside }) {
  const active = activeSeats(ctx).map((one) => one.seat);
  return [...Array(seats).keys()].map((at) => {
    const mine = at === seat ? own(g) : null;
    const shown = told(g, at) ?? mine;
    const words = shown ?? (active.includes(at) ? "has yet to choose" : "sealed");
    const wins = ctx.gameover?.winner === at;
    return element("li", { class: wins ? "wins" : "" }, dot(at), element("bdi", {}, name(at)),
      element("bdi", { class: shown === null ? "quiet" : "sealed" }, String(words)),
      element("span", { class: "quiet" }, beside?.(g, at) ?? ""));
  });
}

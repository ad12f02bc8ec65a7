// Captions: one sealed text each.
import { bytes, move } from "../lines.js";
import { element, field, offer, setText } from "../elements.js";
import { plain } from "../words.js";
import { sealedRows } from "./sealed.js";

const MOST = 64;

export default {
  title: "Captions", glyph: "“”", least: 2, most: 16,
  rules: "Seal one caption of up to 64 characters. Once all have written, the longest wins.",
  undoable: [],
  say: ({ args }) => args ? `sealed a caption: ${plain(args[0])}` : "sealed a caption",
  hint: () => "Write your caption: it is final.",
  scores: (g) => g.common.revealed?.map(bytes) ?? null,

  make(act) {
    const rows = element("ul", { class: "scores captions" });
    const text = field("caption", "Your caption");
    const count = element("p", { class: "quiet" });
    const seal = element("button", { type: "submit", class: "first" }, "Seal the caption");
    const form = element("form", { class: "choices" }, text.element, seal, count);
    const measure = () => {
      const { value } = text.input, length = bytes(value);
      setText(count, `${length} of ${MOST}${length === [...value].length ? " characters" : ", since some count more than once, as ä and emoji"}`);
      count.classList.toggle("over", length > MOST);
    };
    text.input.addEventListener("input", measure);
    form.addEventListener("submit", (event) => {
      event.preventDefault();
      const length = bytes(text.input.value);
      if (length === 0) return text.fail("Please write a caption.");
      if (length > MOST) return text.fail(`Captions have up to ${MOST} characters: take out ${length - MOST}.`);
      act(move("write", text.input.value));
    });
    measure();
    const length = (one) => one ? `length ${bytes(one)}` : null;
    return {
      element: element("div", {}, rows),
      actions: form,
      show(table) {
        const own = (g) => g.players[table.seat]?.text ?? null;
        rows.replaceChildren(...sealedRows(table, {
          own: (g) => own(g) === null ? null : plain(own(g)),
          told: (g, at) => g.common.revealed ? plain(g.common.revealed[at]) : null,
          beside: (g, at) => length(g.common.revealed?.[at]),
        }));
        form.hidden = !table.turns;
        offer(seal, table.may);
      },
    };
  },
};

// The controls beside the turn: what is asked before an action is whole, and the moves that no click on the table makes.
import { isOpen } from "./asking.js";
import { spoken } from "./hints.js";
import { make } from "./make.js";
import { look } from "./pieces.js";

// So many values are buttons; of more a number is typed, or stepped.
const FEW = 13;

/** Draws the controls of a table, whose `asking` says what is asked for. */
export function drawControls(table) {
  const { asking } = table, { either, move } = asking, made = [];
  if (either) made.push(make("div", { class: "choices" }, either.map((one) => press(table.label(one.move), () => table.begin(one), "first"))));
  const form = move && !either ? drawForm(table, move) : null;
  const asked = move && asking.from && !either ? table.question(move) : null;
  if (asked) made.push(make("p", { class: "asked", role: "status" }, asked));
  if (form) made.push(form);
  const buttons = [];
  for (const part of table.toggles()) {
    const args = table.described.moves[part.toggle].args.map((_, at) => table.kept.has(at) ? 1 : 0);
    const fits = asking.fits(part.toggle, { ...args }).length > 0;
    buttons.push(press(table.label(part.toggle), () => table.send(part.toggle, args), "first", !fits || !table.may));
  }
  for (const one of table.loose().filter((name) => name !== move)) {
    const kind = buttons.length || table.started().size ? "" : "first";
    buttons.push(press(table.label(one), () => { asking.drop(); table.begin({ move: one, args: {} }); }, kind, !table.may));
  }
  if (table.mayEnd()) buttons.push(press("End the turn", () => table.end(), table.asking.offered().length ? "" : "first", !table.may));
  if (move && asking.from) buttons.push(press("Cancel", () => table.cancel()));
  if (buttons.length) made.push(make("div", { class: "choices" }, buttons));
  return made;
}

function press(words, onclick, kind = "", off = false) {
  const properties = { "type": "button", "class": kind, "data-key": `act:${words}`, "aria-disabled": String(off), "onclick": () => off || onclick() };
  return make("button", properties, words);
}

/** What is still to be asked: one argument of few values as buttons, else a form. */
function drawForm(table, move) {
  const { asking } = table;
  const missing = asking.missing().filter((arg) => !table.isAimed(move, arg.name));
  if (!missing.length) return null;
  const [only] = missing;
  if (missing.length === 1 && !isOpen(only)) {
    const values = asking.values(only.at), how = table.how(move, only);
    const label = how.label ?? spoken(only.name);
    if (values.length <= FEW) return drawValues(values, { table, move, arg: only, label, chosen: null, choose: (value) => table.give(only.at, value) });
  }
  const fields = missing.map((arg) => drawField(arg, { table, move }));
  const submit = make("button", { "type": "submit", "data-key": "submit", "aria-disabled": String(!table.may) }, table.label(move));
  const onsubmit = (event) => { event.preventDefault(); submitted(event.target, { table, move, missing }); };
  return make("form", { class: "choices asking", onsubmit }, fields, submit);
}

function drawValues(values, { table, move, arg, label, chosen, choose }) {
  const how = table.how(move, arg);
  const lookAt = (value) => arg.kind === "seat" ? { node: table.name(value), words: table.name(value), kind: "text" } : look(how, value, arg.least);
  const seen = values.map((value) => ({ value, seen: lookAt(value) }));
  const pictured = seen.some(({ seen: one }) => one.kind !== "text" && one.kind !== "number");
  return make("div", { "class": ["choices values", pictured && "pictured"], "role": "group", "aria-label": label }, make("span", { class: "quiet" }, label),
    seen.map(({ value, seen: one }) => make("button", {
      "type": "button", "class": [`k-${one.kind}`, chosen === value && "picked"], "aria-label": `${label}: ${one.words}`,
      "data-key": `value:${arg.name}:${value}`, "aria-pressed": chosen === null ? null : String(chosen === value), "aria-disabled": String(!table.may),
      "onclick": () => { if (table.may) choose(value); },
    }, one.node ?? one.words)));
}

function drawField(arg, { table, move }) {
  const { asking } = table, how = table.how(move, arg), id = `asked-${arg.name}`, label = how.label ?? spoken(arg.name), values = asking.nearest();
  const set = (value) => {
    asking.draft = { ...asking.nearest(), [arg.at]: value };
    asking.latest = isOpen(arg) ? null : arg.at;
    table.draw();
  };
  if (arg.kind === "text") {
    return make("label", { class: "wide" }, make("span", { class: "quiet" }, label), make("input", {
      id, "type": "text", "maxLength": how.most ?? 64, "autocomplete": "off", "value": asking.draft[arg.at] ?? "", "placeholder": how.ask ?? "", "data-key": id,
      "oninput": ({ target }) => { asking.draft = { ...asking.draft, [arg.at]: target.value }; },
    }));
  }
  if (isOpen(arg)) {
    const value = values[arg.at] ?? arg.offer[Math.floor(arg.offer.length / 2)] ?? arg.least;
    return drawStepper({ label, id, value, least: arg.least, greatest: arg.greatest, set });
  }
  const all = asking.values(arg.at);
  if (all.length <= FEW) return drawValues(all, { table, move, arg, label, chosen: values[arg.at], choose: set });
  return drawStepper({ label, id, value: values[arg.at], least: all[0], greatest: all.at(-1), set, values: all });
}

/** A number with a button to each side. */
function drawStepper({ label, id, value, least, greatest, set, values = null }) {
  const near = (number) => values ? values.reduce((best, one) => Math.abs(one - number) < Math.abs(best - number) ? one : best) : number;
  const to = (number) => set(near(Math.min(greatest, Math.max(least, Math.round(number)))));
  const next = (step) => to(values ? values[values.indexOf(value) + step] ?? value : value + step);
  return make("div", { class: "stepper" }, make("label", { htmlFor: id, class: "quiet" }, label), make("span", { class: "steps" },
    make("button", { "type": "button", "aria-label": `${label}: less`, "data-key": `${id}:less`, "onclick": () => next(-1) }, "−"),
    make("input", {
      id, "inputMode": "numeric", "autocomplete": "off", "value": String(value), "data-key": id, "onchange": ({ target }) => to(Number(target.value) || least),
    }),
    make("button", { "type": "button", "aria-label": `${label}: more`, "data-key": `${id}:more`, "onclick": () => next(1) }, "+")));
}

function submitted(form, { table, move, missing }) {
  const { asking } = table, args = asking.nearest();
  const bare = missing.find((arg) => arg.kind === "text" && !(args[arg.at] ?? "").trim());
  if (bare) return form.querySelector(`#asked-${bare.name}`)?.focus();
  for (const arg of missing) if (isOpen(arg) && arg.kind !== "text") args[arg.at] ??= arg.offer[Math.floor(arg.offer.length / 2)] ?? arg.least;
  const row = asking.row(args);
  if (row && table.may) table.send(move, row);
}

// Small helpers for elements. Texts become text nodes, so whatever a player typed is never read as HTML.
import { keepName, lastName } from "./keys.js";
import { nameFault } from "./words.js";

/** An element with properties, attributes (those with a dash, and `role`), and children. */
export function element(tag, properties = {}, ...children) {
  const made = document.createElement(tag);
  for (const [name, value] of Object.entries(properties)) {
    if (name.includes("-") || name === "role") made.setAttribute(name, value);
    else if (name === "for") made.htmlFor = value;
    else if (name === "class") made.className = value;
    else made[name] = value;
  }
  made.append(...children);
  return made;
}

/** A button that does something. */
export const button = (words, onclick, properties = {}) => element("button", { type: "button", onclick, ...properties }, words);

/** Whether a button is a legal choice. One that is not stays in reach: pressing it asks the server, which says why not. */
export const offer = (node, can) => node.setAttribute("aria-disabled", String(!can));

/** Words that a screen reader hears and nobody sees. */
export const unseen = (words) => element("span", { class: "unseen" }, words);

/** A part of the page with a heading, which also names it. */
export function section(id, heading, properties, ...children) {
  return element("section", { "aria-labelledby": `${id}-title`, ...properties }, element("h2", { id: `${id}-title` }, heading), ...children);
}

/** A field with its label. What is wrong with it is said right below it, and the focus goes there. */
export function field(id, label, properties = {}) {
  const wrong = element("p", { class: "wrong", role: "alert", id: `${id}-wrong` });
  const input = element("input", { id, autocomplete: "off", ...properties });
  const said = (words) => {
    setText(wrong, words);
    if (words) input.setAttribute("aria-describedby", wrong.id); else input.removeAttribute("aria-describedby");
    input.setAttribute("aria-invalid", String(Boolean(words)));
  };
  input.addEventListener("input", () => said(""));
  return {
    input, clear: () => said(""),
    element: element("div", { class: "field" }, element("label", { for: id }, label), input, wrong),
    fail(words) { said(words); input.focus(); },
  };
}

/** The field for a player's name, filled with the one that was last used. `read()` answers the name, or null and says what is wrong. */
export function nameField(id, label = "Your name") {
  const made = field(id, label, { autocomplete: "nickname", value: lastName(), maxLength: 64 });
  return {
    ...made,
    read() {
      const name = made.input.value.trim(), fault = nameFault(name);
      if (fault) { made.fail(fault); return null; }
      made.clear();
      keepName(name);
      return name;
    },
  };
}

/** Parts of which one is shown, chosen by tabs: each is `{ id, label, part }`. Arrow keys go from tab to tab. */
export function tabs(label, all) {
  const choose = (at) => buttons.forEach((one, place) => {
    one.setAttribute("aria-selected", String(place === at));
    one.tabIndex = place === at ? 0 : -1;
    all[place].part.hidden = place !== at;
  });
  const buttons = all.map(({ id, label: words, part }, at) => {
    part.id = `${id}-part`;
    part.setAttribute("role", "tabpanel");
    part.setAttribute("aria-labelledby", `${id}-tab`);
    return button(words, () => choose(at), { id: `${id}-tab`, role: "tab", "aria-controls": part.id });
  });
  const list = element("div", { class: "tabs", role: "tablist", "aria-label": label }, ...buttons);
  list.addEventListener("keydown", (event) => {
    const shown = buttons.filter((one) => !one.hidden), at = shown.indexOf(document.activeElement);
    const to = { ArrowLeft: at - 1, ArrowRight: at + 1, Home: 0, End: shown.length - 1 }[event.key];
    if (at < 0 || to === undefined) return;
    event.preventDefault();
    const next = shown.at(to % shown.length);
    choose(buttons.indexOf(next));
    next.focus();
  });
  choose(0);
  return {
    element: element("div", { class: "tabbed" }, list, ...all.map(({ part }) => part)),
    /** Shows or hides a tab. If it was chosen, the first one is. */
    offer(id, there) {
      const at = all.findIndex((one) => one.id === id);
      buttons[at].hidden = !there;
      if (!there && buttons[at].getAttribute("aria-selected") === "true") choose(0);
    },
  };
}

/** Runs what may take away the element that has the focus, and then gives the focus to another one, so that it doesn't fall to the page's top. */
export function keepingFocus(within, run, next) {
  const had = document.activeElement;
  const here = had !== null && had !== document.body && within.contains(had);
  run();
  const lost = here && (!had.isConnected || !had.getClientRects().length);
  if (lost && [had, document.body, null].includes(document.activeElement)) next()?.focus({ preventScroll: true });
}

/** A picture of squares, dark ones on a light ground, with the quiet edge that a code needs. */
export function squares(rows, label) {
  const picture = document.createElementNS("http://www.w3.org/2000/svg", "svg");
  const path = document.createElementNS("http://www.w3.org/2000/svg", "path");
  const edge = 4, size = rows.length + 2 * edge;
  path.setAttribute("d", rows.flatMap((row, y) => row.map((dark, x) => dark ? `M${x + edge} ${y + edge}h1v1h-1z` : "")).join(""));
  const said = { "viewBox": `0 0 ${size} ${size}`, "class": "qr", "role": "img", "aria-label": label, "shape-rendering": "crispEdges" };
  for (const [name, value] of Object.entries(said)) picture.setAttribute(name, value);
  picture.append(path);
  return picture;
}

/** Sets a text only if it is another one, so that nothing is read aloud twice. */
export function setText(node, words) {
  if (node.textContent !== words) node.textContent = words;
}

/**
 * Arrow keys, Home and End move the focus between the buttons of a board with so many columns. One of them is reached by Tab.
 * Call what it answers after the buttons were made anew.
 */
export function arrows(board, columns) {
  const buttons = () => [...board.querySelectorAll("button")];
  const enter = (at) => buttons().forEach((one, i) => { one.tabIndex = i === at ? 0 : -1; });
  board.addEventListener("focusin", (event) => enter(buttons().indexOf(event.target)));
  board.addEventListener("keydown", (event) => {
    const all = buttons(), at = all.indexOf(document.activeElement), wide = columns();
    const to = { ArrowLeft: at - 1, ArrowRight: at + 1, ArrowUp: at - wide, ArrowDown: at + wide, Home: 0, End: all.length - 1 }[event.key];
    if (at < 0 || to === undefined) return;
    event.preventDefault();
    all[to]?.focus();
  });
  enter(0);
  return () => enter(Math.max(0, buttons().indexOf(document.activeElement)));
}

/** A seat's number on its colour. Seats are counted from 1 for people. */
export const dot = (seat) => element("span", { class: `dot seat${seat % 8}`, "aria-hidden": "true" }, String(seat + 1));

// Makes what the table is drawn of, and brings what is shown to what was made anew, so that the focus and what is typed stay.

/** An element with properties, attributes (those with a dash, and `role`), `vars` (custom properties of the style), and children; null ones are left out. */
export function make(tag, properties = {}, ...children) {
  const made = document.createElement(tag);
  for (const [name, value] of Object.entries(properties)) {
    if (value === null || value === undefined || value === false) continue;
    if (name === "vars") for (const [key, one] of Object.entries(value)) made.style.setProperty(`--${key}`, one);
    else if (name.includes("-") || name === "role") made.setAttribute(name, value);
    else if (name === "class") made.className = [value].flat(3).filter(Boolean).join(" ");
    else made[name] = value;
  }
  made.append(...children.flat(4).filter((one) => one !== null && one !== undefined && one !== false));
  return made;
}

/** An element of a drawing. */
export function svg(tag, attributes = {}, ...children) {
  const made = document.createElementNS("http://www.w3.org/2000/svg", tag);
  for (const [name, value] of Object.entries(attributes)) if (value !== null) made.setAttribute(name, value);
  made.append(...children.flat().filter(Boolean));
  return made;
}

const DOES = ["onclick", "oninput", "onchange", "onsubmit"];
const alike = (one, other) => one.nodeName === other.nodeName && (one.dataset?.key ?? "") === (other.dataset?.key ?? "");

/** Brings an element to what another one is, and keeps those elements within it that both have. */
export function follow(shown, made) {
  if (shown.nodeType === Node.TEXT_NODE) {
    if (shown.data !== made.data) shown.data = made.data;
    return;
  }
  for (const { name } of [...shown.attributes]) if (!made.hasAttribute(name)) shown.removeAttribute(name);
  for (const { name, value } of made.attributes) {
    // The policy lets styles through that are set so, and no attribute.
    if (name === "style") shown.style.cssText = value;
    else if (shown.getAttribute(name) !== value) shown.setAttribute(name, value);
  }
  for (const does of DOES) shown[does] = made[does];
  if (shown.nodeName === "INPUT" && shown.value !== made.value && shown !== document.activeElement) shown.value = made.value;
  const wanted = [...made.childNodes];
  wanted.forEach((one, at) => {
    const is = shown.childNodes[at];
    if (!is) shown.append(one);
    else if (alike(is, one)) follow(is, one);
    else is.replaceWith(one);
  });
  while (shown.childNodes.length > wanted.length) shown.lastChild.remove();
}

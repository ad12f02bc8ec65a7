// What people who see little, hear the page, or use no mouse need: names, headings, the focus, contrast. And the list of modules to load ahead.
import { readdirSync, readFileSync } from "node:fs";
import { done, makeMatch, same, sits } from "./people.mjs";

const here = (path) => new URL(path, import.meta.url);

/** Everything to press or fill in has a name, and one that contains what is shown; and no two of a page have the same. */
const NAMES = `(() => {
  const shown = [...document.querySelectorAll("button, a, input, select, textarea, summary, section, [role=img], [role=group]")]
    .filter((one) => one.getClientRects().length);
  const plain = (words) => words.replace(/\\s+/g, " ").trim();
  const named = shown.map((one) => {
    const by = one.getAttribute("aria-labelledby");
    const label = one.labels?.[0]?.textContent;
    const own = /^(SECTION|DIV)$/.test(one.tagName) ? "" : one.textContent;
    const words = by ? document.getElementById(by)?.textContent : one.getAttribute("aria-label") ?? label ?? own;
    return { tag: one.tagName, name: plain(words ?? ""), seen: /^(BUTTON|A|SUMMARY)$/.test(one.tagName) ? plain(one.innerText) : "" };
  });
  const twice = named.filter(({ tag, name }, at) => named.some((other, place) => place > at && other.tag === tag && other.name === name));
  return {
    nameless: named.filter(({ name }) => !name).map(({ tag }) => tag),
    other: named.filter(({ name, seen }) => seen.length > 2 && !name.includes(seen)).map(({ name, seen }) => name + " / " + seen),
    twice: twice.map(({ tag, name }) => tag + " " + name),
  };
})()`;
const NONE = { nameless: [], other: [], twice: [] };

/** The contrast of two colours that the style names, in the scheme that the page is in. */
const CONTRAST = `(([front, ground]) => {
  const box = document.createElement("span");
  document.body.append(box);
  const light = (name) => {
    box.className = "";
    box.style.color = name.startsWith("#") ? name : "var(--" + name + ")";
    const parts = getComputedStyle(box).color.match(/[\\d.]+/g).slice(0, 3).map((part) => part / 255)
      .map((part) => part <= .04045 ? part / 12.92 : ((part + .055) / 1.055) ** 2.4);
    return .2126 * parts[0] + .7152 * parts[1] + .0722 * parts[2];
  };
  const [a, b] = [light(front), light(ground)].sort((one, other) => other - one);
  box.remove();
  return (a + .05) / (b + .05);
})`;
const seats = [...Array(8).keys()].map((at) => `seat${at}`);
const TEXTS = [["ink", "ground"], ["ink", "sheet"], ["ink", "glow"], ["quiet", "ground"], ["quiet", "sheet"], ["quiet", "glow"], ["main", "ground"],
  ["main", "sheet"], ["on-main", "main"], ["wrong", "ground"], ["wrong", "sheet"], ["wrong", "wrong-sheet"], ["gold", "sheet"], ["on-felt", "felt"],
  ["card-red", "card"], ["card-black", "card"],
  ...seats.map((seat) => ["on-seat", seat])];
const MARKS = [["control", "ground"], ["control", "sheet"], ["main", "sheet"], ["main", "glow"], ["gold", "sheet"], ["on-felt", "felt"],
  ["#ffd27a", "felt"], ["wrong", "sheet"],
  ["seat0", "ground"], ["seat1", "ground"], ["seat0", "glow"], ["seat1", "glow"], ["card-black", "card"]];

export async function access(scene) {
  // Every module but main.js, which the script line itself loads, is named ahead.
  const page = readFileSync(here("../index.html"), "utf8");
  const modules = readdirSync(here("../"), { recursive: true }).filter((name) => name.endsWith(".js") && name !== "main.js").sort();
  same([...page.matchAll(/<link rel="modulepreload" href="([^"]+)">/g)].map(([, name]) => name).sort(), modules, "the modules that are loaded ahead");

  const { browser, address, session } = scene;
  for (const dark of [false, true]) {
    const eve = await browser.page("eve", { width: 1100, height: 800, dark });
    await eve.goto(address);
    for (const [least, pairs] of [[4.5, TEXTS], [3, MARKS]]) for (const pair of pairs) {
      const is = await eve.value(`${CONTRAST}(${JSON.stringify(pair)})`);
      same(is >= least, true, `${pair.join(" on ")} in ${dark ? "the dark" : "the light"}: ${is.toFixed(2)}, wanted ${least}`);
    }
    await done(eve);
  }

  const ann = await browser.page("ann");
  await ann.goto(address);
  await ann.until(`document.querySelectorAll(".game").length`, 6);
  const { match } = await session.ask({ game: "pig", seats: 2, type: "create" });
  await ann.until(`document.querySelector("#matches-pig [data-match='${match}'] .open")?.getAttribute("aria-label")`, `Join: Pig, match ${match}`);
  same(await ann.value(NAMES), NONE, "the names in the lobby");
  const headings = `[...document.querySelectorAll("section")].map((one) => document.getElementById(one.getAttribute("aria-labelledby"))?.tagName)`;
  same(await ann.value(headings), Array(6).fill("H2"), "each part has a heading");

  // The first Tab reaches the way past the head.
  await ann.value("document.activeElement.blur(), scrollTo(0, 0)");
  await ann.key("Tab");
  same(await ann.value("document.activeElement.textContent"), "Skip to the games", "the first Tab");
  await ann.key("Enter");
  same(await ann.value("document.activeElement.id"), "games", "past the head");

  // By keyboard alone: a name, a match, the board, and the focus is never lost.
  for (const game of ["high-hand", "blind-bid", "tic-tac-toe"]) {
    await makeMatch(ann, address, game, 2, "ann");
    same(await ann.value("document.activeElement.tagName"), "H1", "the focus is at the heading of what was opened");
    same(await ann.value(NAMES), NONE, `the names in ${game}`);
    await ann.value("document.activeElement.blur(), document.getElementById('skip').focus()");
    same(await ann.value("document.activeElement.textContent"), "Skip to the board", "the way past the head");
    await ann.key("Enter");
    same(await ann.value("document.activeElement.id"), "board", "the board has the focus");
  }
  await ann.key("Tab");
  same(await ann.value("document.activeElement.getAttribute('aria-label')"), "top left: free", "the first cell comes next");
  await ann.key("Enter");
  await ann.until(`document.querySelector(".cell").getAttribute("aria-label")`, "top left: cross");
  same(await ann.value("document.activeElement.getAttribute('aria-label')"), "top left: cross", "the focus stays");

  // Tabs by arrow keys, and the seat given up by keyboard.
  await ann.value(`document.getElementById("moves-tab").focus()`);
  await ann.key("ArrowRight");
  same(await ann.value("document.activeElement.id"), "about-tab", "the next tab that is shown");
  same(await ann.texts("#new-name"), [""], "what it shows");
  await ann.value(`document.getElementById("give-up").focus()`);
  await ann.key("Enter");
  same(await ann.value("document.activeElement.textContent"), "No", "the question has the focus");
  await ann.key("Enter");
  same(await ann.value("document.activeElement.id"), "give-up", "and gives it back");
  await sits(ann, 0);
  await done(ann);
}

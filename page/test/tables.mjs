// Tables of described games, by recorded states: page/test/tables.py has made them. No server knows these games yet, so a relay answers in its place.
// Each table is looked at on a wide screen and on a phone: it fits, its main control is on the first screen, its texts can be read, and its places have names.
import { readdirSync, readFileSync } from "node:fs";
import { done, pageAt, same } from "./people.mjs";
import { startRelay } from "./relay.mjs";

const here = (path) => new URL(path, import.meta.url);
const read = (path) => JSON.parse(readFileSync(here(path), "utf8"));
const SIZES = { desktop: { width: 1280, height: 800 }, phone: { width: 390, height: 844, phone: true } };
const NAMES = ["ann", "bob", "chloé", "dan", "eve", "farid", "gwen", "hugo"];
const MATCH = "0-1";

/** The recorded games: the description, the hints that stand beside it, and states. */
export const recorded = readdirSync(here("tables/")).map((file) => file.replace(".json", "")).sort()
  .map((name) => ({ name, ...read(`tables/${name}.json`), beside: read(`../table/hints/${name}.json`) }));

/** A server that plays one recorded state: who asks is told what this seat may see. */
function playing(relay, game) {
  const told = { asked: [], at: 0, seat: 0 };
  const view = ({ number, ctx, g }) => ({ ctx, number, g: { ...g, players: g.players.map((part, at) => at === told.seat ? part : null) } });
  const row = () => ({ game: game.name, match: MATCH, over: false,
    players: game.states[told.at].state.g.players.map((_, seat) => ({ name: NAMES[seat], seat })) });
  relay.onTold = () => null;
  relay.onAsked = (line, { answer }) => {
    const { type, seat, ticket } = JSON.parse(line), { before, state, log } = game.states[told.at];
    if (type === "games") return answer(JSON.stringify({ games: [game.name], type }));
    if (type === "matches") return answer(JSON.stringify({ matches: [row()], type }));
    if (type === "look") return answer(JSON.stringify({ row: row(), type }));
    if (type === "act") {
      told.asked.push(JSON.parse(line).act);
      return answer(JSON.stringify({ number: state.number, reason: "invalid-move", ticket, type: "no" }));
    }
    if (type !== "sync") return;
    const first = before ?? state;
    answer(JSON.stringify({ match: MATCH, seat, type, snapshot: { ...view(first), log: log.slice(0, before ? -1 : undefined) } }));
    if (before) answer(JSON.stringify({ ...view(state), entry: log.at(-1), type: "update" }));
  };
  return told;
}

/** Opens a recorded state as a seat, or as one who watches if it is null, on a page that is there already. */
async function open(page, game, { told, at, seat }) {
  const { state } = game.states[at];
  [told.at, told.seat] = [at, seat];
  const offers = JSON.stringify(seat === null ? [] : state.offers[seat] ?? []);
  await page.value(`(async () => {
    const modules = await Promise.all(["boards/index", "keys", "address"].map((one) => import("./" + one + ".js")));
    const [{ learn }, { keepSeat, forgetSeat }, { linkTo, serverAddress }] = modules;
    learn(${JSON.stringify(game.description)}, ${JSON.stringify(game.beside)}, { offers: () => ${offers} });
    const server = serverAddress();
    ${seat === null ? `forgetSeat(server, "${MATCH}")` : `keepSeat(server, "${MATCH}", ${seat}, "${"a".repeat(32)}")`};
    history.pushState(null, "", linkTo("${MATCH}"));
    dispatchEvent(new PopStateEvent("popstate"));
  })()`);
  const entries = `document.querySelector(".match")?.hidden === false && document.querySelector(".log").children.length`;
  await page.until(entries, Math.min(4, state.number), "the match");
  // Colours are measured once they are what they become.
  await page.value("Promise.all(document.getAnimations().map((one) => one.finished.catch(() => null))).then(() => null)");
}

/** What can be measured of a table: what is too wide, too low, too faint, or has no name. */
const MEASURE = String.raw`(() => {
  const shown = (one) => one.getClientRects().length > 0;
  const box = (one) => one.getBoundingClientRect();
  // The width that the screen has: on a phone innerWidth grows with what is too wide.
  const within = document.querySelector(".drawn"), width = document.documentElement.clientWidth;
  const light = ([r, g, b]) => [r, g, b].map((v) => v / 255).map((v) => v <= .04045 ? v / 12.92 : ((v + .055) / 1.055) ** 2.4)
    .reduce((sum, v, at) => sum + v * [.2126, .7152, .0722][at], 0);
  const colour = (text) => { const [r, g, b, a = 1] = text.match(/[\d.]+/g).map(Number); return [r, g, b, a]; };
  const grounds = (one) => {
    for (; one; one = one.parentElement) {
      const style = getComputedStyle(one), ground = colour(style.backgroundColor);
      if (style.backgroundImage !== "none") return null;
      if (ground[3] === 1) return ground;
    }
    return [255, 255, 255, 1];
  };
  const faint = new Set(), texts = document.createTreeWalker(document.querySelector(".match"), NodeFilter.SHOW_TEXT);
  while (texts.nextNode()) {
    const one = texts.currentNode.parentElement;
    if (!texts.currentNode.data.trim() || one.closest("svg, .unseen, [hidden]") || !shown(one)) continue;
    const ground = grounds(one);
    if (!ground) continue;
    const [a, b] = [light(colour(getComputedStyle(one).color)), light(ground)];
    const ratio = (Math.max(a, b) + .05) / (Math.min(a, b) + .05);
    if (ratio < 4.5) faint.add(one.className + ": " + texts.currentNode.data.slice(0, 20) + " " + ratio.toFixed(2));
  }
  const buttons = [...document.querySelectorAll(".drawn button, .asks button")].filter(shown);
  const main = document.querySelector(".bar-of-turn"), last = box(main);
  const small = [...document.querySelectorAll(".asks button, .asks input, .hand button, .entry.can, .head.can")].filter(shown)
    .filter((one) => box(one).width < 40 || box(one).height < 32).map((one) => one.getAttribute("aria-label") ?? one.textContent);
  return {
    wide: document.documentElement.scrollWidth > width,
    beyond: [...within.querySelectorAll("*")].filter((one) => shown(one) && box(one).right > width + 1).length,
    low: shown(main) && (last.top < 0 || last.bottom > innerHeight + 1),
    hidden: !main.classList.contains("ended") && within.querySelector(".felt") !== null && box(within.querySelector(".felt")).top > innerHeight / 2,
    faint: [...faint], small,
    covered: [...within.querySelectorAll(".grid")].filter(shown).filter((grid) => {
      const cells = [...grid.querySelectorAll(".cell")];
      return new Set(cells.map((one) => box(one).left + " " + box(one).top)).size < cells.length;
    }).length,
    nameless: buttons.filter((one) => !(one.getAttribute("aria-label") ?? one.textContent).trim()).map((one) => one.className),
    twice: buttons.filter((one) => !one.closest(".hand")).map((one) => one.getAttribute("aria-label") ?? one.textContent)
      .filter((one, at, all) => all.indexOf(one) !== at),
  };
})()`;
const FINE = { wide: false, beyond: 0, low: false, hidden: false, faint: [], small: [], covered: 0, nameless: [], twice: [] };
/** What is offered can be seen and pressed, or, to one who isn't to move, nothing is. */
const PRESSED = `document.querySelectorAll(".drawn .can, .drawn [aria-pressed], .asks button:not([aria-disabled=true])").length`;

/** The looks at a state: as one who may act on both screens, and of the first state also in the dark, as another, and as one who watches. */
function looksAt({ state }, at) {
  const acting = Object.keys(state.offers).map(Number), first = acting[0] ?? 0;
  const other = state.g.players.findIndex((_, seat) => !acting.includes(seat));
  const looks = [["desktop", first, false], ["phone", first, false]];
  if (at === 0) looks.push(["phone", first, true], ["desktop", null, true], ...other >= 0 ? [["phone", other, false]] : []);
  return looks.map(([size, seat, dark]) => ({ size, seat, dark, acts: acting.includes(seat) }));
}

const wanted = process.env.TABLES ? process.env.TABLES.split(" ") : null;

export async function tables(scene) {
  const { browser, files, server, pictures } = scene;
  const relay = await startRelay(server), page = await browser.page("ann");
  await page.goto(pageAt(files, relay.address));
  const found = [];
  for (const game of recorded.filter(({ name }) => !wanted || wanted.includes(name))) {
    const told = playing(relay, game);
    for (const [at, one] of game.states.entries()) for (const { size, seat, dark, acts } of looksAt(one, at)) {
      const what = `${game.name}-${one.state.number}-${seat ?? "watch"}-${size}${dark ? "-dark" : ""}`;
      await page.look({ ...SIZES[size], dark });
      await open(page, game, { told, at, seat });
      const is = await page.value(MEASURE), can = await page.value(PRESSED);
      const wrong = Object.entries(is).filter(([name, value]) => JSON.stringify(value) !== JSON.stringify(FINE[name]));
      if (wrong.length) found.push([what, Object.fromEntries(wrong)]);
      if ((can > 0) !== acts) found.push([what, `${can} things to press`]);
      if (pictures) await page.picture(`${pictures}/${what}.png`, { ...SIZES[size], dark });
    }
  }
  same(found, [], "every table");
  await done(page);
  relay.close();
}

/** What the keyboard says of a place, and where the arrows go from there. */
const KEYS = [
  ["four-in-a-row", 0, ".head.can", "column 1", [["ArrowRight", "column 2"], ["ArrowDown", "row 6, column 2, empty"], ["End", "row 1, column 7, empty"]]],
  ["reversi", 0, ".cell", null, [["Home", "row 1, column 1, empty"], ["ArrowDown", "row 2, column 1, empty"], ["ArrowLeft", "row 2, column 1, empty"]]],
];
/** Presses, by selectors or by what is typed, and the action that comes of them. */
const WAYS = [
  ["four-in-a-row", 0, [".head.can"], (offers) => offers[0]],
  ["reversi", 0, [".cell.can"], (offers) => offers[0]],
  ["checkers", 0, [".cell.can", ".cell.aim"], null],
  ["nim", 0, [".row .item.can", ".values button:nth-of-type(2)"], ["take", [0, 2]]],
  ["liars-dice", 0, ["[aria-label='How many: 26']", "[aria-label='of: 3']", ".asks [type=submit]"], ["bid", [26, 3]]],
  ["five-dice", 1, [".hand [aria-pressed]", ".asks .first"], ["roll", [1, 0, 0, 0, 0]]],
  ["agents", 0, ["#asked-word=sea", ".values button:nth-of-type(3)", ".asks [type=submit]"], ["clue", ["sea", 3]]],
  ["crazy-eights", 0, [".hand .item.can"], ["play", [4, 0]]],
  ["rock-paper-scissors", 0, [".values button:nth-of-type(3)"], ["choose", [2]]],
];

export async function tableKeys(scene) {
  const { browser, files, server } = scene;
  const relay = await startRelay(server), page = await browser.page("ann", SIZES.desktop);
  await page.goto(pageAt(files, relay.address));
  const begin = async (name, at) => {
    const game = recorded.find((one) => one.name === name), told = playing(relay, game), { offers } = game.states[at].state;
    const [seat] = Object.keys(offers).map(Number);
    await open(page, game, { told, at, seat });
    return { told, offers: offers[seat] };
  };
  for (const [name, at, first, label, keys] of KEYS) {
    await begin(name, at);
    await page.value(`document.querySelector("${first}").focus()`);
    const heard = () => page.value(`document.activeElement.getAttribute("aria-label")`);
    if (label) same(await heard(), label, `${name}: the first place`);
    for (const [key, wants] of keys) {
      await page.key(key);
      same(await heard(), wants, `${name}: the focus after ${key}`);
    }
    same(await page.value(`document.querySelectorAll(".grid button[tabindex='0']").length`), 1, `${name}: one place is reached by Tab`);
  }
  for (const [name, at, presses, wants] of WAYS) {
    const { told, offers } = await begin(name, at);
    for (const press of presses) {
      const [where, typed] = press.startsWith("#") ? press.split("=") : [press];
      if (typed) await page.type(where, typed);
      else await page.value(`document.querySelector(${JSON.stringify(where)}).click()`);
    }
    await page.until(() => told.asked.length, 1, `${name}: one action is asked for`);
    const [{ move, args }] = told.asked, wanted = typeof wants === "function" ? wants(offers) : wants;
    const isOffered = offers.some(([one, row]) => one === move && row.every((value, place) => typeof value === "string" || value === args[place]));
    same(isOffered, true, `${name}: ${move} ${args} is offered`);
    if (wanted) same([move, args], wanted, `${name}: the action`);
  }
  // Hands of others are backs: what the page was told of them is nothing.
  await begin("hearts", 0);
  await page.until(`document.querySelectorAll(".hand.own .item").length > 0`, true, "one's own hand");
  await done(page);
  relay.close();
}

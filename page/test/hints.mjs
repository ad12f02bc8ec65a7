// Display hints: those of every description are read, with what stands beside them, and each wrong one is refused by its name.
import { execFileSync } from "node:child_process";
import { fileURLToPath } from "node:url";
import { recorded } from "./tables.mjs";
import { done, same } from "./people.mjs";

const GAMES = fileURLToPath(new URL("../../games/", import.meta.url));
const AS_DATA = "import json, pathlib, sys, tomllib\n"
  + "print(json.dumps([tomllib.loads(one.read_text()) for one in sorted(pathlib.Path(sys.argv[1]).glob('*.toml'))]))";

const GAME = {
  game: "mine", seats: [2, 4], const: { most: 9 },
  common: { cells: "[0..1?; 3 by 3]", count: "1..most = 2", heaps: "[0..7; ..most]" }, players: { hand: "[0..51; ..52]" },
  moves: { put: { args: ["row: 0..2", "column: 0..2"] }, lay: { args: ["card: 0..51 in me.hand"] }, say: { args: ['word: text offer ["a", "b"]'] } },
};
const show = (slot, hint) => ({ ...GAME, show: { [slot]: hint } });
/** A description, what stands beside it, and which error at which place it has, or null. */
const CASES = [
  [GAME, {}, null],
  [show("cells", { as: "grid", click: "put(row, column)", flip: true, items: ["x", "o"] }), {}, null],
  [show("me.hand", { as: "hand", items: "cards", click: ["lay(item)"], sort: true }),
    { title: "Mine", moves: { lay: { say: "laid {card}", names: { card: "me.hand" } } } }, null],
  [show("put.row", { label: "Row", items: ["a", "b", "c"] }), {}, null],
  [show("tower", { as: "grid" }), {}, ["no-slot", "mine.show.tower"]],
  [show("me.cells", { as: "grid" }), {}, ["no-slot", "mine.show.me.cells"]],
  [show("put.card", { label: "Card" }), {}, ["no-slot", "mine.show.put.card"]],
  [show("cells", { as: "tower" }), {}, ["bad-hint", "mine.show.cells.as"]],
  [show("cells", { rows: 0 }), {}, ["bad-hint", "mine.show.cells.rows"]],
  [show("cells", { flip: "yes" }), {}, ["bad-hint", "mine.show.cells.flip"]],
  [show("cells", { items: "marks" }), {}, ["bad-hint", "mine.show.cells.items"]],
  [show("cells", { colour: "red" }), {}, ["unknown-hint", "mine.show.cells.colour"]],
  [show("cells", { click: "put row" }), {}, ["bad-hint", "mine.show.cells.click"]],
  [show("cells", { click: "move(place)" }), {}, ["no-move", "mine.show.cells.click"]],
  [show("cells", { click: "put(cell)" }), {}, ["bad-hint", "mine.show.cells.click"]],
  [show("cells", { click: "lay(row, column)" }), {}, ["bad-hint", "mine.show.cells.click"]],
  [show("me.hand", { toggle: "keep" }), {}, ["no-move", "mine.show.me.hand.toggle"]],
  [show("me.hand", { on: "board" }), {}, ["no-slot", "mine.show.me.hand.on"]],
  [show("me.hand", { suits: ["hearts"] }), {}, ["bad-hint", "mine.show.me.hand.suits"]],
  [GAME, { moves: { move: { say: "moved" } } }, ["no-move", "mine.moves.move"]],
  [GAME, { moves: { put: { tell: "put" } } }, ["unknown-hint", "mine.moves.put.tell"]],
  [GAME, { name: "Mine" }, ["unknown-hint", "mine.name"]],
  [{ ...GAME, common: { cells: "[0..1?; 3 times 3]" } }, {}, ["bad-type", "mine.cells"]],
  [{ ...GAME, common: { cells: "0..least" } }, {}, ["bad-type", "mine.cells"]],
];

export async function hints(scene) {
  const page = await scene.browser.page("ann");
  await page.goto(scene.files);
  const read = (cases) => page.value(`import("./table/hints.js").then(({ readTable }) => ${JSON.stringify(cases)}.map(([description, beside]) => {
    try { readTable(description, beside); return null; } catch (why) { return [why.name, why.path ?? why.stack]; }
  }))`);
  same(await read(CASES), CASES.map(([, , wanted]) => wanted), "what is refused, and why");
  const games = JSON.parse(execFileSync("python3", ["-c", AS_DATA, GAMES]));
  same(games.length > 30, true, "there are games");
  const faults = await read(games.map((game) => [game, {}]));
  same(faults.map((fault, at) => [games[at].game, fault]).filter(([, fault]) => fault), [], "the hints of the games");
  const beside = await read(recorded.map((one) => [one.description, one.beside]));
  same(beside.map((fault, at) => [recorded[at].name, fault]).filter(([, fault]) => fault), [], "the hints beside the games");
  await done(page);
}

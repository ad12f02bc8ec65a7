// Connections that break, a server that is out of memory, a page that lags, and a game that the page doesn't know.
import { readFile } from "node:fs/promises";
import { done, log, makeMatch, pageAt, same, says, seats, sits, turn } from "./people.mjs";
import { startRelay } from "./relay.mjs";

const ready = (page) => page.until(`document.querySelectorAll(".board:not(.waits)").length`, 1, "the stream has begun");
const WAITS = "Waiting for a second player. You may begin. Take 1, 2 or 3, or let a die choose.";
const ofType = (type) => (line) => JSON.parse(line).type === type;

export async function cuts(scene) {
  const { browser, files, server } = scene;
  const relay = await startRelay(server);
  const ann = await browser.page("ann");
  const { match } = await scene.session.ask({ game: "countdown", seats: 2, type: "create" });
  await ann.goto(`${pageAt(files, relay.address)}&match=${match}`);
  // A seat is asked for, and the connection breaks before the answer.
  relay.onAsked = (line, { pass }) => ofType("join")(line) ? relay.cut() : pass(line);
  await ann.type("#player-name", "ann");
  await ann.click("#join");
  await says(ann, "The connection broke before that was answered.");
  relay.onAsked = (line, { pass }) => pass(line);
  await ready(ann);
  await ann.click("Join as ann");
  await sits(ann, 0);

  // The connection breaks, and is refused for a while: the turn's strip says so, and nothing can be pressed.
  relay.open = false;
  relay.cut();
  await turn(ann, "Connection lost – reconnecting …");
  const controls = `[...document.querySelectorAll(".bar-of-turn button:not(#retry), .board button, #rename, #give-up, #give-up-really")]
    .filter((one) => one.getClientRects().length || one.closest(".own-seat")).map((one) => one.getAttribute("aria-disabled"))`;
  same([...new Set(await ann.value(controls))], ["true"], "all controls are off");
  same((await ann.value(controls)).length >= 6, true, "there are controls");
  same(await ann.value("document.title"), "Connection lost · Countdown", "the title says so too");
  const asked = relay.asked.length;
  await ann.click("Take 3");
  await ann.click("About");
  await ann.click("Change my name");
  await ann.click("Moves");
  same(relay.asked.length, asked, "nothing is asked");
  await pausesAreShort(ann);
  relay.open = true;
  await ann.click("Try now");
  await turn(ann, WAITS);
  await ready(ann);
  await ann.click("Take 2");
  await ann.sees(".big", "19 are left");

  // An act is lost on its way: it has not counted.
  relay.onAsked = (line, { pass }) => ofType("act")(line) ? relay.cut() : pass(line);
  await ann.click("Undo");
  await says(ann, "The connection broke before what you did had counted. Choose anew.");
  await ready(ann);
  await ann.sees(".big", "19 are left");

  // An act counts, and its verdict is lost.
  relay.onAsked = (line, { pass }) => pass(line);
  relay.onTold = (line) => { if (["update", "ok"].some((type) => ofType(type)(line))) relay.cut(); return line; };
  await ann.click("Undo");
  await says(ann, "The connection broke, but what you did has counted.");
  relay.onTold = (line) => line;
  await ready(ann);
  await ann.sees(".big", "21 are left");
  same(await log(ann), ["ann took back: took 2", "ann took 2"], "the log after two cuts");

  // The server is out of memory three times: the same line is sent once more each time.
  let refused = 0;
  relay.asked.length = 0;
  relay.onAsked = (line, { pass, answer }) =>
    ofType("act")(line) && refused++ < 3 ? answer(`{"ticket":${JSON.parse(line).ticket},"type":"again"}`) : pass(line);
  await ann.click("Take 1");
  await ann.sees(".big", "20 are left");
  const acts = relay.asked.filter(ofType("act"));
  same([acts.length, new Set(acts).size], [4, 1], "one line was sent four times");
  relay.onAsked = (line, { pass }) => pass(line);

  // Lagging is said, and the page connects anew.
  const connections = relay.connections;
  relay.say('{"type":"bye","why":"lagging"}');
  await says(ann, "This page fell too far behind, and the server ended its session.");
  relay.cut();
  await ann.until(async () => relay.connections > connections, true, "a new connection after lagging");
  await ready(ann);
  await ann.sees(".big", "20 are left");

  // An update is missing: the page begins the stream anew.
  const before = relay.connections;
  const skipped = (line) => line.replace(/"number":(\d+),"type":"update"/, (all, number) => all.replace(number, Number(number) + 1));
  relay.onTold = (line) => ofType("update")(line) ? skipped(line) : line;
  await ann.click("Take 1");
  await ann.until(async () => relay.connections > before, true, "a new connection after a gap");
  relay.onTold = (line) => line;
  await ann.sees(".big", "19 are left");
  await ready(ann);

  // A verdict of another server, with a reason that the page doesn't know.
  const strike = `{"number":0,"reason":"on-strike","ticket":1,"type":"no"}`;
  relay.onAsked = (line, { pass, answer }) => ofType("act")(line) ? answer(strike) : pass(line);
  await ann.click("Take 1");
  await says(ann, "The server refused that: on-strike.");
  relay.onAsked = (line, { pass }) => pass(line);

  // The server answers nothing any more: the page notices by itself, and connects anew.
  const answered = relay.connections;
  relay.onAsked = (line, { pass }) => { if (relay.connections > answered) pass(line); };
  await ann.until(async () => relay.connections > answered, true, "a new connection after a long silence");
  relay.onAsked = (line, { pass }) => pass(line);
  await ready(ann);
  same(await ann.texts(".turn.lost"), [], "the strip says nothing of it any more");

  // A server whose places are all taken hears a new connection only later.
  relay.silent = true;
  await ann.goto(pageAt(files, relay.address));
  await ann.sees("#link-words", "The server does not answer yet: all its places may be taken.");
  relay.silent = false;
  await ann.reload();
  await ann.sees("#link-words", "Connected");

  // A lobby that nobody sees gives its place back.
  await ann.until(async () => relay.standing(), 1, "one connection");
  const hide = (hidden) => ann.value(`Object.defineProperty(document, "hidden", { value: ${hidden}, configurable: true }),
    document.dispatchEvent(new Event("visibilitychange"))`);
  await hide(true);
  await ann.until(async () => relay.standing(), 0, "no connection of a hidden lobby");
  await hide(false);
  await ann.until(async () => relay.standing(), 1, "one connection again");

  // So does a page that is left, also if the browser keeps it for going back; then it begins anew, at the same seat.
  await ann.goto(`${pageAt(files, relay.address)}&match=${match}`);
  await ready(ann);
  await ann.goto(`${files}icon.svg`);
  await ann.until(async () => relay.standing(), 0, "no connection of a page that was left");
  await ann.goBack();
  await ready(ann);
  await ann.until(seats, ["1 ann you", "2 free to play"], "the seat after going back");
  await turn(ann, "Waiting for a second player.");
  await ann.until(async () => relay.standing(), 1, "one connection after going back");

  // An address that is none is said.
  await ann.goto(pageAt(files, "ws://:0:0/"));
  await ann.sees("#link-words", "This address cannot be connected to.");
  await done(ann);
  relay.close();
}

/** The pauses between two tries grow, but to five seconds at most while somebody looks. */
async function pausesAreShort(page) {
  const pauses = await page.value(`import("./sarpuntxe.js").then(({ Connection }) => new Promise((done) => {
    const pauses = [];
    const connection = new Connection("ws://127.0.0.1:1/", { opened() {}, heard() {}, told(state, pause) { if (state === "broken") pauses.push(pause); } });
    setTimeout(() => { connection.close(); done(pauses); }, 10_000);
  }))`);
  same(pauses.length >= 4 && pauses.every((pause) => pause <= 5_000) && pauses.at(-1) > pauses[0], true, `pauses of ${pauses} milliseconds`);
}

/** Every reason that docs/PROTOCOL.md names has words of its own. */
export async function reasons(scene) {
  const protocol = await readFile(new URL("../../docs/PROTOCOL.md", import.meta.url), "utf8");
  const quoted = (text, pattern) => [...text.matchAll(pattern)].map((found) => found[1]);
  const no = quoted(protocol.split("\n## Reasons\n")[1].split("\n## ")[0], /^\| `([\w-]+)` \|/gm);
  const refused = quoted(/\nW is one of ([^.]*)\./.exec(protocol)[1], /`([\w-]+)`/g);
  same([no.length, refused.length], [16, 13], "the reasons of the protocol");
  const lines = [...no.map((reason) => ({ type: "no", reason })), ...refused.map((reason) => ({ type: "refused", reason, field: null })),
    ...["left", "lagging"].map((why) => ({ type: "bye", why })), { type: "again", ticket: null }];
  const ann = await scene.browser.page("ann");
  await ann.goto(scene.files);
  const words = await ann.value(`import("./lines.js").then(({ inWords }) => ${JSON.stringify(lines)}.map(inWords))`);
  same(new Set(words).size, lines.length, "no two reasons have the same words");
  same(words.filter((one) => /server refused that|ended the session:|answered/.test(one)), [], "each reason is known");
  await done(ann);
}

/** A game that the page doesn't know is shown plainly, and can be played by the names of its moves. */
export async function unknownGame(scene) {
  const { browser, files, server } = scene;
  const relay = await startRelay(server);
  relay.onTold = (line) => line.replaceAll('"game":"countdown"', '"game":"mystery"');
  const ann = await browser.page("ann");
  await makeMatch(ann, pageAt(files, relay.address), "countdown", 2, "ann");
  await ann.sees("h1", "mystery");
  same((await ann.text(".state")).replace(/\s/g, ""), '{"heap":21,"last":null}', "the state as it is");
  await ann.type("#move-name", "take");
  await ann.type("#move-arguments", "4");
  await ann.click("Move");
  await says(ann, "The rules of the game do not allow that.");
  await ann.type("#move-arguments", "2");
  await ann.click("Move");
  await ann.until((page) => page.text(".state").then((text) => text.replace(/\s/g, "")), '{"heap":19,"last":0}', "the state after a move");
  same(await log(ann), ["ann take 2"], "the log of an unknown game");
  await ann.click("Undo");
  await ann.until((page) => page.text(".state").then((text) => text.replace(/\s/g, "")), '{"heap":21,"last":null}', "the state after an undo");

  // A server that was started anew may have another match of this name: the page lays out that one's board.
  relay.onTold = (line) => line;
  relay.cut();
  await ann.sees("h1", "Countdown");
  await ann.sees(".big", "21 are left");
  same(await ann.texts(".state"), [], "the other board is gone");
  await done(ann);
  relay.close();
}

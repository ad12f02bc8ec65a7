// A person against a bot: two bots wait in a match until somebody comes. One of them is asked for its seat, and the other is played to the end.
import { done, notes, same, turn } from "./people.mjs";
import { Session } from "./server.mjs";

const BOTS = ["--links", "32", "--bots", "tic-tac-toe", "--seats", "2", "--pace", "2"];
const match = "0-1";
const own = `document.querySelector(".turn").classList.contains("own")`;
const free = `[...document.querySelectorAll(".cell")].map((one) => one.getAttribute("aria-label")).filter((label) => label.endsWith(": free"))`;
const marks = `document.querySelectorAll(".cell .ring").length`;

export async function bots(scene) {
  if (!scene.page) return "a server that runs already has no bots";
  const server = await scene.start(...BOTS);
  try {
    await playsABot(scene, server);
  } finally {
    server.stop();
  }
  return null;
}

async function playsABot(scene, server) {
  const ann = await scene.browser.page("ann");
  await ann.goto(server.page);
  await ann.click(`#matches-tic-tac-toe [data-match='${match}'] .open`);
  await ann.until((page) => page.texts(".seats li bdi"), ["bot0", "bot1"], "the bots");
  await ann.type("#player-name", "ann");
  await ann.click("#ask-1");
  await notes(ann, "The bot was asked for its seat. You sit down as soon as it has left.");
  await ann.until((page) => page.texts(".seats li bdi"), ["bot0", "ann"], "the seat of the bot");
  const looker = await Session.open(server.address);
  await looker.follow(match);
  const over = () => looker.snapshot.ctx.gameover !== null;
  let acts = 0;
  while (!over()) {
    await ann.until(async (page) => over() || await page.value(own), true, "the bot's answer");
    if (over()) break;
    if (scene.pictures && acts === 1) await ann.picture(`${scene.pictures}/page-bot.png`, { width: 1000, height: 780 });
    const cells = await ann.value(free);
    await ann.click(cells.find((label) => label.startsWith("middle")) ?? cells[0]);
    await ann.until(async (page) => over() || !(await page.value(own)), true, "the turn goes on");
    acts++;
  }
  const { ctx: { gameover }, log } = looker.snapshot;
  const marked = log.filter(({ seat }) => seat === 1).length;
  same(acts > 0 && marked >= acts, true, "the person's marks stand in the log");
  await ann.until(marks, marked, "the marks of the person's seat");
  await turn(ann, gameover.winner === 1 ? "You have won!" : gameover.winner === 0 ? "bot0 has won." : "It is a draw.");
  const { row } = await looker.ask({ match, type: "look" });
  same([row.over, row.players.map(({ name }) => name)], [true, ["bot0", "ann"]], "the server says that it is over");
  looker.close();
  await done(ann);
}

// A slow network: a guess is shown at once, and settled when the server's lines come; one that is refused is taken back.
import { existsSync } from "node:fs";
import { cells, done, guessingAt, log, makeMatch, same, says, sit } from "./people.mjs";
import { startRelay } from "./relay.mjs";

const SLOW = 1_500;

export async function guesses(scene) {
  const { browser, files, server, pictures } = scene;
  if (!existsSync(new URL("../page_program.wasm", import.meta.url))) return "there is no page/page_program.wasm";
  const relay = await startRelay(server);
  const [ann, bob, eve] = [await browser.page("ann"), await browser.page("bob"), await browser.page("eve")];
  const { match, link } = await makeMatch(ann, guessingAt(files, relay.address), "tic-tac-toe", 2, "ann");
  await bob.goto(link);
  await sit(bob, 1, "bob");
  await eve.goto(link);
  const shows = async (pages, wanted) => { for (const page of pages) await page.until(cells, wanted, "cells"); };
  await shows([ann, bob, eve], ".........");
  relay.delay = SLOW;

  // What is chosen is shown at once, as guessed, to the one who chose it.
  await ann.click("middle: free");
  await shows([ann], "....✕....");
  const guessed = (page) => page.value(`[...document.querySelectorAll(".cell.guess")].map((one) => one.getAttribute("aria-label"))`);
  same(await guessed(ann), ["middle: cross, guessed"], "the guess is shown as one");
  same(await ann.text(".turn"), "Your move is shown already, and on its way to the server.", "the turn while a guess is on its way");
  same(await cells(bob), ".........", "nobody else sees the guess");
  if (pictures) await ann.picture(`${pictures}/page-guess.png`, { width: 1000, height: 640 });
  await shows([bob, eve], "....✕....");
  await ann.until(guessed, [], "the guess is settled");

  // The answer that the relay makes up refuses the next one: it is taken back, and the reason is said.
  relay.onAsked = (line, { pass, answer }) => {
    const { ticket, type } = JSON.parse(line);
    if (type === "act") answer(`{"number":1,"reason":"too-many-words","ticket":${ticket},"type":"no"}`); else pass(line);
  };
  await bob.click("top left: free");
  await shows([bob], "◯...✕....");
  await says(bob, "That would draw more random numbers than one action may.");
  await shows([bob], "....✕....");
  same(await log(bob), ["ann marked middle"], "nothing of it is left in the log");
  relay.onAsked = (line, { pass }) => pass(line);
  await bob.click("top left: free");
  await shows([ann, bob, eve], "◯...✕....");

  // A reload in the middle begins with what is settled.
  await ann.reload();
  await shows([ann], "◯...✕....");
  await ann.click("top: free");
  await shows([ann], "◯✕..✕....");
  await shows([bob, eve], "◯✕..✕....");
  same(new Set(relay.asked.filter((line) => JSON.parse(line).type === "act").map((line) => JSON.parse(line).act.args[0])).size, 3, "three acts were sent");
  await done(ann, bob, eve);
  relay.close();
  return null;
}

// A whole match of Pig. Each roll that the page shows is compared with what the server's states tell.
import { done, log, same, says, seated, turn } from "./people.mjs";
import { Session } from "./server.mjs";

const totals = (page) => page.texts(".scores strong").then((words) => words.map(Number));

const story = (held, face) => held !== null ? `held ${held}` : face === 1 ? "rolled a 1 and lost the pot" : `rolled a ${face}`;

export async function pig(scene) {
  const { ann, bob, eve, all, match } = await seated(scene, "pig");
  const raw = await Session.open(scene.server);
  await raw.follow(match);
  await ann.click("Hold");
  await says(ann, "The pot is empty: roll first.");
  await bob.click("Roll");
  await says(bob, "It is not your turn.");
  let reloaded = false;
  for (let at = 0; !raw.snapshot.ctx.gameover; at++) {
    const { ctx, g: before } = raw.snapshot;
    const player = all[ctx.currentPlayer];
    await player.until(`document.querySelector(".turn").classList.contains("own")`, true);
    const holds = before.pot >= 8;
    await player.click(holds ? "Hold" : "Roll");
    const { g, ctx: after } = await raw.at(at + 1);
    const face = holds ? null : g.pot > before.pot ? g.pot - before.pot : 1;
    for (const page of all) {
      await page.until((one) => one.text(".big"), `Pot ${g.pot}`, "the pot");
      await page.until(totals, g.totals, "the totals");
      await page.until(`document.querySelector(".die").getAttribute("aria-label")`, face ? `The die shows ${face}` : "The die");
      same(await page.value(`document.querySelectorAll(".pip").length`), face ?? 0, "pips");
      await page.until(async (one) => (await log(one))[0], `${["ann", "bob"][ctx.currentPlayer]} ${story(holds ? before.pot : null, face)}`, "the log");
      same(await page.text(".rolls .quiet"), face === null ? "" : face === 1 ? "A 1: the pot is lost." : `A ${face}.`, "what was rolled");
    }
    if (after.gameover) break;
    if (!reloaded && g.totals[0] && !after.gameover) {
      await ann.reload();
      await ann.until(totals, g.totals, "the totals after a reload");
      reloaded = true;
    }
  }
  const { winner } = raw.snapshot.ctx.gameover;
  same(raw.snapshot.g.totals[winner] >= 20, true, "the winner has 20 points");
  const words = `${["ann", "bob"][winner]} has won.`;
  await turn(all[winner], "You have won!");
  await turn(all[1 - winner], words);
  await turn(eve, words);
  const points = raw.snapshot.g.totals.map((total, at) => `${at + 1} ${["ann", "bob"][at]} ${total}`);
  for (const page of all) same(await page.texts(".result .chips li"), points, "the result has the totals");
  raw.close();
  await done(...all);
}

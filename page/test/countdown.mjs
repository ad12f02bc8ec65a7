// A whole match of Countdown, with undo, redo, a turn that is passed on, and a heap that a die takes from.
import { done, log, same, says, seated, turns, undone } from "./people.mjs";
import { Session } from "./server.mjs";

export async function countdown(scene) {
  const { ann, bob, eve, all, match } = await seated(scene, "countdown");
  const raw = await Session.open(scene.server);
  await raw.follow(match);
  const heap = async (left) => {
    for (const page of all) {
      await page.sees(".big", left === 1 ? "1 is left" : `${left} are left`);
      same(await page.value(`document.querySelectorAll(".stone:not(.taken)").length`), left, "stones");
    }
  };
  await heap(21);
  // What can't be done yet isn't there.
  const beside = (page) => page.texts(".actions button, .back button");
  const takes = ["Take 1", "Take 2", "Take 3", "Take by a die, 1 to 3"];
  same([await beside(ann), await beside(bob), await beside(eve)], [takes, takes, []], "the choices");
  await bob.click("Take 1");
  await says(bob, "It is not your turn.");

  await ann.click("Take 3");
  await heap(18);
  await turns(all, ["Your turn. Move once more, or end the turn.", "ann is thinking.", "ann is thinking."]);
  same([await beside(ann), await beside(bob)], [[...takes, "End the turn", "Undo"], takes], "the choices after a move");
  await ann.click("Undo");
  await heap(21);
  await eve.until(undone, ["ann took 3"], "the undone entry is struck");
  same(await log(eve), ["ann took back: took 3", "ann took 3"], "the log of an undo");
  await ann.click("Redo");
  await heap(18);
  same(await log(eve), ["ann did again: took 3", "ann took back: took 3", "ann took 3"], "the log of a redo");
  same(await undone(eve), [], "what was done again is struck no more");
  await ann.choose("#next-seat", "0");
  await ann.click("End the turn");
  await turns(all, ["Your turn. Take 1, 2 or 3, or let a die choose.", "ann is thinking.", "ann is thinking."]);
  same((await log(eve))[0], "ann ended the turn, and ann is next", "a turn that is kept");
  same(await beside(ann), takes, "nothing of the turn before can be taken back");
  await ann.click("Take 1");
  await ann.choose("#next-seat", "");
  await heap(17);
  await ann.click("End the turn");
  await bob.sees(".turn", "Your turn. Take 1, 2 or 3, or let a die choose.");
  await bob.click("Take by a die, 1 to 3");
  const { g, number } = await raw.at(7);
  same([1, 2, 3].includes(17 - g.heap), true, "a die takes 1 to 3");
  await heap(g.heap);
  same((await log(eve))[0], `bob took ${17 - g.heap}, as a die said`, "the log of a die");
  same(await eve.text(".board .quiet"), "bob took last.", "who took last");

  // Bob takes once more, which ends his turn; from then on each takes what is there.
  const { session } = scene;
  same((await session.ask({ match, type: "look" })).row.over, false, "the match goes on");
  let at = number;
  for (let left = g.heap; left > 0;) {
    const { currentPlayer } = (await raw.at(at)).ctx;
    const take = Math.min(3, left);
    await all[currentPlayer].until(`document.querySelector(".turn").classList.contains("own")`, true);
    await all[currentPlayer].click(`Take ${take}`);
    left -= take;
    at++;
    await heap(left);
  }
  const { winner } = (await raw.at(at)).ctx.gameover;
  const words = [0, 1, null].map((seat) => seat === winner ? "You have won!" : `${["ann", "bob"][winner]} has won.`);
  await turns(all, words);
  raw.close();
  await done(...all);
}

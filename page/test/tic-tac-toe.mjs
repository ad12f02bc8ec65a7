// A whole match of tic-tac-toe, with names that look like HTML, acts that are refused, and a reload in the middle.
import { alert, cells, done, log, same, says, seated, turns } from "./people.mjs";

export async function ticTacToe(scene) {
  const { ann, bob, eve, all, match } = await seated(scene, "tic-tac-toe", ["<b>ann</b>", "bob & \"co\""]);
  const shows = async (wanted) => { for (const page of all) await page.until(cells, wanted, "cells"); };
  same(await ann.value(`document.querySelectorAll("main b").length`), 0, "a name is never read as HTML");
  const badges = `[...document.querySelectorAll(".seats li")].map((seat) => [seat.querySelector("bdi").textContent, seat.querySelector(".badge").ariaLabel])`;
  same(await eve.value(badges), [["<b>ann</b>", "cross"], ["bob & \"co\"", "circle"]], "who has which mark");
  await shows(".........");
  await turns(all, ["Your turn. Choose a free cell.", "<b>ann</b> is thinking.", "<b>ann</b> is thinking."]);
  same(await eve.texts(".watching"), ["You are watching."], "the spectator is told so");
  same(await eve.texts("#join, #ask-0, #ask-1"), [], "a full match offers no seat");

  await ann.click("Invite");
  await ann.click("Copy the link");
  await ann.until((page) => page.texts("#copy"), ["Copied"], "the link is copied");
  await ann.click("Moves");
  await bob.click("middle: free");
  await says(bob, "It is not your turn.");
  await ann.click("middle: free");
  await shows("....✕....");
  await turns(all, ["bob & \"co\" is thinking.", "Your turn. Choose a free cell.", "bob & \"co\" is thinking."]);
  same(await bob.text("title"), null, "the title is no text of the page");
  await bob.until("document.title", "Your turn · Tic-tac-toe");

  await bob.click("middle: cross");
  await says(bob, "That cell is taken.");
  same((await log(bob)).length, 1, "a refused act changes nothing");

  // By keyboard: one cell is reached by Tab, the arrows go on from there.
  await bob.value(`document.querySelector(".cell[tabindex='0']").focus()`);
  for (const [key, cell] of [["End", "bottom right: free"], ["ArrowLeft", "bottom: free"], ["ArrowUp", "middle: cross"], ["ArrowRight", "right: free"],
    ["ArrowDown", "bottom right: free"], ["Home", "top left: free"], ["ArrowLeft", "top left: free"]]) {
    await bob.key(key);
    same(await bob.value("document.activeElement.getAttribute('aria-label')"), cell, `the focus after ${key}`);
  }
  same(await bob.value(`document.querySelectorAll(".cell[tabindex='0']").length`), 1, "one cell is reached by Tab");
  await bob.key("Enter");
  await shows("◯...✕....");
  same(await alert(bob), null, "an accepted act clears what was refused");
  same(await bob.value("document.activeElement.getAttribute('aria-label')"), "top left: circle", "the focus stays");

  await ann.reload();
  await ann.until(cells, "◯...✕....", "cells after a reload");
  await ann.sees(".turn", "Your turn. Choose a free cell.");
  same(await log(ann), ["bob & \"co\" marked top left", "<b>ann</b> marked middle"], "the log after a reload");
  await ann.click("top right: free");
  await shows("◯.✕.✕....");
  await eve.reload();
  await eve.until(cells, "◯.✕.✕....", "the spectator's cells after a reload");
  await bob.click("bottom right: free");
  await shows("◯.✕.✕...◯");
  await ann.click("bottom left: free");
  await shows("◯.✕.✕.✕.◯");
  await turns(all, ["You have won!", "<b>ann</b> has won.", "<b>ann</b> has won."]);
  const winning = `[...document.querySelectorAll(".cell")].map((one, at) => one.classList.contains("wins") ? at : "").join("")`;
  for (const page of all) same(await page.value(winning), "246", "the winning cells");
  await bob.click("top: free");
  await says(bob, "The match is over.");
  await eve.click("top: free");
  same(await alert(eve), null, "a spectator's click asks nothing");
  same((await log(eve)).length, 5, "the spectator's log");
  const { row } = await scene.session.ask({ match, type: "look" });
  same(row.over, true, "the server says that it is over");
  await done(...all);
}

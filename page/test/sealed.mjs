// Whole matches of Blind Bid and Captions: what is sealed stays hidden until the end.
import { done, log, makeMatch, same, seated, seats, turn, turns } from "./people.mjs";

const rows = (page) => page.texts(".scores li");
const shows = async (pages, wanted) => { for (const [at, page] of pages.entries()) await page.until(rows, wanted[at], "the rows"); };

export async function blindBid(scene) {
  const { ann, bob, eve, all } = await seated(scene, "blind-bid");
  const open = ["1 ann has yet to choose boasts nothing", "2 bob has yet to choose boasts nothing"];
  await shows(all, [open, open, open]);
  await turns(all, ["Your turn. Boast, or seal your bid: it is final.", "Your turn. Boast, or seal your bid: it is final.", "ann and bob are thinking."]);
  same(await seats(eve), ["1 ann to play", "2 bob to play"], "who may act");
  await ann.type("#bid", "a lot");
  await ann.click("Seal the bid");
  await ann.sees("#bid-wrong", "Please write a whole number.");
  for (const wrong of ["101", "0", "250"]) {
    await ann.type("#bid", wrong);
    await ann.click("Seal the bid");
    await ann.sees("#bid-wrong", "Bids go from 1 to 100.");
  }
  same(await ann.value(`[document.activeElement.id, document.activeElement.getAttribute("aria-invalid")]`), ["bid", "true"], "the focus is at the field");
  await bob.type("#bid", "41");
  await ann.click("Boast 9");
  const boasted = ["1 ann has yet to choose boasts 9", open[1]];
  await shows(all, [boasted, boasted, boasted]);
  same(await bob.value(`document.getElementById("bid").value`), "41", "what is typed stays while others act");
  same(await ann.texts("#undo"), [], "a boast can't be taken back while another may act");
  await ann.type("#bid", "42");
  await ann.key("Enter");
  const hidden = ["1 ann sealed boasts 9", open[1]];
  await shows(all, [["1 ann 42 boasts 9", open[1]], hidden, hidden]);
  same([await log(ann), await log(eve)], [["ann sealed a bid of 42", "ann boasted 9"], ["ann sealed a bid", "ann boasted 9"]], "the logs");
  same(await ann.texts("#bid, .boasts, .actions button"), [], "what can't be used again is gone");
  await bob.click("Boast 5");
  await bob.click("Undo");
  await shows([bob], [[hidden[0], open[1]]]);
  await bob.reload();
  await turn(bob, "Your turn. Boast, or seal your bid: it is final.");
  await bob.type("#bid", "41");
  await bob.click("Seal the bid");
  const told = ["1 ann 42 boasts 9", "2 bob 41 boasts nothing"];
  await shows(all, [told, told, told]);
  await turns(all, ["You have won!", "ann has won.", "ann has won."]);
  for (const page of all) same(await page.texts(".scores .wins"), [told[0]], "the winner's row");
  same((await log(eve))[0], "bob sealed a bid", "a bid stays hidden in the log");

  // Two like bids are a draw.
  const { match } = await makeMatch(ann, scene.address, "blind-bid", 2, "ann");
  const { key } = await scene.session.ask({ match, name: "carl", seat: 1, type: "join" });
  const carl = await scene.open();
  await carl.follow(match, 1, key);
  await carl.act(match, key, { args: [7], kind: "move", move: "bid" });
  await ann.until(rows, ["1 ann has yet to choose boasts nothing", "2 carl sealed boasts nothing"], "the rows");
  await ann.type("#bid", "7");
  await ann.click("Seal the bid");
  await turn(ann, "It is a draw.");
  same(await ann.texts(".scores .wins"), [], "nobody's row is the winner's");
  carl.close();
  await done(...all);
}

export async function captions(scene) {
  const { ann, bob, eve, all } = await seated(scene, "captions");
  const markup = "<img src=x onerror=alert(1)> & co";
  const short = "kurz: ä";
  await ann.type("#caption", "x".repeat(65));
  await ann.sees(".actions .over", "65 of 64 characters");
  await ann.click("Seal the caption");
  await ann.sees("#caption-wrong", "Captions have up to 64 characters: take out 1.");
  await ann.type("#caption", "");
  await ann.click("Seal the caption");
  await ann.sees("#caption-wrong", "Please write a caption.");
  await ann.type("#caption", markup);
  await ann.click("Seal the caption");
  const waits = "2 bob has yet to choose";
  await shows(all, [[`1 ann ${markup}`, waits], ["1 ann sealed", waits], ["1 ann sealed", waits]]);
  same(await eve.value(`document.body.outerHTML.includes("onerror")`), false, "no page has another's caption in it");
  await bob.type("#caption", short);
  same(await bob.text(".actions .quiet"), "8 of 64, since some count more than once, as ä and emoji", "the room that a text takes is counted, not letters");
  await bob.reload();
  await bob.type("#caption", short);
  await bob.click("Seal the caption");
  const told = [`1 ann ${markup} length ${markup.length}`, `2 bob ${short} length 8`];
  await shows(all, [told, told, told]);
  await turns(all, ["You have won!", "ann has won.", "ann has won."]);
  for (const page of all) same(await page.value(`document.querySelectorAll("main img").length`), 0, "a caption is never read as HTML");
  await done(...all);
}

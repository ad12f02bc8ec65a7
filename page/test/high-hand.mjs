// A whole match of High Hand. Nobody sees another's hand, and the table is compared with the server's states.
import { done, log, same, says, seated, turns } from "./people.mjs";
import { Session } from "./server.mjs";

const RANKS = "two three four five six seven eight nine ten jack queen king ace".split(" ");
const SUITS = "clubs diamonds hearts spades".split(" ");
const named = (card) => `${RANKS[Math.floor(card / 4)]} of ${SUITS[card % 4]}`;

const labels = (selector) => (page) => page.value(`[...document.querySelectorAll("${selector}")].map((one) => one.getAttribute("aria-label"))`);
const table = (page) => labels(".row.by-seat .item")(page).then((all) => all.map((label) => label.replace(/^(ann|bob): /, "")));
const hand = labels(".hand .item");
const scores = (page) => page.texts(".seats .counts");

export async function highHand(scene) {
  const { ann, bob, eve, all, match, link } = await seated(scene, "high-hand");
  const raw = await Session.open(scene.server);
  await raw.follow(match);
  // A round that is over stays on the table until the next card.
  let seen = null;
  const shows = async (number) => {
    const { g: { common: told } } = await raw.at(number);
    const common = told.table.some((card) => card !== null) || !seen?.table.every((card) => card !== null) ? told : { ...told, table: seen.table };
    seen = common;
    for (const page of all) {
      await page.until(table, common.table.map((card) => card === null ? "free" : named(card)), "the table");
      const words = common.scores.map((score, at) => `${score} ${score === 1 ? "point" : "points"} ${common.hands[at]}`);
      await page.until(scores, words, "scores and hands");
      await page.until(labels(".spot"), [`Deck: ${common.left}`], "the deck");
    }
  };
  await shows(0);
  await turns(all, ["Your turn. Draw a card.", "ann is thinking.", "ann is thinking."]);
  same(await ann.texts(".hand"), [], "a hand without a card isn't shown");
  for (const [number, page] of [ann, ann, bob, bob].entries()) {
    await page.until(`document.querySelector(".turn").classList.contains("own")`, true);
    await page.click("Draw a card");
    await shows(number + 1);
  }
  const held = [await hand(ann), await hand(bob)];
  same(held.map((cards) => cards.length), [2, 2], "two cards each");
  same(await hand(eve), [], "a spectator has no hand");
  for (const [page, others] of [[ann, held[1]], [bob, held[0]], [eve, held.flat()]]) {
    const words = await page.value("document.body.outerHTML");
    same(others.filter((card) => words.includes(card.replace("Lay the ", ""))), [], "no page has another's card in it");
  }
  // The hand that the page shows is the one that the server told its seat.
  const own = await ann.value(`JSON.stringify(Object.fromEntries(Object.entries(localStorage)))`);
  const kept = JSON.parse(Object.entries(JSON.parse(own)).find(([at]) => at.startsWith(`seat ${match} `))[1]);
  const seat = await Session.open(scene.server);
  await seat.follow(match, kept.seat, kept.key);
  same(held[0], seat.snapshot.g.players[0].hand.map((card) => `Lay the ${named(card)}`), "ann's hand");
  seat.close();

  await ann.click(held[0][1]);
  await shows(5);
  await turns(all, ["Your turn. End the turn, or take the card back.", "ann is thinking.", "ann is thinking."]);
  same(await hand(ann), [held[0][0]], "a laid card has left the hand");
  await ann.click(held[0][0]);
  await says(ann, "You have laid a card already.");
  await ann.click("Undo");
  await shows(6);
  await ann.until(hand, held[0], "the card is back in the hand");
  await ann.click("Redo");
  await shows(7);
  const laid = `laid the ${held[0][1].replace("Lay the ", "")}`;
  same((await log(eve)).slice(0, 3), [`ann did again: ${laid}`, `ann took back: ${laid}`, `ann ${laid}`], "the log");
  await ann.click("End the turn");
  await bob.sees(".turn", "Your turn. Lay a card of your hand.");
  await bob.click(held[1][0]);
  await shows(9);
  if (scene.pictures) await bob.picture(`${scene.pictures}/page-high-hand.png`, { width: 1000, height: 780 });
  await bob.reload();
  await bob.until(hand, [held[1][1]], "bob's hand after a reload");
  await bob.click("End the turn");
  await shows(10);
  const [first, second] = [held[0][1], held[1][0]].map((card) => card.replace("Lay the ", ""));
  const taker = raw.snapshot.g.common.scores[0] ? ["ann", first] : ["bob", second];
  same(await eve.text(".story"), `${taker[0]} takes the round with the ${taker[1]}.`, "who takes the round");
  same((await log(eve))[0], `bob ended the turn: ${taker[0]} takes the round with the ${taker[1]}`, "the log of a round");
  for (const [number, page, what] of [[11, ann, held[0][0]], [12, ann, "End the turn"], [13, bob, held[1][1]], [14, bob, "End the turn"]]) {
    await page.until(`document.querySelector(".turn").classList.contains("own")`, true);
    await page.click(what);
    await shows(number);
  }
  const { gameover } = raw.snapshot.ctx;
  if (gameover.draw) await turns(all, Array(3).fill("It is a draw."));
  else await turns(all, [0, 1, null].map((at) => at === gameover.winner ? "You have won!" : `${["ann", "bob"][gameover.winner]} has won.`));
  same(link.includes(kept.key), false, "the link has no key");
  raw.close();
  await done(...all);
}

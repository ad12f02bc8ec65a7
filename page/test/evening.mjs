// An evening's way: into a match by name, with an invitation, and out of it, to the next one.
import { done, makeMatch, same, sit, sits, turn } from "./people.mjs";

const focused = (page) => page.value(`document.activeElement.id || document.activeElement.tagName`);
const leads = (page) => page.texts(".lead > .panel > h2, .lead > .panel > div > h2");
const WRITE = "Please write your name (up to 32 letters).";

/** Where a name is wanted and none is there, or one that is too long: it is said at the field, which gets the focus. */
async function wantsAName(page, press) {
  await page.type("#player-name", "");
  for (const [name, words] of [["", WRITE], ["   ", WRITE], ["x".repeat(33), "Please write a shorter name (up to 32 letters)."],
    ["ä".repeat(17), "Please write a shorter name: letters with accents and emoji take more room than others."]]) {
    await page.type("#player-name", name);
    await press();
    await page.sees("#player-name-wrong", words);
    const field = `["id", "aria-invalid", "aria-describedby"].map((name) => document.activeElement.getAttribute(name))`;
    same(await page.value(field), ["player-name", "true", "player-name-wrong"], "the field has the focus, and says that it is wrong");
  }
}

export async function wayIn(scene) {
  const { browser, address } = scene;
  const [ann, bob] = [await browser.page("ann"), await browser.page("bob")];
  await ann.goto(address);
  await ann.until(`document.getElementById("new-pig") !== null`, true);
  await wantsAName(ann, () => ann.click("#new-pig"));
  same(await ann.value("location.search.includes('match')"), false, "no match is made without a name");

  // The one who makes a match sits at once, and is asked for no name again.
  const { link } = await makeMatch(ann, address, "pig", 3, "ann");
  await turn(ann, "Waiting for a second player. You may begin. Roll the die.");
  same(await leads(ann), ["Invite"], "the invitation stands first");
  const fits = `["Width", "Height"].map((way) => document.querySelector(".address")["scroll" + way] <= document.querySelector(".address")["client" + way])`;
  same(await ann.value(fits), [true, true], "the link is whole");
  const alone = new URL(address).hostname === "127.0.0.1";
  same(await ann.texts(".warning"), alone ? ["Others can't open this address: use this machine's address, start with LISTEN=0.0.0.0:7000"] : [], "the warning");
  await ann.value(`document.querySelector(".address").focus()`);
  same(await ann.value(`getSelection().toString()`), link, "the field's focus selects the link");
  await ann.click("Copy the link");
  await ann.until((page) => page.texts("#copy"), ["Copied"], "the link is copied");
  same(await focused(ann), "copy", "the focus stays at the button");

  // A guest sees one button, and may choose another seat.
  await bob.goto(link);
  await bob.until((page) => page.texts("#join"), ["Join"], "the way in");
  await wantsAName(bob, () => bob.click("#join"));
  await bob.type("#player-name", "bob");
  same(await bob.texts(".lead button"), ["Join as bob"], "one button, with the name");
  same(await bob.value(`[...document.getElementById("join-seat").options].map(({ text }) => text)`), ["2", "3"], "the free seats");
  await bob.key("Enter");
  await sits(bob, 1);
  same(await focused(bob), "board", "the focus goes to the board, and not to the top of the page");
  same(await leads(bob), ["Invite"], "the invitation stands first as long as a seat is free");

  // Whoever comes next needs no choice. Once all sit the invitation is a tab, and the name is kept.
  const eve = await browser.page("eve");
  await eve.goto(link);
  await sit(eve, 2, "eve");
  for (const page of [ann, bob, eve]) {
    await page.until(leads, [], "nothing stands before the board");
    same(await page.texts("[role=tab]"), ["Moves", "Invite", "About"], "the tabs");
  }
  await bob.click("#home");
  await bob.until(`document.getElementById("player-name")?.value`, "bob");
  await done(ann, bob, eve);
}

export async function wayOut(scene) {
  const { browser, address, session } = scene;
  const [ann, bob] = [await browser.page("ann"), await browser.page("bob")];
  const { match, link } = await makeMatch(ann, address, "blind-bid", 2, "ann");
  await bob.goto(link);
  await sit(bob, 1, "bob");
  // The invitation goes once all sit, and the board moves up.
  await ann.until(leads, [], "nothing stands before the board");
  await ann.click("Boast 4");
  await ann.until((page) => page.texts(".scores li").then(([first]) => first), "1 ann has yet to choose boasts 4", "the boast");
  for (const [page, bid] of [[ann, "30"], [bob, "20"]]) {
    await page.type("#bid", bid);
    await page.click("Seal the bid");
  }
  await turn(ann, "You have won!");
  await turn(bob, "ann has won.");
  same(await focused(bob), "result-title", "the focus goes to the result");
  for (const page of [ann, bob]) {
    same(await page.texts(".result .chips li"), ["1 ann 30", "2 bob 20"], "the scores");
    same(await page.texts(".scores li"), ["1 ann 30 boasts 4", "2 bob 20 boasts nothing"], "the last position");
    await page.click("About");
    const dead = "#undo, #redo, #rename, #give-up, #new-name, .actions button, .boasts button, #bid, #invite-tab, .turn";
    same(await page.texts(dead), [], "what can't be used any more is gone");
    same(await page.texts(".result button, .result a"), ["New match of the same game", "Back to the lobby"], "what comes next");
  }

  // The next match of the same game: for as many, with oneself at the first seat.
  await bob.click("New match of the same game");
  await bob.until(`/match=/.test(location.search) && location.href !== ${JSON.stringify(link)}`, true, "another match");
  await sits(bob, 0);
  await bob.sees("h1", "Blind Bid");
  same(await bob.texts(".seats li"), ["1 bob you, to play", "2 free to play"], "the new match");
  same(await leads(bob), ["Invite"], "its link can be sent");

  // In the lobby what is over is folded.
  await ann.click("Back to the lobby");
  const row = `#finished-blind-bid [data-match='${match}']`;
  await ann.until(`document.querySelector("${row}") !== null`, true, "a finished match");
  same(await ann.value(`document.querySelector("${row}").closest("details").open`), false, "it is folded");
  same(await ann.value(`document.querySelector("#matches-blind-bid [data-match='${match}']")`), null, "it isn't among those that are on");
  await ann.click("#game-blind-bid-title ~ details summary");
  await ann.until((page) => page.texts(row), [`${match} ann and bob See the result Clear away`], "its row");
  await ann.click(`${row} .open`);
  await turn(ann, "You have won!");
  await ann.click("Back to the lobby");
  await ann.until(`document.querySelector("${row}") !== null`, true, "the finished match");
  await ann.click("#game-blind-bid-title ~ details summary");
  await ann.click(`${row} .clear`);
  await ann.until((page) => page.texts(`${row} .players`), ["bob · 1 seat free"], "who has cleared it away is gone from it");
  same(await ann.texts(`${row} .clear`), [], "it can be cleared away once");
  same((await session.ask({ match, type: "look" })).row.players.map(({ name }) => name), [null, "bob"], "the server's row");
  await done(ann, bob);
}

// The lobby, giving up a seat, and a match that is gone.
import { done, log, makeMatch, same, says, seats, sit, sits, turn } from "./people.mjs";

const titles = ["Blind Bid", "Captions", "Countdown", "High Hand", "Pig", "Tic-tac-toe"];
const rowOf = (game, match) => (page) =>
  page.value(`document.querySelector("#matches-${game} [data-match='${match}']")?.innerText.replace(/\\s+/g, " ").trim() ?? null`);

export async function lobby(scene) {
  const { browser, address, session } = scene;
  const [ann, bob] = [await browser.page("ann"), await browser.page("bob")];
  await bob.goto(address);
  await bob.until((page) => page.texts(".game h2").then((all) => all.map((one) => one.split(" ").slice(1).join(" "))), titles, "the games");
  const { match, link } = await makeMatch(ann, address, "countdown", 3, "<i>ann</i>");
  await bob.until(rowOf("countdown", match), `${match} <i>ann</i> · 2 seats free Join`, "a new match in the lobby");
  await bob.click(`#matches-countdown [data-match='${match}'] .open`);
  await bob.until("location.href", link);
  await bob.sees("h1", "Countdown");
  await turn(bob, "<i>ann</i> is thinking.");

  // Two take the same seat: the second is told.
  await bob.type("#player-name", "bob");
  await bob.choose("#join-seat", "1");
  await session.ask({ match, name: "eve", seat: 1, type: "join" });
  if (await bob.value(`document.getElementById("join-seat").value`) === "1") {
    await bob.click("#join");
    await says(bob, "Somebody else has just taken that seat.");
  }
  await bob.until(seats, ["1 <i>ann</i> to play", "2 eve", "3 free"], "a player who came later");
  same(await bob.texts("#join-seat"), [], "one free seat needs no choice");
  await bob.click("Join as bob");
  await sits(bob, 2);
  await ann.click("Take 3");
  await ann.click("End the turn");
  await bob.until(seats, ["1 <i>ann</i>", "2 eve to play", "3 bob you"], "who may act");

  // A new name is seen, and what was done before bears the old one.
  await ann.click("About");
  await ann.type("#new-name", "");
  await ann.click("Change my name");
  await ann.sees("#new-name-wrong", "Please write your name (up to 32 letters).");
  await ann.type("#new-name", "anna");
  await ann.click("Change my name");
  await bob.until(seats, ["1 anna", "2 eve to play", "3 bob you"], "a new name is seen");
  same(await log(bob), ["<i>ann</i> ended the turn", "<i>ann</i> took 3"], "the log names people as they were");

  // Back, and forth again.
  await bob.click("#home");
  await bob.until(rowOf("countdown", match), `${match} anna, eve and bob Play on`, "one's own match in the lobby");
  await bob.value("history.back()");
  await bob.until(seats, ["1 anna", "2 eve to play", "3 bob you"], "one's own seat after going back");
  await bob.click("About");
  await bob.click("Give up my seat");
  await bob.click("Yes, give it up");
  await bob.until(seats, ["1 anna", "2 eve to play", "3 free"], "a seat that was given up");
  same(await bob.value("Object.keys(localStorage).filter((one) => one.startsWith('seat')).length"), 0, "its key is forgotten");

  await ann.goto(`${address}&match=63-77`);
  await ann.sees("main .alert", "There is no such match on this server.");
  await ann.click("See the matches that there are");
  await ann.until(rowOf("countdown", match), `${match} anna and eve · 1 seat free Play on`, "the lobby after a match that is gone");
  await done(ann, bob);
}

/** The last player leaves: those who look on are told. And a kept key that counts no more. */
export async function gone(scene) {
  const { browser, address, session } = scene;
  const [ann, eve] = [await browser.page("ann"), await browser.page("eve")];
  const { match, link } = await makeMatch(ann, address, "pig", 2, "ann");
  await eve.goto(link);
  await turn(eve, "ann is thinking.");
  const kept = JSON.parse(await ann.value(`localStorage.getItem(Object.keys(localStorage).find((one) => one.startsWith("seat ${match} ")))`));
  await session.ask({ match, name: "bob", seat: 1, type: "join" });
  await session.ask({ key: kept.key, match, seat: 0, type: "leave" });
  await says(ann, "The seat that you had here is no longer yours. You are watching now.");
  await turn(ann, "Waiting for a second player.");
  await sit(ann, 0, "ann again");
  await turn(eve, "ann again is thinking.");
  await done(ann, eve);

  const [last, other] = [await browser.page("last"), await browser.page("other")];
  const made = await makeMatch(last, address, "pig", 2, "last");
  await other.goto(made.link);
  await turn(other, "last is thinking.");
  await last.click("About");
  await last.click("Give up my seat");
  await last.click("Yes, give it up");
  await last.sees("main .alert", "There is no such match on this server.");
  await other.sees("main .alert", "There is no such match on this server.");
  await done(last, other);
}

/** What the page's address says. */
export async function addresses(scene) {
  const ann = await scene.browser.page("ann");
  await ann.goto(scene.files);
  const says = (expression) => ann.value(`import("./address.js").then(({ serverAddress, matchNamed, linkTo }) => ${expression})`);
  const at = (rest) => JSON.stringify({ search: "", protocol: "https:", host: "games.example:8443", pathname: "/r/07", ...rest });
  same(await says(`serverAddress(${at({})})`), "wss://games.example:8443/r/07", "the page's own host");
  same(await says(`serverAddress(${at({ protocol: "http:", pathname: "/" })})`), "ws://games.example:8443/", "a host without TLS");
  same(await says(`serverAddress(${at({ search: "?match=0-1&server=ws://10.0.0.1:7000" })})`), "ws://10.0.0.1:7000/", "a server that is said");
  for (const [search, match] of [["?match=63-1", "63-1"], ["", null], ["?match=0-0", null], ["?match=0-1%22", null], ["?match=x", null]]) {
    same(await says(`matchNamed({ search: ${JSON.stringify(search)} })`), match, `the match of ${search}`);
  }
  const href = "https://games.example/r/07?server=wss%3A%2F%2Fa%2F&match=0-1&key=secret#there";
  same(await says(`linkTo("2-3", { href: ${JSON.stringify(href)} })`), "https://games.example/r/07?server=wss%3A%2F%2Fa%2F&match=2-3", "a link");
  same(await says(`linkTo(null, { href: "https://games.example/r/07?match=0-1" })`), "https://games.example/r/07", "the lobby");
  const nobody = (link) => ann.value(`import("./address.js").then(({ leadsNobodyHere }) => leadsNobodyHere(${JSON.stringify(link)}))`);
  for (const [link, wanted] of [["http://127.0.0.1:7000/?match=0-1", true], ["http://localhost:7000/", true], ["http://[::1]:7000/", true],
    ["http://0.0.0.0:7000/", true], ["http://192.168.1.20:7000/", false], ["https://games.example/", false],
    ["https://games.example/?server=ws%3A%2F%2F127.0.0.1%3A7000%2F", true]]) {
    same(await nobody(link), wanted, `whether ${link} leads nobody here`);
  }
  await done(ann);
}

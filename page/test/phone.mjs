// The page on a phone: one column that fits, targets that a finger meets, and a match by touch.
import { done, makeMatch, same, turn } from "./people.mjs";

const PHONE = { width: 360, height: 740, phone: true };
// The width of the screen: innerWidth grows with what is too wide.
const fits = (page) => page.value("document.documentElement.scrollWidth <= document.documentElement.clientWidth");
const small = (page) => page.value(`[...document.querySelectorAll("button, select, input, a")].filter((one) => {
  const { width, height } = one.getBoundingClientRect();
  return width && (height < 44 || width < 40);
}).map((one) => one.textContent || one.id)`);

// The bar with the turn and the main button is whole in sight, wherever the page is scrolled to.
const stays = (page) => page.value(`[0, document.body.scrollHeight].every((to) => {
  scrollTo(0, to);
  const { top, bottom } = document.querySelector(".bar-of-turn").getBoundingClientRect();
  return top >= 0 && Math.abs(bottom - innerHeight) < 2;
})`);

async function isForPhones(page, what) {
  same(await fits(page), true, `${what} fits on a phone`);
  same(await small(page), [], `${what} has large targets`);
}

export async function phone(scene) {
  const { browser, address, session } = scene;
  const ann = await browser.page("ann", { ...PHONE, dark: true });
  const { match } = await makeMatch(ann, address, "tic-tac-toe", 2, "ann");
  await isForPhones(ann, "a match to invite to");
  const { key } = await session.ask({ match, name: "bob", seat: 1, type: "join" });
  const bob = await scene.open();
  await bob.follow(match, 1, key);
  for (const [number, place, cell] of [[1, "middle: free", 0], [3, "top right: free", 8]]) {
    await ann.tap(place);
    await bob.at(number);
    await bob.act(match, key, { args: [cell], kind: "move", move: "clickCell" });
    await ann.until(`document.querySelector(".turn").classList.contains("own")`, true);
  }
  await ann.until((page) => page.text(".seats li:last-child bdi"), "bob", "the other's name");
  await isForPhones(ann, "tic-tac-toe");
  same(await stays(ann), true, "the turn's bar stays at the lower edge");
  if (scene.pictures) {
    await ann.picture(`${scene.pictures}/page-phone.png`, { ...PHONE, dark: true });
  }
  await ann.tap("bottom left: free");
  await turn(ann, "You have won!");
  await isForPhones(ann, "the end");
  bob.close();
  for (const game of ["countdown", "pig", "high-hand", "blind-bid", "captions"]) {
    const made = await makeMatch(ann, address, game, 2, "a name of thirty-two bytes, so .");
    const { key: other } = await session.ask({ match: made.match, name: "bob", seat: 1, type: "join" });
    await ann.until((page) => page.text(".seats li:last-child bdi"), "bob", "the other's name");
    await isForPhones(ann, game);
    same(await stays(ann), true, `${game}: the turn's bar stays`);
    for (const tab of ["Invite", "About", "Moves"]) {
      await ann.tap(tab);
      await isForPhones(ann, `${game}, ${tab}`);
    }
    await session.ask({ key: other, match: made.match, seat: 1, type: "leave" });
    const seat = JSON.parse(await ann.value(`localStorage.getItem(Object.keys(localStorage).find((one) => one.startsWith("seat ${made.match} ")))`));
    await session.ask({ key: seat.key, match: made.match, seat: 0, type: "leave" });
  }
  await ann.goto(address);
  await ann.until((page) => page.texts(".game").then((all) => all.length), 6, "games");
  await isForPhones(ann, "the lobby");
  await ann.value(`document.getElementById("player-name").value = "ann"`);
  if (scene.pictures) await ann.picture(`${scene.pictures}/page-lobby.png`, { width: 1000, height: 780 });
  await done(ann);
}

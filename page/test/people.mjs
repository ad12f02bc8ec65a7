// What people do on the page, as the tests say it: making a match, taking a seat, and what they see.
import { Failure } from "./browser.mjs";

export function same(is, wanted, what) {
  if (JSON.stringify(is) !== JSON.stringify(wanted)) {
    throw new Failure(`${what}\n  wanted ${JSON.stringify(wanted)}\n  saw    ${JSON.stringify(is)}`);
  }
}

/** The address at which a page speaks with a server, without guesses, and the one with them. */
export const pageAt = (files, server) => `${guessingAt(files, server)}&guess=no`;
export const guessingAt = (files, server) => `${files}?server=${encodeURIComponent(server)}`;

/** Makes a match by clicking, as one who sits at its first seat then, and answers its name and its link. */
export async function makeMatch(page, address, game, seats, name) {
  await page.goto(address);
  await page.until(`document.getElementById("new-${game}") !== null`, true);
  await page.choose(`#seats-${game}`, String(seats));
  await page.type("#player-name", name);
  await page.click(`#new-${game}`);
  await page.until(`/[?&]match=\\d+-\\d+/.test(location.search)`, true);
  const link = await page.value("location.href");
  await page.until(`document.querySelector(".address")?.value`, link);
  await sits(page, 0);
  return { match: new URL(link).searchParams.get("match"), link };
}

/** Waits until a page shows that it sits at a seat, counted from 0 as the protocol does. */
export const sits = (page, seat) =>
  page.until((one) => one.value(`[...document.querySelectorAll(".seats li")][${seat}]?.querySelector(".notes").textContent.startsWith("you")`), true);

/** Takes a free seat. */
export async function sit(page, seat, name) {
  await page.type("#player-name", name);
  await page.choose("#join-seat", String(seat));
  await page.click("#join");
  await sits(page, seat);
}

/** Two people at a new match for two, who have read each other's names, and one who looks on. */
export async function seated(scene, game, names = ["ann", "bob"]) {
  const { browser, address } = scene;
  const [ann, bob, eve] = [await browser.page("ann"), await browser.page("bob"), await browser.page("eve")];
  const { match, link } = await makeMatch(ann, address, game, 2, names[0]);
  await bob.goto(link);
  await sit(bob, 1, names[1]);
  await eve.goto(link);
  const wanted = names.map((name, at) => `${at + 1} ${name}`);
  for (const page of [ann, bob, eve]) {
    await page.until(async (one) => (await seats(one)).map((seat, at) => seat.startsWith(wanted[at])), [true, true], "names at the seats");
  }
  return { ann, bob, eve, all: [ann, bob, eve], match, link };
}

/** What the seats show, as "1 ann you, to play". */
export const seats = (page) => page.texts(".seats li");

// Whose turn it is, or how the match ended.
const TURN = ".turn, .result h2";
export const turn = (page, words) => page.sees(TURN, words);

/** Waits until all pages show these words where it says whose turn it is. */
export async function turns(pages, words) {
  for (const [at, page] of pages.entries()) await turn(page, words[at]);
}

/** The pages have thrown nothing, and broken no policy. They are closed. */
export async function done(...pages) {
  for (const page of pages) {
    same(page.faults, [], `${page.name}: nothing was thrown or refused by the policy`);
    await page.close();
  }
}

/** The nine cells of tic-tac-toe as marks, by the names of the places. */
export const cells = (page) => page.value(`[...document.querySelectorAll(".cell")].map((one) => one.getAttribute("aria-label"))
  .map((label) => label.includes(": cross") ? "✕" : label.includes(": circle") ? "◯" : ".").join("")`);

export const alert = (page) => page.text(".match .alert");
export const says = (page, words) => page.sees(".match .alert", words);
export const notes = (page, words) => page.sees(".match .note", words);
export const log = (page) => page.texts(".log li bdi");
export const undone = (page) => page.texts(".log li.undone bdi");

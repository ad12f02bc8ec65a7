// Being called when it is one's turn: always by the tab's title, and by a sound and a notification once one wants it.
import { done, makeMatch, same, sit } from "./people.mjs";

// Writes down what the page sounds and shows, and what it asks the browser for.
const LISTEN = `(() => {
  window.heard = [];
  const start = OscillatorNode.prototype.start;
  OscillatorNode.prototype.start = function (...when) {
    if (this.frequency.value === 660) heard.push("sound");
    return start.apply(this, when);
  };
  window.AudioContext = class extends AudioContext {
    constructor() { super(); heard.push("audio"); }
  };
  window.Notification = class {
    static permission = "default";
    static async requestPermission() {
      heard.push("asks");
      Notification.permission = "granted";
    }
    constructor(title, { body }) { heard.push(title + ": " + body); }
    close() {}
  };
})()`;

const title = (page, words) => page.until("document.title", `${words} · Tic-tac-toe`);
const asked = (page) => page.texts(".ask-bell span");
const hide = (page, hidden) => page.value(`Object.defineProperty(document, "hidden", { value: ${hidden}, configurable: true })`);

/** Waits until a page was heard so, and forgets it. */
async function heard(page, wanted, what) {
  await page.until("heard", wanted, what);
  await page.value("heard.length = 0");
}

export async function called(scene) {
  const { browser, address } = scene;
  const [ann, bob, eve] = [await browser.page("ann"), await browser.page("bob"), await browser.page("eve")];
  for (const page of [ann, bob, eve]) await page.call("Page.addScriptToEvaluateOnNewDocument", { source: LISTEN });
  const { link } = await makeMatch(ann, address, "tic-tac-toe", 2, "ann");
  await bob.goto(link);
  await sit(bob, 1, "bob");
  await eve.goto(link);
  for (const [page, words] of [[ann, "Your turn"], [bob, "ann is thinking"], [eve, "ann is thinking"]]) await title(page, words);

  // It is off until one is asked, once, and wants it. Who looks on isn't asked.
  const question = "Shall this page tell you when it is your turn?";
  for (const [page, wanted] of [[ann, [question]], [bob, [question]], [eve, []]]) same(await asked(page), wanted, `what ${page.name} is asked`);
  for (const page of [ann, bob]) same(await page.value("heard"), [], "nothing was sounded or asked for");
  await ann.click("Yes, tell me");
  await heard(ann, ["audio", "sound", "asks"], "how it sounds, and the browser's own question");
  same(await ann.value("document.activeElement.id"), "board", "the focus goes on to the board");
  await bob.click("No, thanks");
  for (const page of [ann, bob]) same(await asked(page), [], `${page.name} isn't asked again`);

  // Each move calls the other one, if it wants to be called: by a sound, and where the page isn't in sight by a notification.
  await ann.click("middle: free");
  for (const [page, words] of [[ann, "bob is thinking"], [bob, "Your turn"], [eve, "bob is thinking"]]) await title(page, words);
  await bob.click("top left: free");
  await title(ann, "Your turn");
  await heard(ann, ["sound"], "a sound at one's turn");
  await hide(ann, true);
  await ann.click("top right: free");
  await title(bob, "Your turn");
  await bob.click("bottom left: free");
  await heard(ann, ["sound", "Your turn: Tic-tac-toe"], "a notification");
  await hide(ann, false);
  same([await bob.value("heard"), await eve.value("heard")], [[], []], "nobody else is called");

  // One may want it later. After a reload nothing sounds before something was pressed.
  await bob.click("About");
  await bob.click("Tell me when it is my turn");
  await heard(bob, ["audio", "sound", "asks"], "it is turned on");
  await bob.reload();
  await title(bob, "ann is thinking");
  same(await asked(bob), [], "it is asked once in a browser");
  await ann.click("left: free");
  await title(bob, "Your turn");
  same(await bob.value("heard"), [], "silence before a gesture");
  await bob.click("right: free");
  await heard(ann, ["sound"], "a sound for the other");
  await ann.click("top: free");
  await heard(bob, ["audio", "sound"], "a sound after a gesture");

  // And one may want it no more.
  await ann.click("About");
  await ann.click("Don't tell me when it is my turn");
  await bob.click("bottom: free");
  await title(ann, "Your turn");
  same(await ann.value("heard"), [], "it is off again");
  await ann.click("bottom right: free");
  for (const page of [ann, bob]) {
    await title(page, "It is a draw.");
    same(await page.texts("#bell, .ask-bell"), [], "at the end there is nothing to be told");
  }
  await done(ann, bob, eve);
}

// A bot's seat is asked for, and taken once the bot has left it. The bot is a session that a bot's name names, and the relay answers for it.
import { done, makeMatch, notes, pageAt, same, says, seats } from "./people.mjs";
import { startRelay } from "./relay.mjs";

export async function takeover(scene) {
  const { browser, files, server } = scene;
  const relay = await startRelay(server);
  const [ann, eve] = [await browser.page("ann"), await browser.page("eve")];
  const { match, link } = await makeMatch(ann, pageAt(files, relay.address), "tic-tac-toe", 2, "ann");
  const bot = await scene.open();
  const { key } = await bot.ask({ match, name: "bot1", seat: 1, type: "join" });
  await eve.goto(link);

  // Without a name nobody is asked.
  await eve.click("#ask-1");
  await eve.sees("#player-name-wrong", "Please write your name (up to 32 letters).");
  await eve.type("#player-name", "eve");

  // Where a person has that name, the server says so.
  await eve.click("#ask-1");
  await says(eve, "A person plays that seat, or nobody: only a bot can be asked to leave it.");

  relay.onAsked = (line, { pass, answer }) => JSON.parse(line).type === "takeover" ? answer(`{"match":"${match}","seat":1,"type":"asked"}`) : pass(line);
  await eve.click("#ask-1");
  await notes(eve, "The bot was asked for its seat. You sit down as soon as it has left.");
  same(await eve.text(".match .alert"), null, "it is not shown as an error");
  await bot.ask({ key, match, seat: 1, type: "leave" });
  await eve.until(seats, ["1 ann to play", "2 eve you"], "the seat of the bot");
  bot.close();
  await done(ann, eve);
  relay.close();
}

// node --experimental-websocket page/test/play.mjs [--pictures FOLDER] [NAME ..]
//
// Plays on the page in headless Chromium: every game by clicking, two players and a spectator each, and whatever can go wrong.
// The server hands out the packed page, which is built anew in out/page first; pages from another host are the plain files of page/.
// SARPUNTXE_PROGRAM names the program that serves, SARPUNTXE_SERVER a server that runs already, CHROMIUM the browser,
// and PATIENCE how many milliseconds a page may take to show what is wanted.
import { execFileSync } from "node:child_process";
import { fileURLToPath } from "node:url";
import { openBrowser } from "./browser.mjs";
import { serveFiles } from "./files.mjs";
import { Session, startServer } from "./server.mjs";
import { pageAt } from "./people.mjs";
import { addresses, gone, lobby } from "./lobby.mjs";
import { ticTacToe } from "./tic-tac-toe.mjs";
import { countdown } from "./countdown.mjs";
import { pig } from "./pig.mjs";
import { highHand } from "./high-hand.mjs";
import { blindBid, captions } from "./sealed.mjs";
import { cuts, reasons, unknownGame } from "./cuts.mjs";
import { guesses } from "./guesses.mjs";
import { handed } from "./handed.mjs";
import { phone } from "./phone.mjs";
import { program, recorded } from "./program.mjs";
import { takeover } from "./takeover.mjs";
import { bots } from "./bots.mjs";
import { called } from "./called.mjs";
import { wayIn, wayOut } from "./evening.mjs";
import { access } from "./access.mjs";
import { qr } from "./qr.mjs";
import { hints } from "./hints.mjs";
import { tableKeys, tables } from "./tables.mjs";

const PLAYS = {
  handed, addresses, qr, lobby, gone, wayIn, wayOut, called, access, reasons, ticTacToe, countdown, pig, highHand, blindBid, captions, cuts, unknownGame,
  program, recorded, guesses, takeover, bots, phone, hints, tables, tableKeys,
};
const here = (path) => fileURLToPath(new URL(path, import.meta.url));

const words = process.argv.slice(2);
const pictures = words[0] === "--pictures" ? words.splice(0, 2)[1] : null;
const wanted = words.length ? words : Object.keys(PLAYS);
const packed = here("../../out/page"), plain = here("../");
execFileSync("python3", [here("../build.py")], { stdio: ["ignore", "ignore", "inherit"] });
const startWith = (folder, ...more) => startServer(here("../../crates/board_server/out/board_server"), folder, ...more);
const start = (...more) => startWith(packed, ...more);
const server = await start("--links", "64", "--rooms", "64");
const files = await serveFiles(plain);
const browser = await openBrowser();
const session = await Session.open(server.address);
const scene = {
  browser, session, pictures, server: server.address, page: server.page, files: files.address,
  // The page from the server itself; from another host, where a relay stands between, which the server's policy wouldn't let the page ask.
  address: server.page ? `${server.page}?guess=no` : pageAt(files.address, server.address),
  open: () => Session.open(server.address),
  // Another server, of these words, and one that hands out the files of a folder.
  start, startWith, packed, plain,
};
let failed = 0;
for (const name of wanted) {
  const begun = Date.now();
  try {
    const skipped = await PLAYS[name](scene);
    const took = `${((Date.now() - begun) / 1_000).toFixed(1)} s`;
    console.log(skipped ? `skipped ${name}: ${skipped}` : `ok      ${name} (${took})`);
  } catch (why) {
    failed++;
    console.log(`FAILED  ${name}\n${why.stack}`);
  }
}
console.log(failed ? `${failed} of ${wanted.length} failed` : `all ${wanted.length} passed`);
session.close();
await browser.close();
files.close();
server.stop();
process.exit(failed ? 1 : 0);

// The server hands out the files of the page, packed and plain, and nothing else.
import { execFileSync } from "node:child_process";
import { mkdtempSync, readdirSync, readFileSync, rmSync } from "node:fs";
import { request } from "node:http";
import { connect } from "node:net";
import { tmpdir } from "node:os";
import { gunzipSync } from "node:zlib";
import { done, makeMatch, same } from "./people.mjs";

const FOR_GOOD = "public, max-age=31536000, immutable";
const KINDS = { html: "text/html; charset=utf-8", css: "text/css; charset=utf-8", js: "text/javascript; charset=utf-8", svg: "image/svg+xml", wasm: "application/wasm" };
const POLICY = "default-src 'none'; script-src 'self' 'wasm-unsafe-eval'; style-src 'self'; img-src 'self'; connect-src 'self'; "
  + "base-uri 'none'; form-action 'none'; frame-ancestors 'none'";

/** One request over a connection of its own. */
const ask = (page, path, method = "GET") => new Promise((done, failed) => {
  const { hostname, port } = new URL(page);
  request({ hostname, port, path, method, agent: false }, (answer) => {
    const parts = [];
    answer.on("data", (part) => parts.push(part));
    answer.on("end", () => done({ status: answer.statusCode, headers: answer.headers, body: Buffer.concat(parts) }));
  }).on("error", failed).end();
});

/** What comes until the other side closes, to one that asks and then takes nothing for a while. */
const slowly = (page, head, pause) => new Promise((done, failed) => {
  const { hostname, port } = new URL(page);
  const socket = connect({ host: hostname, port });
  let length = 0;
  socket.pause();
  socket.on("error", failed).on("data", (part) => { length += part.length; }).on("end", () => { socket.end(); done(length); });
  socket.write(head);
  setTimeout(() => socket.resume(), pause);
});

/** Whether the server hands out a file of a folder as its name says. */
async function isHanded(page, folder, name) {
  const asked = name === "index.html" ? "" : name.replace(/\.gz$/, "");
  const { status, headers, body } = await ask(page, `/${asked}`);
  same([name, status, headers["content-type"], headers["content-security-policy"]], [name, 200, KINDS[(asked || name).split(".").pop()], POLICY], name);
  const kept = /\.[0-9a-f]{16}\./.test(name);
  same([headers["cache-control"], headers["content-encoding"] ?? null], [kept ? FOR_GOOD : "no-cache", name === asked || !asked ? null : "gzip"], name);
  same([Number(headers["content-length"]), body.equals(readFileSync(`${folder}/${name}`))], [body.length, true], `${name}: the file itself`);
  return name === asked || !asked ? body : gunzipSync(body);
}

/** Every file of a folder, but for tests, what makes others, and the hints beside descriptions, which no page asks for. */
const NOT_HANDED = /^(test|wasm|__pycache__|table\/hints)\b|\.py$/;
const filesOf = (folder) => readdirSync(folder, { recursive: true }).filter((name) => /\.\w+$/.test(name) && !NOT_HANDED.test(name));

const statuses = async (page, ...asked) => {
  for (const [path, wanted, method] of asked) same([path, (await ask(page, path, method)).status], [path, wanted], path);
};
const REFUSED = [["/?match=0-1", 200], ["/index.html", 404], ["/test/play.mjs", 404], ["/wasm/compile.sh", 404], ["/../README.md", 404], ["/boards", 404],
  ["/favicon.ico", 404], ["/build.py", 404], ["/table/hints/go.json", 404], ["/", 405, "DELETE"]];

export async function handed(scene) {
  const { browser, page, packed, plain } = scene;
  if (!page) return "the server that runs already may have no page";
  // The same files are packed into the same bytes.
  const again = mkdtempSync(`${tmpdir()}/page-`);
  execFileSync("python3", [`${plain}/build.py`, again], { stdio: "ignore" });
  const names = filesOf(packed).sort();
  same(filesOf(again).sort(), names, "the packed files, built twice");
  for (const name of names) same(readFileSync(`${again}/${name}`).equals(readFileSync(`${packed}/${name}`)), true, `${name}, built twice`);
  rmSync(again, { recursive: true });

  // The packed page: what it names is there, and everything but itself is kept.
  const held = Object.fromEntries(await Promise.all(names.map(async (name) => [name.replace(/\.gz$/, ""), await isHanded(page, packed, name)])));
  const named = [...String(held["index.html"]).matchAll(/(?:href|src)="([^"#]+\.[a-z]+)"/g)].map(([, name]) => name);
  same([named.length, named.filter((name) => !held[name])], [3, []], "the files that the page names");
  same(Object.keys(held).filter((name) => name !== "index.html" && !/\.[0-9a-f]{16}\./.test(name)), [], "files without a sum");
  const [style, code] = ["css", "js"].map((kind) => named.find((name) => name.endsWith(kind)));
  await statuses(page, ...REFUSED, [`/${code}.gz`, 404], [`/${code}?x`, 200], [`/${style}`, 405, "POST"], ["/main.js", 404]);
  const size = await slowly(page, `GET /${code} HTTP/1.1\r\nHost: here\r\n\r\n`, 3_000);
  same(size > readFileSync(`${packed}/${code}.gz`).length, true, "the answer to one that takes its time");

  // A page that came from the server plays, by its own address: packed, and plain.
  const other = await scene.startWith(plain, "--links", "64");
  for (const name of filesOf(plain)) await isHanded(other.page, plain, name);
  await statuses(other.page, ...REFUSED, ["/main.js?x", 200], ["/main.js", 405, "POST"]);
  for (const place of [page, other.page]) {
    const ann = await browser.page("ann");
    await makeMatch(ann, place, "pig", 2, "ann");
    await done(ann);
  }
  other.stop();
  return null;
}

// A headless Chromium, driven over its DevTools protocol. Each page has a browser context of its own, so that nothing kept is shared.
import { spawn } from "node:child_process";
import { mkdtempSync, rmSync, writeFileSync } from "node:fs";
import { tmpdir } from "node:os";

// How long a page may take to show what is wanted, in milliseconds.
const PATIENCE = Number(process.env.PATIENCE ?? 40_000);
const STEP = 25;
const later = (pause) => new Promise((done) => setTimeout(done, pause));

/** What went wrong, with what the page showed. */
export class Failure extends Error {}

export async function openBrowser() {
  const profile = mkdtempSync(`${tmpdir()}/page-test-`);
  const words = ["--headless", "--no-sandbox", "--disable-gpu", "--remote-debugging-port=0", "--remote-allow-origins=*", `--user-data-dir=${profile}`];
  const chromium = spawn(process.env.CHROMIUM ?? "chromium", [...words, "about:blank"], { stdio: ["ignore", "ignore", "pipe"] });
  const ended = new Promise((done) => chromium.on("exit", done));
  chromium.on("error", (why) => { console.error(`Chromium cannot be started: ${why.message}`); process.exit(1); });
  const tools = new Tools(await addressOf(chromium));
  await tools.open();
  return {
    page: (name, size) => openPage(tools, name, size),
    async close() {
      tools.call("Browser.close");
      await Promise.race([ended, later(5_000)]);
      chromium.kill("SIGKILL");
      await ended;
      rmSync(profile, { recursive: true, force: true, maxRetries: 20 });
    },
  };
}

function addressOf(chromium) {
  return new Promise((found) => {
    let said = "";
    chromium.stderr.on("data", (data) => {
      said += data;
      const address = /DevTools listening on (ws:\S+)/.exec(said);
      if (address) found(address[1]);
    });
  });
}

/** The DevTools' socket: commands, their answers, and events by session. */
class Tools {
  #socket; #number = 0; #waiting = new Map(); #listeners = new Map();

  constructor(address) {
    this.#socket = new WebSocket(address);
    this.#socket.onmessage = ({ data }) => {
      const said = JSON.parse(data);
      if (!said.id) return this.#listeners.get(said.sessionId)?.(said);
      const { done, failed, method } = this.#waiting.get(said.id);
      this.#waiting.delete(said.id);
      if (said.error) failed(new Error(`${method}: ${said.error.message}`)); else done(said.result);
    };
  }

  open() {
    return new Promise((done) => { this.#socket.onopen = done; });
  }

  call(method, params = {}, sessionId = undefined) {
    return new Promise((done, failed) => {
      this.#waiting.set(++this.#number, { done, failed, method });
      this.#socket.send(JSON.stringify({ id: this.#number, method, params, sessionId }));
    });
  }

  listen(sessionId, listener) {
    this.#listeners.set(sessionId, listener);
  }
}

async function openPage(tools, name, size) {
  const { browserContextId } = await tools.call("Target.createBrowserContext");
  const { targetId } = await tools.call("Target.createTarget", { url: "about:blank", browserContextId });
  const { sessionId } = await tools.call("Target.attachToTarget", { targetId, flatten: true });
  const page = new Page(name, (method, params) => tools.call(method, params, sessionId));
  tools.listen(sessionId, (event) => page.take(event));
  for (const domain of ["Page", "Runtime", "Log"]) await page.call(`${domain}.enable`);
  await page.look(size);
  page.close = () => tools.call("Target.disposeBrowserContext", { browserContextId });
  return page;
}

// Finds an element as a person would: by its words or its label, among what is shown. A selector begins with # or a dot.
const FIND = `(what) => /^[#.]/.test(what) ? document.querySelector(what)
  : [...document.querySelectorAll("button, a, input")].find((one) => one.getClientRects().length
    && (one.getAttribute("aria-label") ?? one.textContent) === what)`;

class Page {
  #loaded = () => {};
  faults = [];

  constructor(name, call) {
    [this.name, this.call] = [name, call];
  }

  take({ method, params }) {
    if (method === "Runtime.exceptionThrown") this.faults.push(params.exceptionDetails.exception?.description ?? params.exceptionDetails.text);
    if (method === "Log.entryAdded" && params.entry.source === "security") this.faults.push(params.entry.text);
    if (method === "Page.loadEventFired") this.#loaded();
  }

  /** A wide screen or a phone, light or dark. */
  async look({ width = 1100, height = 800, phone = false, dark = false } = {}) {
    await this.call("Emulation.setDeviceMetricsOverride", { width, height, deviceScaleFactor: 1, mobile: phone });
    await this.call("Emulation.setTouchEmulationEnabled", { enabled: phone });
    await this.call("Emulation.setEmulatedMedia", { features: [{ name: "prefers-color-scheme", value: dark ? "dark" : "light" }] });
  }

  async goto(url) {
    const loaded = new Promise((done) => { this.#loaded = done; });
    await this.call("Page.navigate", { url });
    await loaded;
  }

  async reload() {
    const loaded = new Promise((done) => { this.#loaded = done; });
    await this.call("Page.reload");
    await loaded;
  }

  /** Goes back, as by the browser's own button. */
  async goBack() {
    const { currentIndex, entries } = await this.call("Page.getNavigationHistory");
    await this.call("Page.navigateToHistoryEntry", { entryId: entries[currentIndex - 1].id });
    await later(500);
  }

  async value(expression) {
    const { result, exceptionDetails } = await this.call("Runtime.evaluate", { expression, returnByValue: true, awaitPromise: true });
    if (exceptionDetails) throw new Failure(`${this.name}: ${expression}: ${exceptionDetails.exception?.description}`);
    return result.value;
  }

  /** The text of the first element of a selector that is shown, or null. */
  text(selector) {
    return this.value(`[...document.querySelectorAll(${JSON.stringify(selector)})].find((one) => one.getClientRects().length)?.innerText ?? null`);
  }

  /** The texts of all elements of a selector that are shown. */
  texts(selector) {
    return this.value(`[...document.querySelectorAll(${JSON.stringify(selector)})].filter((one) => one.getClientRects().length)
      .map((one) => one.innerText.replace(/\\s+/g, " ").trim())`);
  }

  /** Waits until a question has the wanted answer: an expression, or a function. */
  async until(question, wanted, what = String(question)) {
    const want = JSON.stringify(wanted);
    let is;
    for (const end = Date.now() + PATIENCE; Date.now() < end; await later(STEP)) {
      is = JSON.stringify(typeof question === "string" ? await this.value(question) : await question(this));
      if (is === want) return;
    }
    throw new Failure(`${this.name}: ${what}\n  wanted ${want}\n  saw    ${is}\n${await this.value("document.body.innerText")}`);
  }

  sees(selector, wanted) {
    return this.until((page) => page.text(selector), wanted, `text of ${selector}`);
  }

  /** The middle of an element that is shown, stands still, and is covered by nothing. */
  async #middle(what) {
    const at = `(${FIND})(${JSON.stringify(what)})`;
    await this.until(`Boolean(${at}?.getClientRects().length)`, true, `${what} is shown`);
    let before, place;
    for (const end = Date.now() + PATIENCE; Date.now() < end; await later(STEP)) {
      before = JSON.stringify(place);
      place = await this.value(`(() => {
        const one = ${at};
        if (!one?.getClientRects().length) return null;
        one.scrollIntoView({ block: "center", behavior: "instant" });
        const { x, y, width, height } = one.getBoundingClientRect();
        const [middle, level] = [x + width / 2, y + height / 2];
        return { x: middle, y: level, hit: one.contains(document.elementFromPoint(middle, level)) };
      })()`);
      if (place?.hit && JSON.stringify(place) === before) return place;
    }
    throw new Failure(`${this.name}: ${what} is covered, or never stands still: ${JSON.stringify(place)}`);
  }

  /** A press of the mouse in the middle of an element. */
  async click(what) {
    const { x, y } = await this.#middle(what);
    for (const type of ["mousePressed", "mouseReleased"]) {
      await this.call("Input.dispatchMouseEvent", { type, x, y, button: "left", clickCount: 1 });
    }
  }

  /** A touch. */
  async tap(what) {
    const { x, y } = await this.#middle(what);
    await this.call("Input.dispatchTouchEvent", { type: "touchStart", touchPoints: [{ x, y }] });
    await this.call("Input.dispatchTouchEvent", { type: "touchEnd", touchPoints: [] });
  }

  /** Presses a key, as `ArrowDown`, `Enter` or `Tab`. */
  async key(key) {
    const code = { Enter: 13, Tab: 9, ArrowLeft: 37, ArrowUp: 38, ArrowRight: 39, ArrowDown: 40, Home: 36, End: 35 }[key];
    const text = key === "Enter" ? "\r" : undefined;
    await this.call("Input.dispatchKeyEvent", { type: "keyDown", key, code: key, windowsVirtualKeyCode: code, text });
    await this.call("Input.dispatchKeyEvent", { type: "keyUp", key, code: key, windowsVirtualKeyCode: code });
  }

  /** Types a text into a field, in place of what it holds. */
  async type(what, text) {
    await this.click(what);
    await this.until(`document.activeElement === (${FIND})(${JSON.stringify(what)})`, true, `${what} has the focus`);
    await this.value("document.activeElement.select()");
    await this.call("Input.insertText", { text });
  }

  /** Chooses an option of a list. */
  choose(selector, value) {
    return this.value(`(() => {
      const list = document.querySelector(${JSON.stringify(selector)});
      list.value = ${JSON.stringify(value)};
      list.dispatchEvent(new Event("change", { bubbles: true }));
    })()`);
  }

  /** A picture of the top of the page, at a size. */
  async picture(file, size) {
    await this.look(size);
    await this.value("document.activeElement.blur(), scrollTo(0, 0)");
    await later(300);
    const { data } = await this.call("Page.captureScreenshot", { format: "png" });
    writeFileSync(file, Buffer.from(data, "base64"));
  }
}

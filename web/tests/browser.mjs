// A headless browser that shows a page. Both are driven by WebDriver BiDi: Firefox has it itself, and Chromium by its
// chromedriver. Debian has no client of it that both know (its python3-selenium drives each by the older protocol), so
// bidi.mjs is one. What BiDi lacks, as a dark scheme, paper, a touched screen and a drop of files, each browser has in
// a way of its own, at the end of this file.

import { spawn } from "node:child_process";
import { mkdirSync } from "node:fs";
import { Bidi } from "./bidi.mjs";
import { actionsOf } from "./keys.mjs";

/** What is called in the page: values come as JSON, and the answer goes back as JSON. */
const called = (body) =>
  `async (text) => {
    const values = JSON.parse(text);
    const answer = await (async () => { ${body} })();
    return JSON.stringify({ answer });
  }`;

/** The text in what a process says that fits a pattern. */
const said = (stream, pattern) =>
  new Promise((done, fail) => {
    let text = "";
    stream.on("data", (data) => {
      text += data;
      const found = pattern.exec(text);
      if (found) done(found[1]);
    });
    stream.on("end", () => fail(new Error(`it ends with: ${text}`)));
  });

class Browser {
  isTouched = false;
  #faults = [];

  constructor(run, bidi) {
    this.run = run;
    this.bidi = bidi;
  }

  /** Takes the tab that is there, and listens to the errors of pages. */
  async begin() {
    const { contexts } = await this.bidi.send("browsingContext.getTree");
    this.context = contexts[0].context;
    this.bidi.listen((entry) => this.#heard(entry));
    await this.bidi.send("session.subscribe", { events: ["log.entryAdded"] });
    await this.size(1280, 900);
    return this;
  }

  /** Firefox also tells what the policy of a page stops, as the icon of a server that the browser itself asks for. */
  #heard({ type, level, text }) {
    const isOfScript = (type === "javascript" && !text.startsWith("Content-Security-Policy")) || type === "console";
    if (level === "error" && isOfScript) this.#faults.push(text);
  }

  /** The errors that no script of a page has caught, and those that one has told the console, since the last call. */
  async faults() {
    return this.#faults.splice(0);
  }

  /** A command of BiDi for the tab. */
  inTab(method, params = {}) {
    return this.bidi.send(method, { context: this.context, ...params });
  }

  async size(width, height) {
    await this.inTab("browsingContext.setViewport", { viewport: { width, height } });
  }

  async go(url) {
    await this.inTab("browsingContext.navigate", { url, wait: "complete" });
  }

  /** What the body of a function answers in the page, called with these values. */
  async runIn(body, ...values) {
    const { type, result, exceptionDetails } = await this.bidi.send("script.callFunction", {
      functionDeclaration: called(body),
      arguments: [{ type: "string", value: JSON.stringify(values) }],
      target: { context: this.context },
      awaitPromise: true,
    });
    if (type === "exception") throw new Error(exceptionDetails.text);
    return JSON.parse(result.value).answer;
  }

  async upload(selector, files) {
    const { nodes } = await this.inTab("browsingContext.locateNodes", { locator: { type: "css", value: selector } });
    await this.inTab("input.setFiles", { element: nodes[0], files });
  }

  /** Presses a key as a keyboard does: "Tab", or "Shift+Tab". */
  async press(name) {
    await this.inTab("input.performActions", { actions: actionsOf(name) });
  }

  /** Draws a mouse with its button from one point to another. */
  async draw(from, to) {
    const move = ([x, y]) => ({ type: "pointerMove", x: Math.round(x), y: Math.round(y), duration: 20 });
    const middle = [(from[0] + to[0]) / 2, (from[1] + to[1]) / 2];
    const [down, up] = ["pointerDown", "pointerUp"].map((type) => ({ type, button: 0 }));
    const actions = [move(from), down, move(middle), move(to), up];
    const mouse = { type: "pointer", id: "mouse", parameters: { pointerType: "mouse" }, actions };
    await this.inTab("input.performActions", { actions: [mouse] });
  }

  async picture() {
    const { data } = await this.inTab("browsingContext.captureScreenshot");
    return Buffer.from(data, "base64");
  }

  async close() {
    const ended = new Promise((done) => this.run.on("exit", done));
    await this.bidi.send("browser.close").catch(() => {});
    this.run.kill();
    await ended;
  }
}

export class Firefox extends Browser {
  name = "Firefox";

  static async open(folder) {
    const profile = `${folder}/firefox`;
    mkdirSync(profile, { recursive: true });
    const driven = ["--remote-debugging-port", "0", "--remote-allow-system-access"];
    const words = ["--headless", ...driven, "--no-remote", "--profile", profile];
    const env = { ...process.env, HOME: folder };
    const run = spawn("firefox-esr", words, { stdio: ["ignore", "ignore", "pipe"], env });
    const bidi = await Bidi.open(`${await said(run.stderr, /WebDriver BiDi listening on (ws:\S+)/)}/session`);
    await bidi.send("session.new", { capabilities: {} });
    const browser = await new Firefox(run, bidi).begin();
    // The field for addresses has the focus at first, and then a page draws none.
    await browser.#inBrowser("gBrowser.selectedBrowser.focus()");
    return browser;
  }

  /** Runs a script in the window of the browser itself. */
  async #inBrowser(expression) {
    const { contexts } = await this.bidi.send("browsingContext.getTree", { "moz:scope": "chrome", maxDepth: 0 });
    const ran = { expression, target: { context: contexts[0].context }, awaitPromise: false };
    const { type, exceptionDetails } = await this.bidi.send("script.evaluate", ran);
    if (type === "exception") throw new Error(exceptionDetails.text);
  }

  /** Sets a number among the preferences, or with null takes it back. */
  #prefer(name, number) {
    const call = number === null ? `clearUserPref("${name}")` : `setIntPref("${name}", ${number})`;
    return this.#inBrowser(`Services.prefs.${call}`);
  }

  dark(is) {
    return this.#prefer("layout.css.prefers-color-scheme.content-override", is ? 0 : 1);
  }

  /** Whether the page is laid out as on paper, and whether the system has all colours. */
  paper(is) {
    return this.#inBrowser(`gBrowser.selectedBrowser.browsingContext.mediumOverride = "${is ? "print" : ""}"`);
  }

  forced(is) {
    return this.#prefer("browser.display.document_color_use", is ? 2 : null);
  }

  /** Whether it has a screen that is touched, as a phone; pages that are opened then see it. */
  touch(is) {
    return this.#prefer("ui.primaryPointerCapabilities", is ? 1 : null);
  }
}

export class Chromium extends Browser {
  name = "Chromium";

  static async open(folder) {
    const run = spawn("chromedriver", ["--port=0"], { stdio: ["ignore", "pipe", "ignore"] });
    const port = await said(run.stdout, /successfully on port (\d+)/);
    const args = ["--headless=new", "--no-sandbox", "--disable-gpu", `--user-data-dir=${folder}/chromium`];
    const options = { binary: "/usr/bin/chromium", args };
    const alwaysMatch = { webSocketUrl: true, unhandledPromptBehavior: "ignore", "goog:chromeOptions": options };
    const body = JSON.stringify({ capabilities: { alwaysMatch } });
    const sessions = `http://127.0.0.1:${port}/session`;
    const { value } = await (await fetch(sessions, { method: "POST", body })).json();
    if (value.error) throw new Error(`${value.error}: ${value.message}`);
    const browser = new Chromium(run, await Bidi.open(value.capabilities.webSocketUrl));
    browser.at = `${sessions}/${value.sessionId}`;
    return browser.begin();
  }

  /** Ends the session first, for which its driver waits: one that is ended before may leave the browser behind. */
  async close() {
    await fetch(this.at, { method: "DELETE" }).catch(() => {});
    await super.close();
  }

  /** A command of Chromium's own protocol for the tab. */
  async #own(method, params) {
    this.session ??= (await this.inTab("goog:cdp.getSession")).session;
    await this.bidi.send("goog:cdp.sendCommand", { method, params, session: this.session });
  }

  async size(width, height) {
    this.sized = { width, height };
    const metrics = { width, height, deviceScaleFactor: 1, mobile: this.isTouched };
    await this.#own("Emulation.setDeviceMetricsOverride", metrics);
  }

  /** What a page takes the screen for. */
  media = { media: "", "prefers-color-scheme": "light", "forced-colors": "none" };

  async #emulate(change) {
    Object.assign(this.media, change);
    const { media, ...features } = this.media;
    const listed = Object.entries(features).map(([name, value]) => ({ name, value }));
    await this.#own("Emulation.setEmulatedMedia", { media, features: listed });
  }

  dark(is) {
    return this.#emulate({ "prefers-color-scheme": is ? "dark" : "light" });
  }

  /** Whether the page is laid out as on paper, and whether the system has all colours. */
  paper(is) {
    return this.#emulate({ media: is ? "print" : "" });
  }

  forced(is) {
    return this.#emulate({ "forced-colors": is ? "active" : "none" });
  }

  /** Whether it has a screen that is touched, as a phone; pages that are opened then see it. */
  async touch(is) {
    this.isTouched = is;
    await this.#own("Emulation.setTouchEmulationEnabled", { enabled: is });
    await this.size(this.sized.width, this.sized.height);
  }

  /** Drops files and folders as a desktop does. */
  async dropPaths(files) {
    const data = { items: [], files, dragOperationsMask: 1 };
    for (const type of ["dragEnter", "dragOver", "drop"]) {
      await this.#own("Input.dispatchDragEvent", { type, x: 200, y: 70, data });
    }
  }
}

// Browsers as the tests of the page drive them, without a library: each opens an address, evaluates an expression
// and takes a picture.
import {spawn, spawnSync} from "node:child_process";
import {mkdtempSync, rmSync} from "node:fs";
import {connect} from "node:net";
import {tmpdir} from "node:os";
import {join} from "node:path";

export const sleep = time => new Promise(done => setTimeout(done, time));
const isInstalled = name => spawnSync("which", [name]).status === 0;
// (a process of the browser may still write)
const removed = path => rmSync(path, {recursive: true, force: true, maxRetries: 9, retryDelay: 200});
const folder = () => mkdtempSync(join(tmpdir(), "playground-"));

// Answers by the numbers of the questions.
class Questions {
  constructor() {
    this.number = 0;
    this.waiting = new Map();
  }

  ask(send) {
    return new Promise(done => {
      this.waiting.set(++this.number, done);
      send(this.number);
    });
  }

  answer(number, said) {
    this.waiting.get(number)?.(said);
    this.waiting.delete(number);
  }
}

// By the DevTools protocol over a pipe.
class Chromium {
  static name = "Chromium";
  static isHere = () => isInstalled("chromium");

  // script: what runs before the page's own.
  async begin({width, height, script = ""}) {
    this.profile = folder();
    this.errors = [];
    this.questions = new Questions();
    this.process = spawn(
        "chromium",
        [
          "--headless", "--no-sandbox", "--disable-gpu", "--remote-debugging-pipe",
          `--user-data-dir=${this.profile}`, `--window-size=${width},${height}`, "about:blank"
        ],
        {stdio: ["ignore", "ignore", "ignore", "pipe", "pipe"]});
    this.listen();
    const {targetInfos} = await this.ask("Target.getTargets");
    const {targetId} = targetInfos.find(it => it.type === "page");
    this.sessionId = (await this.ask("Target.attachToTarget", {targetId, flatten: true})).sessionId;
    for (const domain of ["Runtime", "Log", "Page"]) await this.ask(`${domain}.enable`);
    await this.ask("Page.addScriptToEvaluateOnNewDocument", {source: script});
    // (the window has a frame, too)
    await this.ask("Emulation.setDeviceMetricsOverride", {width, height, deviceScaleFactor: 1, mobile: false});
  }

  listen() {
    let left = "";
    this.process.stdio[4].on("data", data => {
      const texts = (left + data).split("\0");
      left = texts.pop();
      for (const text of texts) this.hear(JSON.parse(text));
    });
  }

  hear(said) {
    const {method, params} = said;
    if (method === "Runtime.exceptionThrown")
      this.errors.push(params.exceptionDetails.exception?.description ?? "an exception");
    if (method === "Log.entryAdded" && params.entry.level === "error") this.errors.push(params.entry.text);
    if (said.id) this.questions.answer(said.id, said.result ?? said);
  }

  ask(method, params = {}) {
    const {sessionId} = this;
    return this.questions.ask(
        id => this.process.stdio[3].write(`${JSON.stringify({id, method, params, sessionId})}\0`));
  }

  open(url) {
    return this.ask("Page.navigate", {url});
  }

  async value(expression) {
    const got = await this.ask("Runtime.evaluate", {expression, returnByValue: true, awaitPromise: true});
    return got.result?.value;
  }

  // A key as a person presses it, by its name, with Ctrl where asked.
  async press(key, {code = key, ctrl = false, text} = {}) {
    const number = {Enter: 13, Escape: 27, Tab: 9}[key];
    const event = {key, code, windowsVirtualKeyCode: number, modifiers: ctrl ? 2 : 0, text};
    await this.ask("Input.dispatchKeyEvent", {type: "keyDown", ...event});
    await this.ask("Input.dispatchKeyEvent", {type: "keyUp", ...event});
  }

  async picture() {
    return Buffer.from((await this.ask("Page.captureScreenshot", {format: "png"})).data, "base64");
  }

  async end() {
    const ended = new Promise(done => this.process.once("exit", done));
    await this.ask("Browser.close");
    await ended;
    removed(this.profile);
  }
}

// By Marionette, on a port of this machine.
class Firefox {
  static name = "Firefox";
  static isHere = () => isInstalled("firefox-esr");

  async begin({width, height}) {
    this.profile = folder();
    this.errors = [];
    this.questions = new Questions();
    this.process = spawn(
        "firefox-esr",
        [
          "--headless", "--marionette", "--no-remote", "--profile", this.profile, "--width", width, "--height",
          height
        ],
        {stdio: "ignore"});
    this.socket = await this.connected();
    this.listen();
    await this.ask("WebDriver:NewSession");
  }

  async connected() {
    for (let tries = 0; tries < 100; tries++) {
      const socket = await new Promise(done => {
        const made = connect(2828, "127.0.0.1", () => done(made));
        made.on("error", () => done(null));
      });
      if (socket) return socket;
      await sleep(300);
    }
    throw new Error("Firefox doesn't answer");
  }

  // A message is its length, a colon and a text.
  listen() {
    let left = Buffer.alloc(0);
    this.socket.on("data", data => {
      left = Buffer.concat([left, data]);
      for (let colon = left.indexOf(":"); colon >= 0; colon = left.indexOf(":")) {
        const end = colon + 1 + Number(left.subarray(0, colon));
        if (left.length < end) return;
        const said = JSON.parse(left.subarray(colon + 1, end));
        left = left.subarray(end);
        if (Array.isArray(said)) this.questions.answer(said[1], said[2] ? {error: said[2]} : said[3]);
      }
    });
  }

  ask(name, params = {}) {
    return this.questions.ask(number => {
      const text = JSON.stringify([0, number, name, params]);
      this.socket.write(`${Buffer.byteLength(text)}:${text}`);
    });
  }

  async open(url) {
    // (an address that differs only after its # loads no page)
    await this.ask("WebDriver:Navigate", {url: "about:blank"});
    await this.ask("WebDriver:Navigate", {url});
  }

  async value(expression) {
    const script = `const done = arguments[0]; Promise.resolve(${expression}).then(done);`;
    return (await this.ask("WebDriver:ExecuteAsyncScript", {script, args: []})).value;
  }

  async picture() {
    return Buffer.from((await this.ask("WebDriver:TakeScreenshot", {full: false})).value, "base64");
  }

  async end() {
    const ended = new Promise(done => this.process.once("exit", done));
    await this.ask("Marionette:Quit", {flags: ["eForceQuit"]});
    this.socket.destroy();
    await ended;
    removed(this.profile);
  }
}

// WebKitGTK's MiniBrowser by WebDriver, on a display of its own.
class WebKit {
  static name = "WebKitGTK";
  static binary = "/usr/lib/x86_64-linux-gnu/webkit2gtk-4.1/MiniBrowser";
  static isHere = () => isInstalled("WebKitWebDriver") && isInstalled("Xvfb") && isInstalled(WebKit.binary);

  async begin({width, height}) {
    this.errors = [];
    this.display = spawn("Xvfb", [":77", "-screen", "0", `${width}x${height}x24`], {stdio: "ignore"});
    await sleep(700);
    const env = {
      ...process.env,
      DISPLAY: ":77",
      WEBKIT_DISABLE_SANDBOX_THIS_IS_DANGEROUS: "1",
      WEBKIT_DISABLE_COMPOSITING_MODE: "1",
      LIBGL_ALWAYS_SOFTWARE: "1"
    };
    this.process = spawn("WebKitWebDriver", ["--port=4445"], {stdio: "ignore", env});
    await sleep(1000);
    const browser = {binary: WebKit.binary, args: ["--automation"]};
    const made =
        await this.ask("POST", "/session", {capabilities: {alwaysMatch: {"webkitgtk:browserOptions": browser}}});
    this.session = `/session/${made.sessionId}`;
  }

  async ask(method, path, body) {
    const got = await fetch(`http://127.0.0.1:4445${path}`, {method, body: body && JSON.stringify(body)});
    return (await got.json()).value;
  }

  async open(url) {
    await this.ask("POST", `${this.session}/url`, {url: "about:blank"});
    await this.ask("POST", `${this.session}/url`, {url});
  }

  value(expression) {
    const script = `const done = arguments[0]; Promise.resolve(${expression}).then(done);`;
    return this.ask("POST", `${this.session}/execute/async`, {script, args: []});
  }

  async picture() {
    return Buffer.from(await this.ask("GET", `${this.session}/screenshot`), "base64");
  }

  async end() {
    await this.ask("DELETE", this.session);
    this.process.kill();
    this.display.kill();
  }
}

export const BROWSERS = [Chromium, Firefox, WebKit];

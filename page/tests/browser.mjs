/** A Chromium without a window, driven by its DevTools protocol over pipes; it asks for nothing but Node. */
import { spawn } from "node:child_process";
import { mkdtempSync, rmSync, writeFileSync } from "node:fs";
import { tmpdir } from "node:os";
import { join } from "node:path";
import { setTimeout as pause } from "node:timers/promises";

const WORDS = [
  "--headless=new",
  "--no-sandbox",
  "--disable-gpu",
  "--disable-dev-shm-usage",
  "--no-first-run",
  "--no-default-browser-check",
  "--remote-debugging-pipe",
];

export class Browser {
  #child;
  #folder = mkdtempSync(join(tmpdir(), "jp-browser-"));
  #waiting = new Map();
  #number = 0;
  #rest = "";
  #target;
  #session;
  #window;
  /** What the page logged or threw, and what it asked the network for. */
  complaints = [];

  constructor(program) {
    const words = [...WORDS, `--user-data-dir=${this.#folder}`, "about:blank"];
    this.#child = spawn(program, words, { stdio: ["ignore", "ignore", "ignore", "pipe", "pipe"] });
    this.#child.stdio[4].setEncoding("utf8").on("data", (part) => this.#read(part));
    this.#child.on("exit", () => this.#waiting.forEach(({ reject }) => reject(new Error("the browser ended"))));
  }

  #read(part) {
    const messages = (this.#rest + part).split("\0");
    this.#rest = messages.pop();
    for (const message of messages.map((text) => JSON.parse(text))) {
      const { resolve, reject } = this.#waiting.get(message.id) ?? {};
      this.#waiting.delete(message.id);
      if (message.error) {
        reject(new Error(message.error.message));
      } else if (resolve) {
        resolve(message.result);
      } else {
        this.#hear(message);
      }
    }
  }

  #hear({ method, params }) {
    if (method === "Runtime.exceptionThrown") {
      this.complaints.push(params.exceptionDetails.exception?.description ?? params.exceptionDetails.text);
    } else if (method === "Log.entryAdded") {
      this.complaints.push(params.entry.text);
    } else if (method === "Network.requestWillBeSent" && !/^(file|blob|data):/.test(params.request.url)) {
      this.complaints.push(`a request: ${params.request.url}`);
    }
  }

  /** Calls the browser, or a page of it by its session. */
  #call(method, params, sessionId) {
    this.#number += 1;
    const id = this.#number;
    this.#child.stdio[3].write(`${JSON.stringify({ id, method, params, sessionId })}\0`);
    return new Promise((resolve, reject) => this.#waiting.set(id, { resolve, reject }));
  }

  /** Lets pages do what browsers ask users for, as "clipboardReadWrite". */
  allow(...permissions) {
    return this.#call("Browser.grantPermissions", { permissions });
  }

  /** Calls the page that is open. */
  send(method, params = {}) {
    return this.#call(method, params, this.#session);
  }

  /**
   * Opens a page of this width in a scheme of colors, "light" or "dark", where `motion` may be wanted "reduce"d. A
   * script `before` runs in it first.
   */
  async open(address, { width = 1280, height = 900, scheme = "light", motion = "no-preference", before = "" } = {}) {
    if (this.#target) {
      await this.#call("Target.closeTarget", { targetId: this.#target });
    }
    this.#target = (await this.#call("Target.createTarget", { url: "about:blank" })).targetId;
    this.#session = (await this.#call("Target.attachToTarget", { targetId: this.#target, flatten: true })).sessionId;
    for (const domain of ["Page", "Runtime", "Log", "Network"]) {
      await this.send(`${domain}.enable`);
    }
    this.#window = { width, height };
    await this.#resize(this.#window);
    const features = Object.entries({ "prefers-color-scheme": scheme, "prefers-reduced-motion": motion });
    await this.send("Emulation.setEmulatedMedia", { features: features.map(([name, value]) => ({ name, value })) });
    await this.send("Page.addScriptToEvaluateOnNewDocument", { source: before });
    await this.send("Page.navigate", { url: address });
  }

  #resize({ width, height }) {
    const words = { width, height, deviceScaleFactor: 1, mobile: width < 600 };
    return this.send("Emulation.setDeviceMetricsOverride", words);
  }

  /** The value of an expression in the page. */
  async value(expression) {
    const answer = await this.send("Runtime.evaluate", { expression, returnByValue: true, awaitPromise: true });
    if (answer.exceptionDetails) {
      throw new Error(answer.exceptionDetails.exception?.description ?? answer.exceptionDetails.text);
    }
    return answer.result.value;
  }

  /** Waits until an expression is true in the page, for at most 60 seconds. */
  async until(expression) {
    for (let tries = 0; tries < 1200; tries += 1) {
      if (await this.value(`Boolean(${expression})`).catch(() => false)) {
        return;
      }
      await pause(50);
    }
    throw new Error(`is not so after 60 seconds: ${expression}`);
  }

  /** A picture of the whole page. */
  async picture(file) {
    const height = await this.value("document.documentElement.scrollHeight");
    await this.#resize({ ...this.#window, height });
    const { data } = await this.send("Page.captureScreenshot", { format: "png" });
    writeFileSync(file, Buffer.from(data, "base64"));
    await this.#resize(this.#window);
  }

  async close() {
    const ended = new Promise((resolve) => this.#child.once("exit", resolve));
    await this.#call("Browser.close", {}).catch(() => {});
    await ended;
    rmSync(this.#folder, { recursive: true, force: true, maxRetries: 5 });
  }
}

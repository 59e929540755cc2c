/** A headless Chromium that is driven by its DevTools protocol. Node wants --experimental-websocket for it. */
import { spawn } from "node:child_process";
import { mkdtempSync, rmSync } from "node:fs";
import { tmpdir } from "node:os";
import { join } from "node:path";

const SWITCHES = ["--headless=new", "--no-sandbox", "--disable-gpu", "--remote-debugging-port=0", "--no-first-run", "--disable-extensions"];

/** One page of a browser of its own. `errors` has what came on its console, and what was thrown. */
export class Page {
  errors = [];
  #process;
  #folder;
  #socket;
  #session;
  #number = 0;
  #waiting = new Map();

  static async open(browser) {
    const page = new Page();
    page.#folder = mkdtempSync(join(tmpdir(), "pbcube-page-"));
    const words = [...SWITCHES, `--user-data-dir=${page.#folder}`, "about:blank"];
    page.#process = spawn(browser, words, { stdio: ["ignore", "ignore", "pipe"] });
    page.#socket = await connected(await address(page.#process));
    page.#socket.onmessage = ({ data }) => page.#hear(JSON.parse(data));
    const { targetId } = await page.call("Target.createTarget", { url: "about:blank" });
    page.#session = (await page.call("Target.attachToTarget", { targetId, flatten: true })).sessionId;
    for (const name of ["Page", "Runtime", "Log"]) await page.call(`${name}.enable`);
    return page;
  }

  /** What the browser answers to a call. */
  call(method, params = {}) {
    const id = ++this.#number;
    this.#socket.send(JSON.stringify({ id, method, params, sessionId: this.#session }));
    return new Promise((resolve, reject) => this.#waiting.set(id, { resolve, reject }));
  }

  #hear({ id, result, error, method, params }) {
    if (id) {
      const { resolve, reject } = this.#waiting.get(id);
      this.#waiting.delete(id);
      if (error) reject(new Error(error.message));
      else resolve(result);
    } else if (method === "Runtime.exceptionThrown") {
      this.errors.push(params.exceptionDetails.exception?.description ?? params.exceptionDetails.text);
    } else if (method === "Runtime.consoleAPICalled" && params.type === "error") {
      this.errors.push(params.args.map((it) => it.value ?? it.description).join(" "));
    } else if (method === "Log.entryAdded" && params.entry.level === "error") {
      this.errors.push(params.entry.text);
    }
  }

  /** What an expression is worth in the page, or a function of these values. */
  async value(work, ...given) {
    const expression = typeof work === "string" ? work : `(${work})(${given.map((it) => JSON.stringify(it)).join(", ")})`;
    const { result, exceptionDetails } = await this.call("Runtime.evaluate", { expression, returnByValue: true, awaitPromise: true });
    if (exceptionDetails) throw new Error(exceptionDetails.exception?.description ?? exceptionDetails.text);
    return result.value;
  }

  /** Waits until such a value is true. */
  async until(work, ...given) {
    for (const end = Date.now() + 60_000; Date.now() < end; ) {
      if (await this.value(work, ...given)) return;
      await new Promise((resolve) => setTimeout(resolve, 20));
    }
    throw new Error(`it never came: ${work} of ${JSON.stringify(given)}; the page said ${this.errors}`);
  }

  async press(key, code, text) {
    const it = { key, code: key, windowsVirtualKeyCode: code };
    await this.call("Input.dispatchKeyEvent", { type: "keyDown", ...it, ...(text ? { text } : {}) });
    await this.call("Input.dispatchKeyEvent", { type: "keyUp", ...it });
  }

  async close() {
    const gone = new Promise((resolve) => this.#process.once("exit", resolve));
    this.#process.kill();
    await gone;
    rmSync(this.#folder, { recursive: true, force: true, maxRetries: 20, retryDelay: 100 });
  }
}

/** Where the browser listens, which it tells on standard error. */
function address(browser) {
  return new Promise((resolve, reject) => {
    let said = "";
    browser.stderr.on("data", (part) => {
      said += part;
      const told = /DevTools listening on (ws:\S+)/.exec(said);
      if (told) resolve(told[1]);
    });
    browser.once("exit", () => reject(new Error(said)));
    browser.once("error", reject);
  });
}

function connected(url) {
  const socket = new WebSocket(url);
  return new Promise((resolve, reject) => {
    socket.onopen = () => resolve(socket);
    socket.onerror = reject;
  });
}

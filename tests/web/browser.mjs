// A browser that is asked over a pipe (--remote-debugging-pipe), with no driver and no package, and a server for the folder web/.
import fs from 'node:fs';
import http from 'node:http';
import os from 'node:os';
import path from 'node:path';
import { spawn } from 'node:child_process';

const TYPES = { '.html': 'text/html; charset=utf-8', '.js': 'text/javascript', '.css': 'text/css', '.wasm': 'application/wasm' };

export async function serve(folder) {
  const server = http.createServer((request, response) => {
    const asked = path.normalize(new URL(request.url, 'http://localhost').pathname);
    const file = path.join(folder, asked === '/' ? 'index.html' : asked);
    fs.readFile(file, (error, octets) => {
      response.writeHead(error ? 404 : 200, { 'content-type': TYPES[path.extname(file)] ?? 'text/plain' });
      response.end(error ? '' : octets);
    });
  });
  await new Promise((done) => server.listen(0, '127.0.0.1', done));
  return { url: `http://127.0.0.1:${server.address().port}/`, close: () => server.close() };
}

const FLAGS = [
  '--headless=new', '--no-sandbox', '--disable-gpu', '--disable-dev-shm-usage', '--no-first-run', '--lang=ja', '--remote-debugging-pipe',
];

export class Browser {
  // errors that the browser told: exceptions, its console, breaches of the content security policy
  problems = [];
  // what a question of the page is answered
  agree = true;
  asked = [];
  requests = [];
  #waiting = new Map();
  #next = 1;
  #attached;

  static async start() {
    const browser = new Browser();
    browser.profile = fs.mkdtempSync(path.join(os.tmpdir(), 'sagebasket-'));
    const flags = [...FLAGS, `--user-data-dir=${browser.profile}`, 'about:blank'];
    browser.process = spawn(process.env.BROWSER || 'chromium', flags, { stdio: ['ignore', 'ignore', 'ignore', 'pipe', 'pipe'] });
    browser.#listen(browser.process.stdio[4]);
    await browser.tab();
    return browser;
  }

  // A new tab, to which all goes from now on; gives the way back to the one before.
  async tab() {
    const before = this.#attached;
    this.#attached = undefined;
    const { targetId } = await this.ask('Target.createTarget', { url: 'about:blank' });
    this.#attached = (await this.ask('Target.attachToTarget', { targetId, flatten: true })).sessionId;
    for (const domain of ['Page', 'Runtime', 'Log', 'Network', 'Accessibility']) await this.ask(`${domain}.enable`);
    return async () => {
      this.#attached = undefined;
      await this.ask('Target.closeTarget', { targetId });
      this.#attached = before;
    };
  }

  ask(method, params = {}) {
    return new Promise((done, fail) => {
      const id = this.#next++;
      this.#waiting.set(id, { done, fail, method });
      this.process.stdio[3].write(JSON.stringify({ id, method, params, ...(this.#attached ? { sessionId: this.#attached } : {}) }) + '\0');
    });
  }

  async value(expression) {
    const asked = { expression, awaitPromise: true, returnByValue: true, userGesture: true };
    const { result, exceptionDetails } = await this.ask('Runtime.evaluate', asked);
    if (exceptionDetails) throw new Error(JSON.stringify(exceptionDetails));
    return result.value;
  }

  async until(expression) {
    for (let tries = 0; tries < 500; tries++) {
      if (await this.value(expression)) return;
      await new Promise((done) => setTimeout(done, 10));
    }
    throw new Error(`never came: ${expression}`);
  }

  async open(url) {
    await this.ask('Page.navigate', { url });
    await this.until('document.documentElement?.dataset.ready === "true"');
  }

  // TEXT is what the key types; COMMANDS are the browser's own for it, as selectAll or paste.
  async key(key, { text, number, commands, modifiers } = {}) {
    const event = { key, windowsVirtualKeyCode: number, commands, modifiers };
    await this.ask('Input.dispatchKeyEvent', { type: text ? 'keyDown' : 'rawKeyDown', text, ...event });
    await this.ask('Input.dispatchKeyEvent', { type: 'keyUp', ...event });
  }

  // What the window shows, or the whole page.
  async shot(file, whole = false) {
    const { data } = await this.ask('Page.captureScreenshot', { format: 'png', captureBeyondViewport: whole });
    fs.writeFileSync(file, Buffer.from(data, 'base64'));
  }

  async close() {
    const gone = new Promise((done) => this.process.once('exit', done));
    this.#attached = undefined;
    await this.ask('Browser.close').catch(() => {});
    await gone;
    fs.rmSync(this.profile, { recursive: true, force: true });
  }

  #listen(pipe) {
    let rest = '';
    pipe.setEncoding('utf8').on('data', (data) => {
      const parts = (rest + data).split('\0');
      rest = parts.pop();
      for (const part of parts) this.#hear(JSON.parse(part));
    });
  }

  #hear({ id, error, result, method, params }) {
    if (id) {
      const { done, fail, method: asked } = this.#waiting.get(id);
      this.#waiting.delete(id);
      return error ? fail(new Error(`${asked}: ${error.message}`)) : done(result);
    }
    const told = () => this.problems.push(JSON.stringify(params).slice(0, 300));
    if (method === 'Runtime.exceptionThrown') told();
    if (method === 'Runtime.consoleAPICalled' && ['error', 'warning', 'assert'].includes(params.type)) told();
    if (method === 'Log.entryAdded' && ['error', 'warning'].includes(params.entry.level)) told();
    if (method === 'Network.requestWillBeSent') this.requests.push(params.request.url);
    if (method === 'Page.javascriptDialogOpening') {
      this.asked.push(params.message);
      this.ask('Page.handleJavaScriptDialog', { accept: this.agree });
    }
  }
}

/* Drives a headless Chromium by its DevTools protocol, over a pipe. */
import {spawn} from 'node:child_process';
import fs from 'node:fs';
import os from 'node:os';
import path from 'node:path';
import {setTimeout as sleep} from 'node:timers/promises';
import {pathToFileURL} from 'node:url';

const FLAGS = [
  '--headless=new', '--no-sandbox', '--disable-gpu', '--no-first-run', '--disable-extensions', '--disable-dev-shm-usage',
  '--remote-debugging-pipe'
];
const CLICK_DEPTH = 14; /* pixels below the top: so a click on a large element is on its first line */

/* The messages of the protocol: each is JSON, and ends with a zero byte. */
class Wire {
  constructor(child) {
    [this.out, this.in] = [child.stdio[3], child.stdio[4]];
    Object.assign(this, {next: 1, left: Buffer.alloc(0), waiting: new Map(), listeners: new Set()});
    this.in.on('data', piece => this.receive(piece));
  }
  receive(piece) {
    this.left = Buffer.concat([this.left, piece]);
    for (let end = this.left.indexOf(0); end >= 0; end = this.left.indexOf(0)) {
      this.dispatch(JSON.parse(this.left.subarray(0, end).toString()));
      this.left = this.left.subarray(end + 1);
    }
  }
  dispatch(message) {
    if (!message.id) {
      for (const listener of this.listeners) listener(message);
      return;
    }
    const {resolve, reject, method} = this.waiting.get(message.id);
    this.waiting.delete(message.id);
    message.error ? reject(new Error(`${method}: ${message.error.message}`)) : resolve(message.result);
  }
  send(method, params = {}, sessionId = undefined) {
    const id = this.next++;
    return new Promise((resolve, reject) => {
      this.waiting.set(id, {resolve, reject, method});
      this.out.write(`${JSON.stringify({id, method, params, sessionId})}\0`);
    });
  }
}

export class Page {
  constructor(wire, session) {
    Object.assign(this, {wire, session, errors: [], requests: []});
    wire.listeners.add(it => {
      if (it.sessionId === session) this.hear(it);
    });
  }
  hear({method, params}) {
    if (method === 'Runtime.exceptionThrown')
      this.errors.push(params.exceptionDetails.exception?.description ?? params.exceptionDetails.text);
    if (method === 'Runtime.consoleAPICalled' && params.type === 'error')
      this.errors.push(params.args.map(it => it.value ?? it.description).join(' '));
    if (method === 'Log.entryAdded' && params.entry.level === 'error') this.errors.push(params.entry.text);
    if (method === 'Network.requestWillBeSent') this.requests.push(params.request.url);
  }
  send(method, params) { return this.wire.send(method, params, this.session); }
  async go(url) {
    const loaded = new Promise(resolve => {
      const listener = it => {
        if (it.sessionId !== this.session || it.method !== 'Page.loadEventFired') return;
        this.wire.listeners.delete(listener);
        resolve();
      };
      this.wire.listeners.add(listener);
    });
    await this.send('Page.navigate', {url});
    await loaded;
  }
  async eval(expression) {
    const it = await this.send('Runtime.evaluate', {expression, awaitPromise: true, returnByValue: true});
    if (it.exceptionDetails) throw new Error(it.exceptionDetails.exception?.description ?? it.exceptionDetails.text);
    return it.result.value;
  }
  /* Calls a function of the page with these values. */
  call(name, ...values) { return this.eval(`(${name})(${values.map(it => JSON.stringify(it)).join(', ')})`); }
  async until(expression, ms = 60000) {
    for (const end = Date.now() + ms; Date.now() < end; await sleep(40))
      if (await this.eval(`!!(${expression})`)) return;
    throw new Error(`not so after ${ms} ms: ${expression}`);
  }
  texts(selector) { return this.eval(`[...document.querySelectorAll(${JSON.stringify(selector)})].map(it => it.textContent)`); }
  size(width, height, scale = 1) {
    return this.send('Emulation.setDeviceMetricsOverride', {width, height, deviceScaleFactor: scale, mobile: false});
  }
  scheme(value) { return this.send('Emulation.setEmulatedMedia', {features: [{name: 'prefers-color-scheme', value}]}); }
  async picture(file) {
    const {data} = await this.send('Page.captureScreenshot', {format: 'png'});
    fs.writeFileSync(file, Buffer.from(data, 'base64'));
  }
  async click(selector) {
    const place = await this.eval(`(() => {
      const it = document.querySelector(${JSON.stringify(selector)});
      if (!it) return null;
      it.scrollIntoView({ block: 'nearest' });
      const { x, y, width, height } = it.getBoundingClientRect();
      return { x: x + width / 2, y: y + Math.min(height / 2, ${CLICK_DEPTH}) };
    })()`);
    if (!place) throw new Error(`there is no ${selector}`);
    const mouse = (type, more) => this.send('Input.dispatchMouseEvent', {type, ...place, ...more});
    await mouse('mouseMoved', {});
    await mouse('mousePressed', {button: 'left', clickCount: 1});
    await mouse('mouseReleased', {button: 'left', clickCount: 1});
  }
  type(text) { return this.send('Input.insertText', {text}); }
  async key(key, {code = key, virtual = 0, modifiers = 0} = {}) {
    const event = {key, code, windowsVirtualKeyCode: virtual, modifiers};
    await this.send('Input.dispatchKeyEvent', {type: 'keyDown', ...event, text: key === 'Enter' ? '\r' : undefined});
    await this.send('Input.dispatchKeyEvent', {type: 'keyUp', ...event});
  }
}

export class Browser {
  constructor() {
    this.profile = fs.mkdtempSync(path.join(os.tmpdir(), 'web-test-'));
    this.child = spawn(process.env.CHROMIUM ?? 'chromium', [...FLAGS, `--user-data-dir=${this.profile}`, 'about:blank'],
        {stdio: ['ignore', 'ignore', 'ignore', 'pipe', 'pipe']});
    this.wire = new Wire(this.child);
  }
  async open() {
    const {targetId} = await this.wire.send('Target.createTarget', {url: 'about:blank'});
    const {sessionId} = await this.wire.send('Target.attachToTarget', {targetId, flatten: true});
    const page = new Page(this.wire, sessionId);
    for (const domain of ['Page', 'Runtime', 'Log', 'Network']) await page.send(`${domain}.enable`);
    return page;
  }
  async close() {
    const ended = new Promise(resolve => {
      this.child.once('exit', resolve);
    });
    this.wire.send('Browser.close').catch(() => {});
    await Promise.race([ended, sleep(5000).then(() => this.child.kill('SIGKILL'))]);
    fs.rmSync(this.profile, {recursive: true, force: true, maxRetries: 5});
  }
}

export const urlOf = file => pathToFileURL(path.resolve(file)).href;

/* Counts what passes and what fails. */
export class Count {
  constructor() { Object.assign(this, {passed: 0, failed: 0}); }
  is(what, wanted, found) {
    if (JSON.stringify(wanted) === JSON.stringify(found)) this.passed++;
    else {
      this.failed++;
      console.log(`failed: ${what}: ${JSON.stringify(found)}, and not ${JSON.stringify(wanted)}`);
    }
  }
  holds(what, is, found = '') { this.is(found === '' || is ? what : `${what}: ${found}`, true, Boolean(is)); }
  end() {
    console.log(`${this.passed} passed, ${this.failed} failed`);
    process.exitCode = this.failed ? 1 : 0;
  }
}

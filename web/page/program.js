'use strict';
/* The program: unpacked from the page, compiled once, and run by workers. */

const MEMORY_LIMIT = 2 ** 30; /* of one run, in bytes; beyond it the program answers that memory was refused */
const MEMORY64 =
    new Uint8Array([0, 97, 115, 109, 1, 0, 0, 0, 5, 3, 1, 4, 1]); /* a module with a 64-bit memory, and nothing else */

class Cancelled extends Error {}

/* A run that ended without an answer. */
class NoAnswer extends Error {
  constructor({cause, text: reported}) { super(`${CAUSES[cause]} The browser reports: ${reported}`); }
}

const CAUSES = {
  stack: 'The stack of the browser’s engine was full.',
  bounds: 'A memory access was out of bounds: the program’s stack of 1 MiB was full, or the browser has a fault.',
  trap: 'WebAssembly ended the run by a trap, which proved code never does: the browser or the step to WebAssembly has a fault.',
  memory: 'The browser has no memory for another run.',
  engine: 'The browser couldn’t run the program.',
};

async function unpack(id) {
  const packed = Uint8Array.from(atob($(id).textContent.trim()), it => it.charCodeAt(0));
  const stream = new Blob([packed]).stream().pipeThrough(new DecompressionStream('gzip'));
  return new Uint8Array(await new Response(stream).arrayBuffer());
}

/* A worker that runs one request after another. A new request of a topic replaces an earlier one of the same topic. */
class Lane {
  constructor(source, code) { Object.assign(this, {source, code, waiting: [], running: null, worker: null, next: 1}); }
  get isIdle() { return !this.running && this.waiting.length === 0; }
  start() {
    this.worker = new Worker(this.source);
    this.worker.postMessage({code: this.code});
    this.worker.onmessage = ({data}) => this.finish(data);
    this.worker.onerror = event =>
        this.finish({id: this.running?.id, failure: {cause: 'engine', text: event.message || 'the worker failed'}});
  }
  finish(answer) {
    if (!this.running || answer.id !== this.running.id) return;
    const {resolve, reject} = this.running;
    this.running = null;
    if (answer.failure) {
      this.stop();
      reject(new NoAnswer(answer.failure));
    } else resolve(answer);
    this.step();
  }
  ask(topic, request) {
    this.cancel(topic);
    return new Promise((resolve, reject) => {
      this.waiting.push({topic, request, resolve, reject, id: this.next++});
      this.step();
    });
  }
  step() {
    if (this.running || this.waiting.length === 0) return;
    if (!this.worker) this.start();
    this.running = this.waiting.shift();
    this.worker.postMessage({id: this.running.id, ...this.running.request});
  }
  stop() {
    this.worker.terminate();
    this.worker = null;
  }
  /* Drops the requests of a topic, or all. A run that is under way ends with its worker. */
  cancel(topic) {
    const isMeant = it => topic === undefined || it.topic === topic;
    const dropped = this.waiting.filter(isMeant);
    this.waiting = this.waiting.filter(it => !isMeant(it));
    if (this.running && isMeant(this.running)) {
      dropped.push(this.running);
      this.running = null;
      this.stop();
    }
    for (const it of dropped) it.reject(new Cancelled());
    this.step();
  }
}

const lanes = {};      /* `slow` has questions about two dictionaries, `quick` those about one, and about messages */
let shipped = null;    /* dictionaries, words of values and the table of what breaks, from the page */
let lastQuestion = ''; /* its command line, for the tab Command */

const sharedFiles = () => ({'A.txt': panes.a.text, 'B.txt': panes.b.text, 'values.txt': shipped.files['values.txt']});

/* Runs the program. Of the files it gets those that the words name. A `question` is what the user asked. */
async function run(lane, topic, words, {input, files = {}, question = false} = {}) {
  if (question) lastQuestion = words.map(it => it === '-' ? 'message.hex' : it).join(' ');
  const named = Object.entries({...sharedFiles(), ...files}).filter(([name]) => words.includes(name));
  return lanes[lane].ask(topic, {words, files: Object.fromEntries(named), input, limit: MEMORY_LIMIT});
}

/* Compiles the program, or throws an error that says what the browser lacks. */
async function load() {
  if (typeof WebAssembly !== 'object') throw new Error('it has no WebAssembly, or its settings forbid it.');
  if (!WebAssembly.validate(MEMORY64)) throw new Error('its WebAssembly has no 64-bit memory (memory64).');
  if (typeof DecompressionStream !== 'function') throw new Error('it has no DecompressionStream.');
  const [module, worker, data] = await Promise.all(['module', 'worker', 'data'].map(unpack));
  shipped = JSON.parse(new TextDecoder().decode(data));
  const code = await WebAssembly.compile(module);
  const source = URL.createObjectURL(new Blob([worker], {type: 'text/javascript'}));
  for (const name of ['slow', 'quick']) lanes[name] = new Lane(source, code);
  shipped.version = (await lanes.quick.ask('version', {words: ['--version']})).out.trim();
}

'use strict';
/* Runs the program once for each request that the page posts. Each run is an instance of its own, and so has memory of its own, as a
 * process has. Files, arguments and streams are those of c/os.c: all in memory. */

const NO_SUCH_FILE = -2, NO_WORD = -1n, NO_ROOM = -2n;
const encoder = new TextEncoder(), decoder = new TextDecoder();
let code = null;

const bytesOf = data => typeof data === 'string' ? encoder.encode(data) : data;

class Host {
  constructor({words, files = {}, input = ''}) {
    this.words = ['diacmd', ...words].map(bytesOf);
    this.files = new Map(Object.entries(files).map(([name, data]) => [name, bytesOf(data)]));
    this.streams = [{bytes: bytesOf(input), offset: 0}, {written: []}, {written: []}];
    this.memory = null;
  }
  at(address, count) { return new Uint8Array(this.memory.buffer, Number(address), Number(count)); }
  imports() {
    return {
      open: (name, length) => {
        const bytes = this.files.get(decoder.decode(this.at(name, length)));
        return bytes ? this.streams.push({bytes, offset: 0}) - 1 : NO_SUCH_FILE;
      },
      read: (number, to, room) => {
        const stream = this.streams[number];
        const piece = stream.bytes.subarray(stream.offset, stream.offset + Number(room));
        this.at(to, piece.length).set(piece);
        stream.offset += piece.length;
        return BigInt(piece.length);
      },
      write: (number, from, count) => {
        this.streams[number].written.push(this.at(from, count).slice());
        return count;
      },
      argument_count: () => BigInt(this.words.length),
      argument: (index, to, room) => {
        const word = this.words[Number(index)];
        if (!word) return NO_WORD;
        const piece = word.subarray(0, Number(room));
        this.at(to, piece.length).set(piece);
        return piece.length === word.length ? BigInt(word.length) : NO_ROOM;
      },
    };
  }
  text(number) {
    const stream = new TextDecoder();
    return this.streams[number].written.map(piece => stream.decode(piece, {stream: true})).join('') + stream.decode();
  }
}

/* Why there is no answer: the engine's own stack, or that of the program, which is below all of its data (web/build), was full; or
 * the engine couldn't make the instance; or anything else that it reports. */
function causeOf(error) {
  if (error instanceof RangeError && /stack|recursion/i.test(error.message) || error.name === 'InternalError') return 'stack';
  if (error instanceof WebAssembly.RuntimeError) return /out of bounds/i.test(error.message) ? 'bounds' : 'trap';
  return error instanceof RangeError ? 'memory' : 'engine';
}

function run(request) {
  const host = new Host(request);
  const began = performance.now();
  try {
    const {exports} = new WebAssembly.Instance(code, {host: host.imports()});
    host.memory = exports.memory;
    if (request.limit) exports.limit_heap(BigInt(request.limit));
    const status = exports.main(0, 0n);
    return {status, out: host.text(1), err: host.text(2), ms: performance.now() - began, bytes: host.memory.buffer.byteLength};
  } catch (error) {
    return {failure: {cause: causeOf(error), text: String(error)}};
  }
}

self.onmessage = ({data}) => {
  if (data.code) code = data.code;
  else postMessage({id: data.id, ...run(data)});
};

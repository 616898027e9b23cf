// Runs sancus.wasm under node, by the host of the page:  node tools/wasm/run.mjs FILE.wasm WORD.. <INPUT
// It reads when the program asks, and writes at once, so that a line is answered before the next one is there.
import {readFileSync, readSync, writeSync} from "node:fs";

const FAILED = 29;

const host = readFileSync(new URL("host.js", import.meta.url), "utf8");
const {Host, Ended} = new Function(`${host}; return {Host, Ended};`)();

// What a call on a stream gives, whose other end may have set it not to wait.
function whenReady(call) {
  for (;;) {
    try {
      return call();
    } catch (error) {
      if (error.code !== "EAGAIN") throw error;
      Atomics.wait(new Int32Array(new SharedArrayBuffer(4)), 0, 0, 2);
    }
  }
}

// A host over the streams of this process.
class Streams extends Host {
  fd_read(file, parts, count, got) {
    if (file !== 0) return super.fd_read(file, parts, count, got);
    const at = this.number(parts), into = this.bytes().subarray(at, at + this.number(parts + 4));
    return this.tried(() => this.store(got, whenReady(() => readSync(0, into))));
  }

  fd_write(file, parts, count, took) {
    return this.tried(() => super.fd_write(file, parts, count, took));
  }

  tried(call) {
    try {
      return call() ?? 0;
    } catch {
      return FAILED;
    }
  }
}

function writeAll(bytes) {
  for (let at = 0; at < bytes.length;) at += whenReady(() => writeSync(1, bytes, at));
}

const [file, ...words] = process.argv.slice(2);
const streams = new Streams(["sancus", ...words], null, writeAll);
const {exports} = new WebAssembly.Instance(new WebAssembly.Module(readFileSync(file)), streams.imports());
streams.memory = exports.memory;
try {
  exports._start();
} catch (end) {
  if (!(end instanceof Ended)) throw end;
  process.exitCode = end.status;
}

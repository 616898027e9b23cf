// Runs the program that this page holds, each time in a worker of its own that can be stopped.

const MOST_OUTPUT = 1 << 28;

const bytesOf = text => Uint8Array.from(atob(text), letter => letter.charCodeAt(0));

async function unpacked(id) {
  const packed = new Blob([bytesOf(byId(id).textContent.trim())]);
  return new Response(packed.stream().pipeThrough(new DecompressionStream("gzip"))).arrayBuffer();
}

// What the browser lacks of what a run needs, or nothing.
function missing() {
  if (typeof WebAssembly === "undefined") return "WebAssembly";
  return ["DecompressionStream", "Worker"].find(name => !(name in globalThis)) ?? "";
}

class Runner {
  constructor(onBusy) {
    this.onBusy = onBusy;
    this.worker = this.done = null;
    this.code = URL.createObjectURL(new Blob([byId("worker").textContent], {type: "text/javascript"}));
    this.module = unpacked("program").then(bytes => WebAssembly.compile(bytes));
  }

  // {status, text, time, memory}, or {error}.
  async start(word, text) {
    let module;
    try {
      module = await this.module;
    } catch (error) {
      return {error: `the program doesn't load: ${error.message}`};
    }
    this.stop("another run began");
    const input = new TextEncoder().encode(text);
    return new Promise(done => {
      this.done = done;
      this.worker = new Worker(this.code);
      this.worker.onerror = event => this.stop(event.message || "the worker failed");
      this.worker.onmessage = async ({data}) => {
        const whole = data.error ? data : {...data, text: await new Blob(data.parts).text()};
        if (this.done === done) this.end(whole);
      };
      this.worker.postMessage({module, word, input, most: MOST_OUTPUT});
      this.onBusy(true);
    });
  }

  stop(why) {
    if (this.done) this.end({error: why});
  }

  end(ended) {
    this.worker.terminate();
    const {done} = this;
    this.worker = this.done = null;
    this.onBusy(false);
    done(ended);
  }
}

// What a worker does: one run, whose output it hands back whole.

const encoded = text => new TextEncoder().encode(text);

// An input of which more is made when the program asks for it.
class Feed {
  constructor(begin, more) {
    Object.assign(this, {bytes: encoded(begin), base: 0, more});
  }

  subarray(from, to) {
    if (from - this.base >= this.bytes.length) {
      this.base += this.bytes.length;
      this.bytes = encoded(this.more());
    }
    return this.bytes.subarray(from - this.base, to - this.base);
  }
}

// A run of lines for people: each line of the schedule is given to the program when the items of the one before were seen.
class Session {
  constructor(module, text) {
    const lines = splitLines(text), mark = lines.indexOf("%%"), second = lines.indexOf("%%", mark + 1);
    this.module = module;
    this.head = headOf(text);
    this.lines = lines.slice(0, second < 0 ? lines.length : second).map((text, at) => ({text, number: at + 1})).slice(mark + 1);
    this.rest = second < 0 ? [] : lines.slice(second);
    this.writer = new Writer(new Plan(this.wrote("describe", `${this.head}%%\n`)), (...asked) => this.read(...asked));
    this.network = new Network(this.writer);
    this.output = "";
    this.notes = [];
    this.at = null;
  }

  * all() {
    for (const {text, number} of this.lines) {
      this.at = number;
      yield* this.writer.line(text, number);
      this.network.note(text);
      this.notes.push(...this.writer.notes.splice(0).map(words => ({words, line: number})));
    }
  }

  run() {
    const steps = this.all(), decoder = new TextDecoder();
    const more = () => {
      // (the line itself comes before its items)
      const {value, done} = steps.next(splitLines(this.output).slice(1));
      this.output = "";
      return done ? "" : `${value}\n`;
    };
    const keep = part => this.output += decoder.decode(part, {stream: true});
    return runOnce(this.module, ["lines"], new Feed(`${this.head}%%\n`, more), keep);
  }

  // What the lines became, what they showed, what is on its way then, and the line that can't be done, with the fault or the words for it.
  result() {
    let wrong = null;
    try {
      this.run();
      const fault = /^fault schedule (\S+) /.exec(splitLines(this.output).at(-1) ?? "");
      if (fault) wrong = {line: this.at, rule: fault[1]};
    } catch (error) {
      if (!(error instanceof Mistake)) throw error;
      wrong = {line: this.at, words: error.message};
    }
    const lines = wrong?.rule ? this.writer.lines.slice(0, -1) : this.writer.lines;
    const events = wrong ? [] : this.network.events();
    return {notes: this.notes, wrong, events, parts: [[`${this.head}%%`, ...lines, ...this.rest, ""].join("\n")]};
  }

  // What a command prints of a text.
  wrote(word, text) {
    const parts = [];
    runOnce(this.module, [word], encoded(text), part => parts.push(new TextDecoder().decode(part)));
    return parts.join("");
  }

  // The first bytes at places of a node's memory after lines of a schedule.
  read(node, places, lines) {
    const queries = places.map(at => `bytes ${node} ${at} 6 ${lines.length}`);
    const answers = this.wrote("snap", [`${this.head}%%`, ...lines, "%%", ...queries, ""].join("\n"));
    const found = splitLines(answers).filter(it => it.startsWith("bytes "));
    return found.map(it => it.split(" ").at(-1).match(/../g).map(byte => parseInt(byte, 16)));
  }
}

function ran(module, word, input, most) {
  const parts = [];
  let size = 0;
  const keep = part => {
    size += part.length;
    if (size > most) throw new Error(`the output has more than ${most.toLocaleString("en")} bytes`);
    parts.push(part);
  };
  return {...runOnce(module, [word], input, keep), parts};
}

onmessage = ({data: {module, word, input, most}}) => {
  const begun = performance.now();
  try {
    const made = word === "people" ? new Session(module, new TextDecoder().decode(input)).result() : ran(module, word, input, most);
    postMessage({...made, time: performance.now() - begun});
  } catch (error) {
    postMessage({error: error.message || String(error)});
  }
};

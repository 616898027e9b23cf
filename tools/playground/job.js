// One command given to one text: what it reads, what came of it, and what is drawn of it.

// The output of `drive` as `run` writes it: without the lines of the schedule and the count of steps.
function traceOf(driven) {
  const lines = splitLines(driven).filter(line => !/^(> |steps )/.test(line));
  const isImage = line => line.startsWith("image ");
  return [...lines.filter(isImage), "trace", ...lines.filter(line => !isImage(line)), ""].join("\n");
}

// What `run` reads of what `snap` does: as far as a second line %%.
function asSchedule(text) {
  const lines = text.split("\n"), isMark = line => line === "%%" || line === "%%\r";
  const second = lines.findIndex((line, at) => isMark(line) && at > lines.findIndex(isMark));
  return second < 0 ? text : lines.slice(0, second).concat("").join("\n");
}

// A deployment with the mark that the program wants; the page takes it without.
function withMark(text) {
  return splitLines(text).includes("%%") ? text : `${text.replace(/\n?$/, "\n")}%%\n`;
}

// Whether one of the lines after the mark is for people, in a deployment that can be read.
function areForPeople(text) {
  const lines = splitLines(asSchedule(text)), mark = lines.indexOf("%%");
  const isOne = ([first, ...rest]) => PEOPLE.includes(first) || ["take", "forge", "ask"].includes(first) && rest.at(-2) === "as";
  return mark >= 0 && lines.slice(mark + 1).some(line => isOne(wordsOf(line))) && Boolean(Deployment.of(text)?.by.module.length);
}

class Job {
  // purpose: the command that the text is made for; start: runs a command on a text.
  constructor(word, text, purpose, start) {
    Object.assign(this, {word, text, purpose, start});
    this.run = null;
  }

  // `explain` judges the last run of this text, or a new one, if it has no trace.
  async does(last) {
    const refused = await this.translate();
    if (refused) return this.ended = refused;
    const isOfRun = this.word === "explain" && this.purpose !== "explain";
    if (isOfRun) this.run = last ?? await this.ran(this.purpose === "drive" ? "drive" : "run");
    const input = isOfRun ? this.judged(this.run.trace ?? "") : this.word === "check" ? withMark(this.text) : this.text;
    this.ended = await this.start(this.word, input);
    return this.ended;
  }

  // Lines for people become a schedule; what they became is run, also if a line can't be done.
  async translate() {
    this.people = null;
    if (this.word === "check" || !areForPeople(this.text)) return null;
    const made = await this.start("people", this.text);
    if (made.error) return made;
    this.people = made;
    this.text = made.text;
    return null;
  }

  async ran(word) {
    return this.withTrace(word, await this.start(word, word === "run" ? asSchedule(this.text) : this.text));
  }

  withTrace(word, ended) {
    const has = ended.text && (word === "drive" ? /^> /m : /^trace$/m).test(ended.text);
    return {...ended, trace: has ? (word === "drive" ? traceOf(ended.text) : ended.text) : null};
  }

  judged(trace) {
    return `${headOf(this.text)}%%\n${trace}`;
  }

  // The texts of the picture, by name; null if nothing is to be drawn.
  async drawn() {
    const {word, text, ended} = this;
    if (ended.error || word === "check") return null;
    if (word === "explain" && !this.run) return {...sortText(text), causes: ended.text, ...await this.read()};
    if (word === "snap") this.run = await this.ran("run");
    this.run ??= this.withTrace(word, ended);
    if (!this.run.trace) return null;
    const causes = word === "explain" ? ended : await this.start("explain", this.judged(this.run.trace));
    return {input: asSchedule(text), output: await this.byLine(), causes: causes.text ?? "", ...await this.read()};
  }

  // What `describe` prints of the deployment, and the modules' sources.
  async read() {
    const {text} = await this.start("describe", this.judged("")), modules = Deployment.of(this.text)?.by.module ?? [];
    return {described: text ?? "", sources: JSON.stringify(Object.fromEntries(modules.map(it => [it.name, it.source])))};
  }

  // The output with each line of the schedule before its items.
  async byLine() {
    const {text} = this.run;
    return /^> /m.test(text) ? text : (await this.start("lines", asSchedule(this.text))).text ?? text;
  }
}

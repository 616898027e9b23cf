// The desk beside the picture: it edits an input, runs the program on it, and tells what came of it.

// How many letters of an output are shown as text; the picture has all.
const MOST_SHOWN = 200_000;
const COMMANDS = ["run", "drive", "check", "explain", "snap"];
// The name of a text that came from a file, an address or a saved page.
const OPENED = "(opened)";
const KEYS = {
  "Ctrl+Enter": "give the input to the last command again",
  "Esc": "stop it"
};

class Desk {
  constructor() {
    byId("seen").append(...["notes", "drop", "main", "more"].map(byId));
    byId("desk").hidden = false;
    this.tellKeys();
    this.turn = 0;
    this.last = null;
    this.address = null;
    this.name = null;
    this.begun = null;
    this.editor = new Editor(() => this.isChanged());
    const lacks = missing();
    if (lacks) return this.refuse(lacks);
    this.runner = new Runner(busy => byId("do-stop").disabled = !busy);
    this.lesson = new Lesson(this);
    this.property = new PropertyPanel(this);
    this.live = new LivePanel(this);
    this.listen();
    this.begin();
  }

  tellKeys() {
    for (const key in KEYS) {
      const row = byId("keys").querySelector("table").insertRow();
      row.insertCell().append(html("kbd", "", key));
      row.insertCell().append(KEYS[key]);
    }
  }

  refuse(lacks) {
    for (const button of byId("desk").querySelectorAll("button, select, textarea")) button.disabled = true;
    this.say(html(
        "span", "fault",
        `This browser has no ${lacks}, so the program can't run here; files of runs can be opened and drawn.`));
    document.documentElement.dataset.done = "refused";
  }

  listen() {
    for (const word of COMMANDS) byId(`do-${word}`).onclick = () => this.does(word);
    byId("do-stop").onclick = () => this.stop();
    byId("do-link").onclick = () => this.link();
    byId("do-save").onclick = () => this.save();
    byId("example").onchange = event => this.take(this.sources.text(event.target.value), event.target.value);
    addEventListener("keydown", event => {
      if (event.key === "Enter" && (event.ctrlKey || event.metaKey)) this.does(this.word ?? this.purpose());
      if (event.key === "Escape") this.stop();
    });
    addEventListener("hashchange", () => location.hash !== this.address && this.begin());
    // what is chosen, dropped or pasted as a file is on the desk too
    page.onopen = texts => this.open(texts);
    this.draw = texts => {
      page.texts = texts;
      page.show();
    };
  }

  // Files of a run are drawn; an input, or a part of one, is put into the editor and run.
  open(texts) {
    const got = Object.assign({}, ...texts.map(sortText));
    const input = got.input ?? joinedInput(got, headOf(this.editor.text));
    if (!got.output && !got.causes && input) return this.take(input, OPENED);
    page.open(texts);
    if (page.texts.input) this.put(page.texts.input, OPENED);
  }

  // --- the origin of an input ---

  // The text that was here before the page was loaded again; else by the address an input or an example; else what the page
  // holds, what was written last, or an example. What isn't drawn yet is run.
  async begin() {
    this.sources ??= new Sources(JSON.parse(new TextDecoder().decode(await unpacked("examples"))));
    const asked = new URLSearchParams(location.hash.slice(1)), held = page.texts, {sources} = this;
    const word = COMMANDS.includes(asked.get("do")) ? asked.get("do") : null;
    const before = history.state?.name, lesson = asked.get("lesson");
    if (lesson !== null) return this.inLesson(Number(lesson), before ? sources.text(before) : null, before);
    if (asked.has("p")) this.property.open(await unpackedText(asked.get("p")).catch(() => ""));
    if (before && sources.text(before) !== null) return this.take(sources.text(before), before, word);
    if (asked.has("z")) return this.takeLinked(asked.get("z"), word);
    if (held.output && !this.turn) return this.hold(held);
    const wanted = asked.get("example");
    const name = sources.examples[wanted] ? wanted : sources.lastDraft ?? "readings";
    await this.take(sources.text(name), name, word);
    page.followAddress();
  }

  // A lesson, with what was written in it before the page was loaded again.
  inLesson(number, text, name) {
    if (text !== null) this.put(text, name);
    this.lesson.open(number, text);
  }

  async takeLinked(letters, word) {
    try {
      await this.take(await unpackedText(letters), OPENED, word);
    } catch (error) {
      this.put("", OPENED);
      this.say(html("span", "fault", `The address holds no input: ${error.message}`));
    }
  }

  // A page that was saved with a run.
  hold(held) {
    this.put(held.input ?? `${held.head}\n%%\n${held.output}`, OPENED);
    this.say("The run that was saved with this page.");
    document.documentElement.dataset.done = "held";
  }

  put(text, name) {
    if (name === OPENED) this.sources.opened = text;
    this.editor.text = text;
    this.last = this.begun = null;
    this.show(name);
  }

  // Says in the list, and to the page when it is loaded again, which text this is. The browser asks before it leaves what it
  // couldn't keep.
  show(name) {
    this.name = name;
    byId("example").replaceChildren(...this.sources.options());
    byId("example").value = name;
    history.replaceState({name}, "");
    globalThis.onbeforeunload = this.sources.drafts.areSafe ? null : event => event.preventDefault();
  }

  async take(text, name, word = null) {
    this.put(text, name);
    await this.does(word ?? this.purpose());
  }

  // Puts a text in the place of the one that is written, as a person would, and runs it.
  async write(text) {
    this.editor.text = text;
    this.editor.show(this.editor.lines.length);
    this.isChanged();
    await this.does("run");
  }

  isChanged() {
    this.last = null;
    this.show(this.nameNow(this.editor.text));
    byId("seen").classList.add("old");
  }

  // The name of the text after a change: a person's own is kept, and one that isn't a person's becomes so. One that was begun and
  // undone is forgotten.
  nameNow(text) {
    const {sources} = this, {drafts} = sources, known = sources.nameOf(text);
    if (known !== null) {
      if (this.begun?.from === known) drafts.drop(this.begun.name);
      return known;
    }
    const isOwn = sources.isDraft(this.name), name = isOwn ? this.name : drafts.newName();
    if (!isOwn) this.begun = {name, from: this.name};
    drafts.keep(name, text);
    return name;
  }

  save() {
    const {text} = this.editor, {drafts} = this.sources;
    drafts.saved.add(text);
    this.show(this.name);
    page.saveAs(`${this.name.replace(/[^\w]+/g, "_")}.txt`, "text/plain", text);
  }

  // The command that a text is made for, by what comes after its marks.
  purpose() {
    const lines = this.editor.lines, mark = lines.indexOf("%%");
    if (mark < 0) return "check";
    if (lines.indexOf("%%", mark + 1) > 0) return "snap";
    const first = lines.slice(mark + 1).find(line => /^[ \t]*[^# \t]/.test(line)) ?? "";
    if (/^(image |trace$)/.test(first)) return "explain";
    return Deployment.of(this.editor.text)?.named("device", wordsOf(first)[0]) ? "drive" : "run";
  }

  // --- runs ---

  // (once another command began, nothing more is started for this one)
  async does(word) {
    const turn = ++this.turn, text = this.editor.text, isNow = () => turn === this.turn;
    const start = (word, text) => isNow() ? this.runner.start(word, text) : {error: "stopped"};
    delete document.documentElement.dataset.done;
    this.word = word;
    this.editor.mark(null);
    this.say(`${word} …`);
    const job = new Job(word, text, this.purpose(), start), ended = await job.does(this.last);
    if (!isNow()) return;
    this.tell(word, ended, text, job.people);
    const texts = await job.drawn();
    if (!isNow()) return;
    if (job.run?.trace) this.last = job.run;
    if (texts) this.drawn(texts);
    if (word === "run" || word === "drive") await this.lesson.ran(text, ended);
    if (isNow() && word === "run") await this.live.ran(job.people);
    if (!isNow()) return;
    document.documentElement.dataset.done = turn;
  }

  stop() {
    if (!this.runner?.done) return;
    this.turn++;
    this.runner.stop("stopped");
    this.say(`${this.word}: stopped`);
    document.documentElement.dataset.done = "stopped";
  }

  // --- what came of it ---

  drawn(texts) {
    const focused = document.activeElement;
    // (another run may have fewer rows than were scrolled over)
    byId("scroll").scrollTo(0, 0);
    this.draw(texts);
    byId("seen").classList.remove("old");
    focused?.focus({preventScroll: true});
  }

  say(...parts) {
    byId("said").replaceChildren(...parts);
  }

  tell(word, ended, text, people) {
    if (ended.error) {
      byId("wrote").textContent = "";
      return this.say(html("span", "fault", `${word}: ${ended.error}`));
    }
    const size = (ended.memory / 2 ** 20).toFixed(1);
    const parts = [
      `${word} ended with status ${ended.status}, after ${ended.time.toFixed(0)} ms, with ${size} MiB of memory. `
    ];
    // (an image is long, and says little to the eye)
    const short = ended.text.replace(/^(image \S+ \S{24})\S{24,}$/gm, "$1…");
    byId("wrote").textContent = short.slice(0, MOST_SHOWN);
    if (short.length > MOST_SHOWN)
      parts.push(`The first ${MOST_SHOWN.toLocaleString("en")} letters of the output are shown. `);
    const last = splitLines(ended.text).at(-1), fault = new Faults(text).told(last);
    if (fault) parts.push(...this.fault(fault));
    if (people) parts.push(...this.ofPeople(people, text));
    if (word !== "explain" && !/^fault deployment/.test(last)) parts.push(...this.warnings(text));
    this.say(...parts);
  }

  fault(fault) {
    const place = this.place(fault), {line} = fault;
    if (place.length) {
      this.editor.mark(line);
      this.editor.show(line);
    }
    return [html("span", "fault", fault.words), ...place, ...fault.notes.map(it => html("div", "note", it))];
  }

  // The line for people that can't be done, and what the others showed.
  ofPeople({wrong, notes}, text) {
    const faults = new Faults(text), {line, rule, words} = wrong ?? {};
    const fault = rule ? faults.told(`fault schedule ${rule} ${line - faults.mark}`) : {words, line, notes: []};
    const told = notes.map(it => {
      const made = html("div", "note", it.words);
      made.append(...this.place(it));
      return made;
    });
    return [...(wrong ? this.fault(fault) : []), ...told];
  }

  warnings(text) {
    return warningsOf(text).map(it => {
      const made = html("div", "warning", `warning: ${it.words}`);
      made.append(...this.place(it));
      return made;
    });
  }

  // A place of the text in words, to go there; none if there is none.
  place({line, column}) {
    if (!line || line > this.editor.lines.length) return [];
    const made = html("button", "place", `line ${line}${column ? `, column ${column}` : ""}`);
    made.onclick = () => this.editor.go(line, column);
    return [", at ", made];
  }

  // --- the input in an address ---

  async link() {
    const packed = await packedText(this.editor.text), {property} = this;
    const more = property.isOpen ? `&p=${await packedText(property.text)}` : "";
    this.address = `#z=${packed}&do=${this.word ?? this.purpose()}${more}`;
    location.replace(this.address);
    history.replaceState({name: this.name}, "");
    const isCopied = await navigator.clipboard?.writeText(location.href).then(() => true, () => false);
    const size = location.href.length.toLocaleString("en");
    this.say(
        `The address of this page holds the input now, in ${size} letters${isCopied ? ", and is copied" : ""}.`);
  }
}

const desk = new Desk();

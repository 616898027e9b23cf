// A property beside the input: whether the program proves that no attack breaks it, and the item of the run that does.

// What the page keeps of it.
const KEPT_PROPERTY = "sancus property";

class PropertyPanel {
  constructor(desk) {
    this.desk = desk;
    this.area = byId("property-text");
    this.area.value = storage()?.getItem(KEPT_PROPERTY) ?? "";
    this.area.addEventListener("input", () => this.keep());
    // (the page takes a text that is pasted elsewhere as a file)
    this.area.addEventListener("paste", event => event.stopPropagation());
    byId("do-holds").onclick = () => this.ask();
  }

  get text() { return this.area.value; }

  get isOpen() { return byId("property").open && this.text.trim() !== ""; }

  // Shows a property that came with an address.
  open(text) {
    this.area.value = text;
    byId("property").open = true;
    this.keep();
  }

  keep() {
    byId("property-told").replaceChildren();
    try {
      storage()?.setItem(KEPT_PROPERTY, this.text);
    } catch {
      // (there is no room: it stays on the page)
    }
  }

  tell(className, ...parts) {
    const made = html("div", className);
    made.append(...parts);
    byId("property-told").append(made);
  }

  input(head, rest = "") {
    return `${head}%%\n${this.text.replace(/\n?$/, "\n")}%%\n${rest}`;
  }

  // Asks the program about all runs, and then about the one that is drawn; the input is run first, if it wasn't.
  async ask() {
    const {desk} = this, head = headOf(desk.editor.text);
    delete document.documentElement.dataset.done;
    byId("property-told").replaceChildren(html("div", "note", "holds …"));
    const turn = ++desk.turn, held = await desk.runner.start("holds", this.input(head));
    if (turn !== desk.turn) return;
    byId("property-told").replaceChildren();
    if (this.answered(held)) await this.askOfRun(head);
    document.documentElement.dataset.done = desk.turn;
  }

  // Says what `holds` answered; false if it is no answer.
  answered({error, status, text = ""}) {
    const last = splitLines(text).at(-1) ?? "";
    if (error || status === 2) this.tell("fault", error ?? "the program of this page has no command `holds`");
    else if (status === 0) this.tell("right", "holds (proved): no legal run breaks it, so no schedule does before its first `forged`.");
    else if (last.startsWith("unknown")) this.tell("", "unknown: it isn't proved. `./sancus holds` looks for a run that breaks it.");
    else return this.fault(last);
    return !error && status !== 2;
  }

  fault(last) {
    const property = /^fault property (\S+) (.*)$/.exec(last);
    if (!property) this.tell("fault", new Faults(this.desk.editor.text).told(last)?.words ?? last);
    else this.ofProperty(property[1], property[2].split(" "));
    return false;
  }

  ofProperty(rule, place) {
    const [line, column] = place.map(Number), isPlace = rule !== "P5" && place.length === 2;
    this.tell("fault", `${rule}: ${WORDS.property[rule]}`, ...(isPlace ? [", at ", this.place(line, column)] : []));
    if (rule === "P5") this.tell("note", `rule ${place[0]} of the language, ${WORDS.language[place[0]] ?? ""}`);
  }

  // A place of the property, to go there.
  place(line, column) {
    const made = html("button", "place", `line ${line}, column ${column}`);
    const before = this.text.split("\n").slice(0, line - 1).join("\n").length + (line > 1);
    made.onclick = () => {
      this.area.focus();
      this.area.setSelectionRange(before + column - 1, before + column - 1);
    };
    return made;
  }

  // Marks the item of the run that breaks it.
  async askOfRun(head) {
    const {desk} = this;
    if (!desk.last) await desk.does(desk.purpose() === "drive" ? "drive" : "run");
    const run = desk.last;
    if (!run) return;
    const turn = desk.turn, watched = await desk.runner.start("watch", this.input(head, run.trace));
    if (turn !== desk.turn || watched.error) return;
    const number = Number(/^broken ([0-9]+)$/m.exec(watched.text)?.[1] ?? 0), item = readOutput(run.trace).items[number - 1];
    if (!item) return this.tell("", "No item of this run breaks it, up to the end or the first `forged`.");
    const words = `item ${number}, \`${item.text}\`, breaks the property`;
    this.tell("wrong", `This run doesn't keep it: ${words}.`);
    page.showMarked("broken", `${number} ${words}`);
  }
}

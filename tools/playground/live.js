// The panel of a session: a line is done and run at once, and the events that are on their way wait for a person's word. The input's
// lines are the session, so that each act is written there, and taking one back is a new run.

// The entry of a module that takes an event.
const TAKES_EVENT = 2;

class LivePanel {
  constructor(desk) {
    this.desk = desk;
    this.events = [];
    // the texts before each act, and the one that the last act made
    this.before = [];
    this.made = null;
    byId("live").ontoggle = () => byId("live").open && this.look();
    byId("live-undo").onclick = () => this.undo();
    byId("live-form").onsubmit = event => {
      event.preventDefault();
      this.line(byId("live-line").value.trim());
    };
    this.show();
  }

  // After a run: what of it is on its way. `people` is what the lines became, if they are for people.
  async ran(people) {
    if (!byId("live").open) return;
    if (this.desk.editor.text === this.made) page.select(page.run.shown.length - 1);
    await this.look(people);
  }

  async look(people = null) {
    const text = this.desk.editor.text, isRun = this.desk.purpose() === "run" || this.desk.purpose() === "check";
    const found = people ?? (isRun ? await this.desk.runner.start("people", withMark(text)) : {});
    if (this.desk.editor.text !== text) return;
    this.events = found.events ?? [];
    this.show();
  }

  show() {
    byId("live-events").replaceChildren(...this.events.map(it => this.row(it)));
    byId("live-none").hidden = this.events.length > 0;
    byId("live-undo").disabled = !this.before.length;
  }

  // An event, and what can be done with it.
  row(event) {
    const made = html("li"), {number, sender, receiver, connection, name} = event, once = this.delivery(event);
    made.append(
        `${number}: ${sender} → ${receiver} by ${connection} `,
        this.button("Deliver", "Hands it to its module", once),
        this.button("Twice", "Hands it to its module, and once more", [...once, ...once]),
        this.button("Drop", "Loses it", [`# drop ${name}`]));
    return made;
  }

  button(text, title, lines) {
    const made = html("button", "", text);
    made.title = title;
    made.onclick = () => this.act(...lines);
    return made;
  }

  delivery({name, node, receiver}) { return [`give ${name} ${node}`, `call ${receiver} ${TAKES_EVENT}`]; }

  // Does a line. `carry` delivers the oldest event of its modules.
  async line(text) {
    if (!text) return;
    const [word, sender, receiver, connection] = wordsOf(text);
    const ways = word === "carry" ? this.events.filter(it => it.sender === sender && it.receiver === receiver) : [];
    const event = ways.find(it => !connection || it.connection === connection);
    byId("live-line").value = "";
    await this.act(...(event ? this.delivery(event) : [text]));
    byId("live-line").focus();
  }

  // Writes lines below the others, after those that take what was sent, and runs it all.
  async act(...lines) {
    const {text} = this.desk.editor, taken = this.events.map(it => it.take).filter(it => it);
    if (text !== this.made) this.before = [];
    this.before.push(text);
    await this.write(withMark(text).replace(/\n?$/, "\n") + [...taken, ...lines, ""].join("\n"));
  }

  async undo() {
    const {text} = this.desk.editor;
    if (text !== this.made) this.before = [];
    const before = this.before.pop();
    if (before !== undefined) await this.write(before);
    else this.show();
  }

  async write(text) {
    this.made = text;
    await this.desk.write(text);
  }
}

// A lesson beside the desk: its text, a question before the run, what came of it, and whether the task is done.

// A line in which words between ` are code, and words between * are stressed.
function inWords(line) {
  const names = {"`": "code", "*": "em"};
  const made = part => names[part[0]] ? html(names[part[0]], "", part.slice(1, -1)) : part;
  return line.split(/(`[^`]*`|\*[^*]*\*)/).filter(it => it).map(made);
}

class Lesson {
  constructor(desk) {
    this.desk = desk;
    this.number = 0;
    byId("do-lessons").onclick = () => location.hash = `#lesson=${this.number || 1}`;
    byId("lesson-back").onclick = () => location.hash = `#lesson=${this.number - 1}`;
    byId("lesson-next").onclick = () => location.hash = `#lesson=${this.number + 1}`;
    byId("lesson-again").onclick = () => this.begin();
    byId("lesson-close").onclick = () => this.close();
    byId("lesson-question").onsubmit = event => {
      event.preventDefault();
      this.isAsked = true;
      this.desk.does("run");
    };
    byId("lesson-question").onchange = () => byId("lesson-run").disabled = false;
  }

  get now() { return LESSONS[this.number - 1]; }

  // What the lesson begins with: its lines, after the deployment of an example, whose first comment tells of other lines.
  get input() {
    const head = headOf(this.desk.sources.examples.lighting).replace(/^(#.*\n)*/, "");
    return `${head}%%\n${this.now.lines}`;
  }

  // Shows a lesson by its number, with a text that was written in it before, if there is one.
  open(number, text = null) {
    this.number = Math.min(LESSONS.length, Math.max(1, Math.trunc(number) || 1));
    this.begin(text);
    byId("lesson-title").focus();
  }

  begin(text = null) {
    const {title, question, choices} = this.now;
    this.isAsked = false;
    byId("lesson").hidden = false;
    byId("desk").classList.add("has-lesson");
    byId("lesson-title").textContent = `Lesson ${this.number} of ${LESSONS.length}: ${title}`;
    byId("lesson-text").replaceChildren(...this.paragraphs());
    byId("lesson-choices").replaceChildren(html("legend", "", question), ...choices.map((it, at) => this.choice(it, at)));
    byId("lesson-run").disabled = true;
    byId("lesson-told").replaceChildren();
    byId("lesson-back").disabled = this.number === 1;
    byId("lesson-next").disabled = this.number === LESSONS.length;
    if (text === null) this.desk.put(this.input, OPENED);
    this.desk.editor.show(this.desk.editor.lines.length);
    this.desk.say("Answer the question, and run.");
    byId("wrote").textContent = "";
    byId("seen").classList.add("old");
    document.documentElement.dataset.done = `lesson ${this.number}`;
  }

  paragraphs() {
    return this.now.text.split("\n\n").map(text => {
      const made = html("p");
      made.append(...inWords(text.replaceAll("\n", " ")));
      return made;
    });
  }

  choice(text, at) {
    const made = html("label"), radio = html("input");
    Object.assign(radio, {type: "radio", name: "choice", value: at});
    made.append(radio, text);
    return made;
  }

  close() {
    this.number = 0;
    byId("lesson").hidden = true;
    byId("desk").classList.remove("has-lesson");
    history.replaceState({name: this.desk.name}, "", location.pathname + location.search);
    byId("text").focus();
  }

  tell(className, text) {
    const made = html("p", className);
    made.append(...inWords(text));
    byId("lesson-told").append(made);
  }

  // A run came to its end: what was expected is compared with what came, and the task is judged.
  async ran(text, ended) {
    if (!this.number || ended.error) return;
    byId("lesson-told").replaceChildren();
    const {choices, right, because, task} = this.now, {number} = this;
    if (!this.isAsked) return this.tell("", "First say what you expect, above.");
    const said = Number(byId("lesson-choices").querySelector(":checked").value), isRight = said === right;
    const verdict = isRight ? "So it is." : `It is: ${choices[right]}.`;
    this.tell(isRight ? "right" : "wrong", `You said: ${choices[said]}. ${verdict} ${because}`);
    if (this.now.proved) this.tell("", await this.proof(headOf(text)));
    const item = await this.reached(headOf(text), ended.text);
    if (number !== this.number) return;
    if (!item) return this.tell("task", `Your turn. ${task}`);
    const isLast = number === LESSONS.length;
    this.tell("reached", `Done, by item ${item.number}: \`${item.text}\`.`);
    if (isLast) this.tell("", "That was the last lesson; `examples/goals` has harder tasks.");
    byId(isLast ? "lesson-close" : "lesson-next").focus();
  }

  // What the program's `holds` says of the lesson's property.
  async proof(head) {
    const {text} = await this.desk.runner.start("holds", `${head}%%\n${this.now.proved}\n%%\n`);
    return `The program's command \`holds\` answers here: \`${splitLines(text ?? "")[0] ?? "nothing"}\`.`;
  }

  // The item by which the task is done, as the program's `watch` tells.
  async reached(head, output) {
    const {items} = readOutput(output), {property, item} = this.now;
    if (item) return items.find(it => it.text === item);
    const trace = ["trace", ...items.map(it => it.text), "end", ""].join("\n");
    const {text} = await this.desk.runner.start("watch", `${head}%%\n${property}\n%%\n${trace}`);
    return items[Number(/^broken ([0-9]+)$/m.exec(text ?? "")?.[1]) - 1];
  }
}

// The rows of the picture, a line of the schedule or an item each, in groups that fold.

// Runs with more rows than this open folded.
const FOLDED_FROM = 1500;
// A set-up of more rows than this is folded, and the page opens after it.
const SET_UP_FROM = 12;
// The lines by which code beside the modules, or the network, does what no honest run does.
const ATTACKS = ["put", "asm", "set", "run", "finish", "irq", "forge", "reset"];

class Run {
  constructor(texts) {
    this.notes = [];
    this.output = texts.output ? readOutput(texts.output) : null;
    this.input = texts.input ? readInput(texts.input) : null;
    this.causes = texts.causes ? readCauses(texts.causes) : null;
    this.plan = new Plan(texts.described, this.output);
    this.rows = [];
    this.isMade = false;
    this.groups = [];
    this.packets = new Map();
    this.firstForged = null;
    this.boots = new Map();
    this.fault = /^fault schedule \S+ ([0-9]+)$/.exec(this.output?.last ?? "");
    this.addRows(this.lines());
    this.findSpans();
    this.followPackets();
    this.values = new Values(this, JSON.parse(texts.sources ?? "{}"));
    this.say();
    for (const group of this.groups) group.isFolded = this.rows.length > FOLDED_FROM && group.rows.length > 1;
    this.foldSetUp();
    this.place();
  }

  note(text, isBad) { this.notes.push({text, isBad}); }

  // The lines of the schedule, each with its items, and the line that breaks a rule; or one line of all items, if the output has them alone.
  lines() {
    const {input, output, fault} = this, shown = output?.lines ?? (fault && !output.items.length ? [] : null);
    if (shown) return [...shown, ...(fault && input?.lines.slice(shown.length, fault[1]) || [])];
    if (input && !output) {
      this.note("Only the schedule is here: open the output too.", false);
      return input.lines;
    }
    if (input) this.note("This output doesn't say which line gave an item: what `lines` writes does.", false);
    return [{number: null, text: "", words: [], kind: "all", items: output?.items ?? []}];
  }

  say() {
    const {plan, output, causes} = this;
    if (output && !plan.isRead) this.note("Names are taken from the trace: what `describe` prints of the deployment has them all.", false);
    if (output && !output.last) this.note("The output has no last line: it is cut.", true);
    if (output?.last?.startsWith("fault")) this.note(output.last, true);
    if (output?.odd.length) this.note(`${output.odd.length} lines are no items: ${output.odd[0]}`, true);
    if (causes?.illegal) this.note(`explain: item ${causes.illegal} is illegal.`, true);
    const others = [...causes?.because ?? []].some(
        ([item, cause]) => item > (output?.items.length ?? 0) || cause >= item);
    if (others) this.note("The causes aren't those of this output.", true);
  }

  begin(title, kind) {
    this.group = {title, kind, rows: [], items: 0, outs: [], troubles: [], isFolded: false};
    this.groups.push(this.group);
  }

  add(row) {
    if (!this.group) this.begin("the run", "");
    Object.assign(row, {group: this.group, index: this.rows.length, isAfter: this.firstForged !== null});
    this.group.rows.push(row);
    this.rows.push(row);
    return row;
  }

  addRows(lines) {
    let before = "";
    for (const line of lines) {
      if (this.fault && line.number > Number(this.fault[1])) break;
      if (!line.kind) continue;
      if (line.kind === "#")
        this.addNote(line, before);
      else
        this.addLine(line, before);
      before = line.kind;
    }
  }

  // A comment begins a group, and so does `#= PLACE LINE`, which comes before what `sancus schedule` made of a line for people; a
  // `# NAME is packet N` after a packet doesn't.
  addNote(line, before) {
    const text = line.text.replace(/^\s*#\s?/, "");
    const made = /^= *(\S+:[0-9]+|line [0-9]+) (.*)$/.exec(text);
    const isOwn = !made && !/^\S+ is packet [0-9]+$/.test(text);
    if (isOwn && before !== "#") this.begin(text, "#");
    if (made) this.begin(made[2], "made");
    this.isMade = made !== null || this.isMade && !isOwn;
    this.add({kind: "note", text: made ? `${made[2]}  (${made[1]})` : text, line});
  }

  addLine(line, before) {
    const {kind, words, items} = line;
    if (!this.isMade) this.beginGroup(kind, words, before);
    if (kind === "load" && this.group.kind === "load") this.group.title += ` ${words[1]}`;
    // an item that is all that the line does is in the line's own row
    const isOne = ["take", "forge", "sense", "reset", "ask", "load"].includes(kind) && items.length > 0 &&
        !["forged", "busy"].includes(items[0].kind);
    const act = kind === "all" ? null : this.add({kind: "act", line, item: isOne ? items[0] : null});
    if (act && this.fault && line.number === Number(this.fault[1])) act.fault = this.output.last;
    if (kind === "give") this.keepPacket(numberOf(words[1]), act, "given");
    if (kind === "answer") this.keepPacket(numberOf(words[3]), act, "taken by the deployer");
    items.forEach(
        (item, k) => this.addItem(line, item, isOne && k === 0 ? act : this.add({kind: "item", line, item})));
  }

  beginGroup(kind, words, before) {
    if (kind === "sense") this.begin(`sense ${words[1]} ${words[2]}`, kind);
    if (kind === "ask") this.begin(`attest ${words[1]}`, kind);
    if (kind === "load" && before !== "load") this.begin("load", kind);
  }

  // The first row after the set-up: after the loading, asking and opening that a schedule begins with. The first row if there is none.
  afterSetUp() {
    const isSetUp = ({kind, words}) => ["", "#", "load", "ask", "answer", "give", "take"].includes(kind) ||
        kind === "call" && numberOf(words[2]) < 2;
    const first = this.rows.find(row => !isSetUp(row.line));
    let group = first?.group;
    // (with the comment above it)
    const before = this.groups[this.groups.indexOf(group) - 1];
    if (before?.rows.every(row => row.kind === "note")) group = before;
    const begun = group?.rows[0];
    return begun && begun.index >= SET_UP_FROM ? begun : this.rows[0];
  }

  foldSetUp() {
    const first = this.afterSetUp();
    if (first) for (const group of this.groups.slice(0, this.groups.indexOf(first.group))) group.isFolded = group.rows.length > 1;
  }

  addItem(line, item, row) {
    item.row = row;
    const group = row.group;
    group.items++;
    if (item.kind === "out") group.outs.push(item);
    if (this.plan.isTrouble(item)) group.troubles.push(item);
    if (item.kind === "forged") this.firstForged ??= item;
    if (item.kind === "reset") {
      row.boot = (this.boots.get(item.words[1]) ?? 0) + 1;
      this.boots.set(item.words[1], row.boot);
    }
    if (item.kind === "packet") {
      const made = {take: "taken from memory", forge: "made up"}[line.kind] ?? "made by the deployer";
      this.keepPacket(Number(item.words[1]), row, made);
    }
  }

  keepPacket(number, row, what) {
    if (!this.packets.has(number)) this.packets.set(number, []);
    this.packets.get(number).push({row, what});
  }

  // Marks the rows at which a packet is delivered once more, and those of packets that never were.
  followPackets() {
    if (!this.rows.some(row => row.kind === "act")) return;
    for (const acts of this.packets.values()) {
      const deliveries = acts.filter(({row}) => row.item?.kind !== "packet");
      for (const {row} of deliveries.slice(1)) row.isAgain = true;
      if (!deliveries.length) acts[0].row.isLost = true;
    }
  }

  // Whether a row is an act that no honest run has.
  isAttack(row) {
    return row.kind === "act" && (row.isAgain === true || ATTACKS.includes(row.line.kind));
  }

  packetOf(row) {
    if (row.item?.kind === "packet") return Number(row.item.words[1]);
    if (row.line?.kind === "give") return numberOf(row.line.words[1]);
    return row.line?.kind === "answer" && row.kind === "act" ? numberOf(row.line.words[3]) : null;
  }

  // The packet that a line presents: an answer's, or for a call the last that was given to its window since the last `reset` of the
  // node.
  presented({kind, words, number}) {
    if (kind === "answer") return `, in packet ${words[3]}`;
    if (kind !== "call" || number === null) return "";
    const node = this.plan.nodeOf(words[1]);
    let found = "";
    for (const {kind, line} of this.rows) {
      if (line.number >= number) break;
      const [act, ...rest] = line.words;
      if (act === "reset" && rest[0] === node) found = "";
      if (kind === "act" && act === "give" && rest[1] === node && numberOf(rest[2]) === numberOf(words[3]))
        found = `; packet ${rest[0]} was given to this window last`;
    }
    return found;
  }

  // From which row to which a module's section is protected, and each call of it runs, by the rows' indices.
  findSpans() {
    this.sections = new Map();
    this.turns = new Map();
    const open = (map, module, index) => {
      if (!map.has(module)) map.set(module, []);
      map.get(module).push({from: index, to: null});
    };
    const close = (map, module, index) => {
      const span = map.get(module)?.at(-1);
      if (span && span.to === null) span.to = index;
    };
    for (const {kind, line, item, index} of this.rows) {
      const called = this.rows[index + 1];
      if (kind === "act" && line.kind === "call" && called?.line === line && called.item?.kind !== "busy")
        open(this.turns, line.words[1], index);
      if (item?.kind === "protect" && item.words[2] !== "-") open(this.sections, item.words[2], index);
      if (item?.kind === "done") close(this.turns, item.words[1], index);
      if (item?.kind !== "reset") continue;
      for (const module of this.plan.modulesOf(item.words[1])) {
        close(this.sections, module.name, index);
        close(this.turns, module.name, index);
      }
    }
  }

  // Which rows are shown, and at which place each is: a folded group is one row.
  place() {
    this.shown = [];
    for (const group of this.groups) {
      const first = this.shown.length;
      if (group.isFolded)
        this.shown.push(
            {kind: "group", group, index: group.rows[0].index, line: null, isAfter: group.rows[0].isAfter});
      else
        this.shown.push(...group.rows);
      group.rows.forEach((row, k) => row.place = group.isFolded ? first : first + k);
      if (group.isFolded) this.shown.at(-1).place = first;
    }
  }

  // The row's item and its causes back to a `sense`, as `explain` has them.
  chain(row) {
    const items = [];
    for (let item = row.item; item;
         item = this.output.items[(this.causes?.because.get(item.number) ?? 0) - 1])
      items.push(item);
    return items;
  }
}

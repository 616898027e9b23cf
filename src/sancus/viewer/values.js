// The variables of the modules after each row, by the sources: each event that a module takes and each reading runs its handler.

// After so many steps of handlers the page gives up.
const MOST_STEPS = 3_000_000;
// Of a longer array only the first elements are told.
const MOST_CELLS = 16;

const word = value => value & 0xffff;
const OPERATIONS = {
  "+": (a, b) => a + b,
  "-": (a, b) => a - b,
  "*": (a, b) => Math.imul(a, b),
  "|": (a, b) => a | b,
  "^": (a, b) => a ^ b,
  "&": (a, b) => a & b,
  "==": (a, b) => a === b,
  "!=": (a, b) => a !== b,
  "<": (a, b) => a < b,
  "<=": (a, b) => a <= b,
  ">": (a, b) => a > b,
  ">=": (a, b) => a >= b,
};
const APPLICATIONS = {"-": a => -a, "~": a => ~a, "!": a => a === 0};

// A module's variables and arrays by name, and what changes them.
class State {
  constructor(tree) {
    this.cells = new Map();
    this.steps = 0;
    for (const {kind, name, value} of tree.declared) {
      if (kind === "var") this.cells.set(name, value);
      if (kind === "array") this.cells.set(name, new Array(value).fill(0));
    }
  }

  // Runs a handler on a value.
  handle({parameter, body}, value) { this.block(body, new Map([[parameter, value]])); }

  block(body, outer) {
    const locals = {own: new Map(), outer};
    for (const statement of body) this.statement(statement, locals);
  }

  statement(it, locals) {
    if (++this.steps > MOST_STEPS) throw new RangeError("too many steps");
    switch (it.kind) {
      case "let": return void locals.own.set(it.name, this.value(it.value, locals));
      case "assign": return this.assign(it.name, this.value(it.value, locals), locals);
      case "store": return this.store(it, locals);
      case "if": return this.block(this.value(it.test, locals) ? it.then : it.other, locals);
      case "repeat":
        for (let k = 0; k < it.count; k++) this.block(it.body, locals);
    }
  }

  // Where a local of this name is, if there is one.
  holder(name, locals) {
    if (locals instanceof Map) return locals.has(name) ? locals : null;
    return locals.own.has(name) ? locals.own : this.holder(name, locals.outer);
  }

  assign(name, value, locals) { (this.holder(name, locals) ?? this.cells).set(name, value); }

  store({name, index, value}, locals) {
    const at = this.value(index, locals), array = this.cells.get(name), stored = this.value(value, locals);
    if (at < array.length) array[at] = stored;
  }

  value(it, locals) {
    switch (it.kind) {
      case "constant": return it.value;
      case "variable": return (this.holder(it.name, locals) ?? this.cells).get(it.name);
      case "element": return this.cells.get(it.name)[this.value(it.index, locals)] ?? 0;
      case "applied": return word(Number(APPLICATIONS[it.sign](this.value(it.operand, locals))));
      case "combined": return word(Number(OPERATIONS[it.sign](this.value(it.left, locals), this.value(it.right, locals))));
    }
  }

  // What is told of each variable.
  told() {
    const short = cells => cells.slice(0, MOST_CELLS).join(" ") + (cells.length > MOST_CELLS ? " …" : "");
    return new Map([...this.cells].map(([name, cell]) => [name, Array.isArray(cell) ? `[${short(cell)}]` : String(cell)]));
  }
}

class Values {
  // sources: of each module.
  constructor(run, sources) {
    this.plan = run.plan;
    this.trees = new Map();
    this.events = new Map();
    for (const [name, source] of Object.entries(sources)) {
      const tree = treeOf(source);
      if (tree?.declared.some(({kind}) => kind === "var" || kind === "array")) {
        this.trees.set(name, tree);
        this.events.set(name, []);
      }
    }
    for (const row of run.rows)
      if (row.item) this.note(row.item, row.index);
  }

  // Keeps what an item does to modules: begins them anew, ends them, or runs a handler.
  note({kind, words}, index) {
    const add = (module, what) => this.events.get(module)?.push({index, ...what});
    if (kind === "protect") add(words[2], {kind});
    if (kind === "take") add(words[1], {kind, input: this.plan.connections.get(words[2])?.input, value: Number(words[4])});
    if (kind === "read") add(words[1], {kind, input: null, value: Number(words[2])});
    if (kind !== "reset") return;
    for (const {name} of this.plan.modulesOf(words[1])) add(name, {kind});
  }

  // What is told of the module's variables after the row with this index; null if it isn't there, or has none.
  after(module, index) { return this.stateAfter(module, index)?.told() ?? null; }

  stateAfter(module, index) {
    const tree = this.trees.get(module);
    let state = null;
    for (const event of this.events.get(module) ?? []) {
      if (event.index > index) break;
      if (event.kind === "protect") state = new State(tree);
      if (event.kind === "reset") state = null;
      const handler = state && tree.handlers.find(it => it.input === event.input);
      if (handler) state.handle(handler, event.value);
    }
    return state;
  }

  // The variables of a row's modules in words, each with what it was before the row's line.
  told(rows) {
    const first = rows[0].index, last = rows.at(-1).index;
    return this.modulesOf(rows).flatMap(module => {
      const now = this.after(module, last), before = this.after(module, first - 1);
      if (!now) return [];
      const parts = [...now].map(
          ([name, value]) => `${name} = ${value}${before && before.get(name) !== value ? ` (was ${before.get(name)})` : ""}`);
      return [{module, text: parts.join(", ")}];
    });
  }

  modulesOf(rows) {
    const ofItem = ({kind, words}) => kind === "protect" ? words[2] : words[1];
    const names = rows.flatMap(({line, item}) => [line?.kind === "call" ? line.words[1] : null, item ? ofItem(item) : null]);
    return [...new Set(names)].filter(name => this.trees.has(name));
  }
}

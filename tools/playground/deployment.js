// A deployment as tables: what words about an input need of it. The program alone judges it.

const KINDS = ["node", "device", "module", "connection"];

const moduleOf = port => String(port).split(".")[0];
const portOf = port => String(port).split(".").slice(1).join(".");

const isTable = value => typeof value === "object" && value !== null && !Array.isArray(value);

// An entry may lack keys, as long as the program hasn't accepted the deployment.
class Deployment {
  constructor(document) {
    // (an entry that is no table has no keys)
    const tables = key => Array.isArray(document[key]) ? document[key].map(it => isTable(it) ? it : {}) : [];
    this.toml = document;
    this.by = Object.fromEntries(KINDS.map(kind => [kind, tables(kind)]));
    if (!this.by.node.length) this.by.node = [{name: "n", key: "0".repeat(32)}];
    this.trees = new Map();
  }

  // The deployment of a text; null if it isn't read here.
  static of(text) {
    try {
      return new Deployment(Toml.read(headOf(text)));
    } catch {
      return null;
    }
  }

  named(kind, name) { return this.by[kind].find(it => it.name === name); }
  names(kind) { return this.by[kind].map(it => String(it.name)); }
  driverOf(device) { return this.by.module.find(it => it.device === device); }

  // How many ends of connections a module has.
  ends(module) {
    return this.by.connection.flatMap(({from, to}) => [from, to]).filter(port => moduleOf(port) === module).length;
  }

  // The tree of a module's source, or null if it is no module.
  tree(module) {
    if (!this.trees.has(module)) this.trees.set(module, treeOf(this.named("module", module)?.source));
    return this.trees.get(module);
  }

  // The addresses of a module's sections, ends exclusive; none if its tables or source don't tell.
  sections(module) {
    const tree = this.tree(module.name), {text} = module;
    const data = module.data ?? this.named("device", module.device)?.at;
    if (!tree || !Number.isInteger(text) || !Number.isInteger(data)) return [];
    const ends = this.ends(module.name);
    return [
      new Range(`the public section of ${module.name}`, text, text + 2048 + 192 * ends + 64 * nodesOf(tree)),
      new Range(`the private section of ${module.name}`, data, data + 512 + 24 * ends + 2 * cellsOf(tree)),
    ];
  }
}

const hex = place => `0x${place.toString(16).padStart(4, "0")}`;

// The addresses of something, its end exclusive.
class Range {
  constructor(what, begin, end) {
    Object.assign(this, {what, begin, end});
  }

  get told() { return `${this.what}, ${hex(this.begin)} to ${hex(this.end)},`; }

  is({what, begin, end}) { return this.what === what && this.begin === begin && this.end === end; }

  // The part that two ranges share, in words, or nothing.
  shares(other) {
    const begin = Math.max(this.begin, other.begin), end = Math.min(this.end, other.end);
    return begin < end ? `share ${hex(begin)} to ${hex(end)}, ${end - begin} bytes` : "";
  }
}

// Draws the rows that are in sight: one lifeline for the deployer, the network, and each node's memory,
// modules and devices.

const HEIGHT = 22;
const SVG = "http://www.w3.org/2000/svg";

function svg(name, attributes, text) {
  const made = document.createElementNS(SVG, name);
  for (const key in attributes) made.setAttribute(key, attributes[key]);
  if (text !== undefined) made.textContent = text;
  return made;
}

function html(name, className, text) {
  const made = document.createElement(name);
  if (className) made.className = className;
  if (text !== undefined) made.textContent = text;
  return made;
}

// How wide a hidden column is, and how narrow the others may get.
const HIDDEN = 13, LEAST_SCALE = 0.25;
// Below this scale the heads are in two rows; how high one row is, and two.
const TWO_ROWS_FROM = 0.75, ONE_ROW = 44, TWO_ROWS = 60;

// The columns from left to right. A look says how wide they are (scale), which are hidden, and their order in each node.
class Columns {
  constructor(plan, look) {
    this.list = [];
    this.by = new Map();
    this.boxes = [];
    this.width = 14;
    this.look = look;
    this.addAll([["deployer", "deployer", 100, ""], ["network", "network", 116, ""]]);
    for (const node of this.sorted(plan.nodes, it => it)) this.addNode(node, plan);
    // (text beside the last column may need more: it isn't cut off)
    this.width += 70;
  }

  // These in the order of the look; what it doesn't name stays where it is.
  sorted(list, id) {
    const rank = it => this.look.order.indexOf(id(it));
    return [...list].sort((one, other) => rank(one) < 0 || rank(other) < 0 ? 0 : rank(one) - rank(other));
  }

  addAll(columns) {
    for (const column of this.sorted(columns, it => it[0])) this.add(...column);
  }

  add(id, name, wide, kind) {
    const isHidden = this.look.hidden.has(id), width = isHidden ? HIDDEN : wide * this.look.scale;
    const column = {id, name, kind, x: this.width + width / 2, width, isHidden};
    this.list.push(column);
    this.by.set(id, column);
    this.width += width;
  }

  addNode(node, plan) {
    this.width += 16 * this.look.scale;
    const from = this.width, first = this.list.length, wide = (name, least) => Math.max(least, 7.2 * name.length + 22);
    const columns = [[`memory ${node}`, "memory", 108, ""]];
    const devices = [...plan.devices.values()].filter(device => device.node === node);
    const addDevice = device =>
        columns.push([`device ${device.name}`, device.name, wide(device.name, 62), device.kind]);
    for (const module of plan.modules.values()) {
      if (module.node !== node) continue;
      columns.push([`module ${module.name}`, module.name, wide(module.name, 108), "module"]);
      devices.filter(device => device.driver === module.name).forEach(addDevice);
    }
    devices.filter(device => !device.driver).forEach(addDevice);
    this.addAll(columns);
    const box = {node, from, to: this.width};
    this.boxes.push(box);
    for (const column of this.list.slice(first)) column.box = box;
  }

  // The column at a place, or the one beside it.
  at(x) { return this.list.find(it => x < it.x + it.width / 2) ?? this.list.at(-1); }
}

class Picture {
  constructor(run, look = {scale: 1, hidden: new Set(), order: []}) {
    this.run = run;
    this.plan = run.plan;
    this.columns = new Columns(run.plan, look);
  }

  get deployer() { return this.columns.by.get("deployer"); }
  get network() { return this.columns.by.get("network"); }
  memory(node) { return this.columns.by.get(`memory ${node}`); }
  module(name) { return this.columns.by.get(`module ${name}`); }
  device(name) { return this.columns.by.get(`device ${name}`); }
  deviceOf(module) { return this.device(this.plan.deviceOf(module)?.name); }

  // --- parts ---

  text(x, y, text, className = "middle") {
    // (nothing is written into a hidden column)
    if (className.startsWith("middle") && this.columns.list.some(it => it.isHidden && it.x === x)) return;
    this.into.append(svg("text", {x, y: y + 4, class: className}, text));
  }

  arrow(from, to, y, className, text, textClass = "") {
    if (!from || !to) return;
    const way = from.x < to.x ? 1 : -1;
    if (from === to)
      this.into.append(svg("circle", {cx: from.x, cy: y, r: 3, class: "dot"}));
    else
      this.into.append(
          svg("line", {x1: from.x + 5 * way, x2: to.x - 6 * way, y1: y, y2: y, class: `arrow ${className}`}));
    if (!text || from.isHidden || to.isHidden) return;
    const fits = text.length * 6.4 + 26 < Math.abs(from.x - to.x);
    if (fits)
      this.text((from.x + to.x) / 2, y, text, `middle over ${textClass}`);
    else
      this.text(Math.max(from.x, to.x) + 9, y, text, textClass);
  }

  square(column, y) {
    this.into.append(svg("rect", {x: column.x - 4.5, y: y - 4.5, width: 9, height: 9, class: "fill-out"}));
  }

  circle(column, y) { this.into.append(svg("circle", {cx: column.x, cy: y, r: 4.5, class: "fill-event"})); }

  beside(column, y, text, className = "") {
    if (column && !column.isHidden) this.text(column.x + 9, y, text, className);
  }

  // --- items ---

  item(row, y) {
    const {item, line} = row, draw = Picture.ITEMS[item.kind];
    draw?.call(this, item.words, y, {row, line, isTrouble: this.plan.isTrouble(item)});
  }

  static ITEMS = {
    protect([, node, name], y) {
      const column = this.module(name);
      if (name === "-" || !column) return this.beside(this.memory(node), y, "▣ another section", "bold");
      this.into.append(svg("rect", {
        x: column.x - column.width / 2 + 8,
        y: y - 9,
        width: column.width - 16,
        height: 18,
        rx: 4,
        class: "protect"
      }));
      this.text(column.x, y, `▣ ${name}`, "middle bold event");
    },
    reset([, node, cause], y, {row}) {
      const className = cause === "asked" ? "attack" : "trouble";
      const box = this.columns.boxes.find(it => it.node === node);
      let path = `M${box.from + 2} ${y}`;
      for (let x = box.from + 8, k = 0; x < box.to; x += 6, k++) path += `L${x} ${y + (k % 2 ? 5 : -5)}`;
      this.into.append(svg("path", {d: path, class: `zigzag ${className}`}));
      this.text(
          (box.from + box.to) / 2, y, `RESET: ${cause} · now boot ${row.boot}`, `middle bold over ${className}`);
    },
    ask([, module], y) { this.text(this.deployer.x, y, `asks ${module}`); },
    packet([, number, length], y, {line, row}) {
      const text = row.isLost ? `#${number} · never given` : `#${number} · ${length} B`, lost = row.isLost ? "attack" : "";
      if (line.kind === "take")
        this.arrow(this.memory(line.words[1]), this.network, y, lost, text, lost);
      else if (line.kind === "forge")
        this.text(this.network.x, y, `✎ ${text}`, "middle bold attack");
      else if (line.kind === "all")
        this.text(this.network.x, y, text);
      else
        this.arrow(this.deployer, this.network, y, lost, text, lost);
    },
    vouch([, module, challenge], y) { this.beside(this.module(module), y, `vouches ✓ ${challenge}`, "dim"); },
    attested(
        [, module, boot],
        y) { this.text(this.deployer.x, y, `✓ ${module}, boot ${boot}`, "middle bold event"); },
    denied([, module], y) { this.text(this.deployer.x, y, `✗ denied ${module}`, "middle bold trouble"); },
    open([, module, connection, side, epoch], y) {
      this.beside(
          this.module(module), y,
          `opens ${connection} ${side === "from" ? "→" : "←"}${epoch ? ` epoch ${epoch}` : ""}`, "key");
    },
    take([, module, connection, number, value], y) {
      const epoch = Math.floor(number / 65536);
      this.arrow(
          this.memory(this.plan.nodeOf(module)), this.module(module), y, "event",
          `${connection} ${epoch ? `${epoch}:` : ""}${number % 65536} = ${value}`, "event");
    },
    sense([, device, value], y) {
      this.circle(this.device(device), y);
      this.beside(this.device(device), y, value, "bold event");
    },
    read([, module, value], y) {
      const device = this.deviceOf(module);
      if (device)
        this.arrow(device, this.module(module), y, "event", value, "event");
      else
        this.beside(this.module(module), y, `reads ${value}`, "event");
    },
    drain([, device], y, {isTrouble}) {
      const text = isTrouble ? "drained by other code" : "";
      this.arrow(
          this.device(device), this.memory(this.plan.devices.get(device).node), y, isTrouble ? "wild" : "",
          text, "trouble");
    },
    out([, module, value], y) {
      const device = this.deviceOf(module);
      if (!device) return this.beside(this.module(module), y, `out ${value}`, "bold out");
      this.arrow(this.module(module), device, y, "out", "");
      this.square(device, y);
      this.beside(device, y, value, "bold out");
    },
    raw([, device, value], y, {isTrouble}) {
      const memory = this.memory(this.plan.devices.get(device).node);
      if (isTrouble) return this.pastDriver(memory, this.device(device), y, `RAW ${device} ${value}`);
      this.arrow(memory, this.device(device), y, "", "");
      this.beside(this.device(device), y, value, "bold");
    },
    done([, module, status, pieces], y, {isTrouble}) {
      const text = isTrouble ? `✗ ${status}: ${STATUSES[status]?.[0] ?? "?"}` :
          pieces === "0" ? "" :
                           `${pieces} piece${pieces === "1" ? "" : "s"}`;
      this.arrow(
          this.module(module), this.memory(this.plan.nodeOf(module)), y, "back", text,
          isTrouble ? "bold trouble" : "dim");
    },
    forged([, who], y) {
      this.into.append(svg("rect", {x: 0, y: y - 10, width: this.columns.width, height: 20, class: "band"}));
      const column = who === "deployer" ? this.deployer : this.module(who);
      // (the deployer's column is at the edge: there the words move into the picture)
      const x = Math.max(92, column?.x ?? this.network.x);
      this.octagon(x - 76, y);
      this.text(x, y, `FORGED for ${who}`, "middle bold forged");
    },
    busy([, node], y) { this.beside(this.memory(node), y, "✗ refused: a module runs", "trouble"); },
    skip([, node], y) { this.beside(this.memory(node), y, "✗ refused: skip", "trouble"); },
    budget(
        [, node], y) { this.beside(this.memory(node), y, "✗ still runs after 1,000,000 steps", "trouble"); },
  };

  // An actuator that is written past its driver: a whole bar, with what is written in it.
  pastDriver(memory, device, y, text) {
    const [from, to] = [memory.x, device.x].sort((one, other) => one - other), half = text.length * 3.8 + 8;
    const [left, right] = [Math.min(from, to - half), Math.max(to, from + half)];
    this.into.append(svg("rect", {x: left - 6, y: y - 10, width: right - left + 12, height: 20, rx: 4, class: "raw"}));
    this.text((left + right) / 2, y, text, "middle bold raw");
  }

  octagon(x, y) {
    this.into.append(
        svg("path", {d: `M${x - 2.5} ${y - 6}h5l3.5 3.5v5l-3.5 3.5h-5l-3.5 -3.5v-5z`, class: "fill-forged"}));
  }

  row(row, y) {
    if (row.kind === "group")
      this.folded(row, y);
    else if (row.kind === "act")
      this.act(row, y);
    else if (row.kind === "item")
      this.item(row, y);
  }

  // --- lines of the schedule ---

  act(row, y) {
    if (row.item) return this.item(row, y);
    const {kind, words} = row.line;
    const mark = (column, text, className = "attack") => {
      if (!column) return;
      const path = `M${column.x} ${y - 5}l5 5l-5 5l-5 -5z`;
      this.into.append(svg("path", {d: path, class: `fill-${className}`}));
      this.beside(column, y, text.length > 34 ? `${text.slice(0, 33)}…` : text, className);
    };
    const memory = this.memory(words[1]);
    switch (kind) {
      case "give": return this.delivery(row, this.memory(words[2]), y, words[1]);
      case "call":
        return this.arrow(
            this.memory(this.plan.nodeOf(words[1])), this.module(words[1]), y, "",
            ENTRIES[numberOf(words[2])] ?? `entry ${words[2]}`);
      case "answer": return this.delivery(row, this.deployer, y, words[3]);
      case "load": return mark(this.module(words[1]), "load", "dim");
      case "put": return mark(memory, `put ${words[2]} (${(words[3] ?? "").length / 2} B)`);
      case "asm": return mark(memory, words.slice(3).join(" "));
      case "set": return mark(memory, `${words[2]} := ${words[3]}`);
      case "run": return mark(memory, `▶ ${words[2]} step${words[2] === "1" ? "" : "s"}`);
      case "finish": return mark(memory, "▶ finish");
      case "irq": return mark(memory, `interrupt ${words[2]}`);
    }
  }

  // A packet's way out of the network: dashed if it was delivered before.
  delivery(row, to, y, packet) {
    const again = row.isAgain ? "attack" : "";
    this.arrow(this.network, to, y, again && `again ${again}`, `#${numberOf(packet)}${again && " again"}`, again);
  }

  // A folded group: its readings, outs and troubles on one row.
  folded(row, y) {
    const senses = row.group.rows.filter(it => it.item?.kind === "sense").length;
    for (const {item} of row.group.rows) {
      if (!item) continue;
      const words = item.words;
      if (item.kind === "sense")
        senses === 1 ? this.item({item}, y) : this.circle(this.device(words[1]), y);
      else if (item.kind === "out") {
        const column = this.deviceOf(words[1]) ?? this.module(words[1]);
        this.square(column, y);
        if (row.group.outs.length === 1) this.beside(column, y, words[2], "bold out");
      } else if (item.kind === "attested")
        this.text(this.deployer.x, y, "✓", "middle bold event");
      else if (item.kind === "denied")
        this.text(this.deployer.x, y, "✗", "middle bold trouble");
      else if (item.kind === "reset")
        this.text(this.memory(words[1]).x, y, "RESET", "middle bold trouble");
      else if (item.kind === "done" && words[2] !== "1")
        this.text(this.module(words[1]).x, y, `✗${words[2]}`, "middle bold trouble");
      else if (item.kind === "forged")
        Picture.ITEMS.forged.call(this, words, y);
      else if (this.plan.isPastDriver(item))
        this.item({item}, y);
    }
  }

  // --- under and over the rows ---

  // Lifelines, sections and turns between two places; top is the first place that is drawn.
  back(from, to) {
    const y = place => (place - from) * HEIGHT, bottom = y(to);
    for (const box of this.columns.boxes)
      this.into.append(
          svg("rect", {x: box.from, y: 0, width: box.to - box.from, height: bottom, class: "node"}));
    for (const column of this.columns.list)
      this.into.append(svg("line", {
        x1: column.x,
        x2: column.x,
        y1: 0,
        y2: bottom,
        class: column.kind === "module" ? "life" : "line"
      }));
    const end = this.run.shown.length;
    const spans = (map, draw) => {
      for (const [name, list] of map) {
        const column = this.module(name);
        for (const span of column ? list : []) {
          const first = this.run.rows[span.from].place + 0.5,
                last = span.to === null ? end : this.run.rows[span.to].place + 0.5;
          if (last > from && first < to) draw(column, Math.max(0, y(first)), Math.min(bottom, y(last)));
        }
      }
    };
    spans(
        this.run.sections,
        (column, top, below) => this.into.append(
            svg("line", {x1: column.x, x2: column.x, y1: top, y2: below, class: "section"})));
    spans(
        this.run.turns,
        (column, top, below) => this.into.append(svg(
            "rect", {x: column.x - 4, y: top, width: 8, height: Math.max(2, below - top), class: "turn"})));
    const first = this.run.firstForged?.row;
    if (first && first.place + 1 < to) {
      const top = Math.max(0, y(first.place + 1));
      this.into.append(
          svg("rect", {x: 0, y: top, width: this.columns.width, height: bottom - top, class: "beyond"}));
    }
  }

  anchor({kind, words}) {
    if (kind === "sense") return this.device(words[1]);
    return (kind === "out" ? this.deviceOf(words[1]) : null) ?? this.module(words[1]) ?? this.network;
  }

  // The arrows of a chain of causes, from each cause to its effect.
  chain(items, from) {
    for (let k = 0; k + 1 < items.length; k++) {
      const [effect, cause] = [items[k], items[k + 1]];
      const [x1, x2] = [this.anchor(cause).x, this.anchor(effect).x];
      const [y1, y2] = [cause, effect].map(item => (item.row.place - from + 0.5) * HEIGHT);
      const middle = (y1 + y2) / 2;
      this.into.append(svg(
          "path", {d: `M${x1} ${y1 + 6}C${x1} ${middle} ${x2} ${middle} ${x2} ${y2 - 7}`, class: "cause"}));
    }
  }

  get hasTwoRows() { return this.columns.look.scale < TWO_ROWS_FROM; }
  get headHeight() { return this.hasTwoRows ? TWO_ROWS : ONE_ROW; }

  // A column's head, to be dragged, and hidden by a double click. If columns are narrow, every other head is lower, so that each
  // has the room of two.
  head(column, at) {
    const y = this.hasTwoRows && at % 2 ? 52 : 36;
    const made = svg("g", {class: "head", "data-id": column.id}), {x, width, kind, name, isHidden} = column;
    const sign = {sensor: "◉ ", actuator: "■ ", module: "▣ "}[kind] ?? "";
    made.append(
        svg("title", {}, `${name}: double-click to ${isHidden ? "show" : "hide"}, drag to move`),
        svg("rect", {x: x - width / 2, y: 20, width, height: this.headHeight - 20, class: "grip"}));
    const room = Math.max(3, Math.floor(width * (this.hasTwoRows ? 2 : 1) / 6.6));
    const text = name.length + 2 > room ? name : sign + name;
    const shown = isHidden ? "⋮" : text.length > room ? `${text.slice(0, room - 1)}…` : text;
    made.append(svg("text", {x, y, class: "middle bold"}, shown));
    return made;
  }

  heads() {
    const made = svg("svg", {width: this.columns.width, height: this.headHeight});
    this.into = made;
    for (const box of this.columns.boxes) {
      made.append(svg("rect", {x: box.from, y: 2, width: box.to - box.from, height: this.headHeight - 2, class: "node"}));
      this.text((box.from + box.to) / 2, 12, `node ${box.node}`, "middle dim");
    }
    this.columns.list.forEach((column, at) => made.append(this.head(column, at)));
    return made;
  }
}

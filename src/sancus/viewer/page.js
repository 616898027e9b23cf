// The page: opens texts, keeps the rows in sight drawn, and answers keys and clicks.

const byId = id => document.getElementById(id);
const BARE_PAGE = `<!doctype html>\n${document.documentElement.outerHTML}`;
// How many rows are drawn above and below those in sight.
const MARGIN = 12;

const counted = (count, what) => `${count} ${what}${count === 1 ? "" : "s"}`;

class Page {
  constructor() {
    this.texts = {};
    this.run = null;
    this.at = 0;
    this.hits = new Set();
    // the row of an item of which something is said, and what the item is
    this.marked = null;
    this.look = {scale: 1, isFull: false, hidden: new Set(), order: []};
    // gets the texts that are chosen, dropped or pasted
    this.onopen = texts => this.open(texts);
    this.listen();
  }

  // --- opening ---

  open(texts) {
    for (const text of texts) {
      const got = sortText(text);
      if (got.input && this.texts.input && got.input !== this.texts.input) this.texts = {};
      Object.assign(this.texts, got);
    }
    const {deployment, schedule} = this.texts;
    if (deployment && schedule !== undefined) this.texts.input = joinedInput(this.texts);
    this.show();
    if (!this.texts.input && !this.texts.output)
      this.warn("This is a part of a run: open the deployment, its schedule and the output too, one or all at once.");
  }

  show() {
    this.run = new Run(this.texts);
    this.at = 0;
    byId("drop").hidden = true;
    byId("main").hidden = byId("more").hidden = false;
    this.picture = this.pictured();
    byId("notes").replaceChildren(
        ...this.run.notes.map(({text, isBad}) => html("div", isBad ? "bad" : "", text)));
    this.drawHeads();
    if (this.texts.name) byId("title").textContent = document.title = this.texts.name;
    this.tellCounts();
    this.layOut();
    this.begin();
    this.marked = null;
    for (const kind of ["differs", "broken"])
      if (this.texts[kind]) this.showMarked(kind, this.texts[kind]);
    byId("scroll").focus({preventScroll: true});
  }

  // Shows the item in which this run first differs from the one beside it, or that breaks a property: its number, and words.
  showMarked(kind, text) {
    const [number, words] = text.split(/ (.*)/s), row = this.run.output?.items[number - 1]?.row;
    this.warn(words[0].toUpperCase() + words.slice(1));
    if (!row) return;
    this.marked = {kind, row, words};
    this.go(row);
  }

  // Opens after the set-up, which is folded.
  begin() {
    const first = this.run.afterSetUp();
    if (!first?.place) return;
    byId("scroll").scrollTop = Math.max(0, first.place - 2) * HEIGHT;
    this.select(first.place);
  }

  // --- columns ---

  drawHeads() {
    byId("heads").querySelector("svg")?.remove();
    byId("heads").append(this.picture.heads());
    byId("columns").textContent = this.look.hidden.size ? `Show ${this.look.hidden.size} hidden` : "";
    byId("columns").hidden = !this.look.hidden.size;
    byId("fit").textContent = this.look.scale < 1 ? "Full width" : "Fit";
    byId("heads").classList.toggle("two-rows", this.picture.hasTwoRows);
  }

  redraw() {
    this.picture = this.pictured();
    this.drawHeads();
    this.layOut();
  }

  // The picture with all columns in sight if they can be, or as wide as they are if that was asked.
  pictured() {
    const room = byId("scroll").clientWidth - document.querySelector(".corner").offsetWidth;
    const wide = new Picture(this.run, {...this.look, scale: 1}).columns.width - 84;
    this.look.scale = this.look.isFull ? 1 : Math.max(LEAST_SCALE, Math.min(1, (room - 90) / wide));
    return new Picture(this.run, this.look);
  }

  fit() {
    this.look.isFull = !this.look.isFull;
    this.redraw();
    byId("scroll").scrollLeft = 0;
  }

  hide(id) {
    if (!this.look.hidden.delete(id)) this.look.hidden.add(id);
    this.redraw();
  }

  showAll() {
    this.look.hidden.clear();
    this.redraw();
  }

  // Moves a column to the place of another: within its node, or its whole node to that of the other.
  move(id, x) {
    const {columns} = this.picture, own = columns.by.get(id), other = columns.at(x);
    if (!own || own === other) return;
    const isNode = own.box !== other.box;
    if (isNode && !(own.box && other.box)) return;
    const list = isNode ? columns.boxes.map(it => it.node) : columns.list.filter(it => it.box === own.box).map(it => it.id);
    const [from, to] = isNode ? [own.box.node, other.box.node] : [id, other.id];
    const place = list.indexOf(to);
    list.splice(list.indexOf(from), 1);
    list.splice(place, 0, from);
    this.look.order = [...this.look.order.filter(it => !list.includes(it)), ...list];
    this.redraw();
  }

  tellCounts() {
    const items = this.run.output?.items ?? [],
          count = kind => items.filter(item => item.kind === kind).length;
    const forged = count("forged"), raw = count("raw");
    const parts = [counted(items.length, "item"), `${count("out")} out`, `${count("reset")} reset`];
    if (raw) parts.push(`${raw} raw`);
    if (forged) parts.push(`${forged} FORGED`);
    byId("about").textContent = parts.join(" · ");
    byId("about").className = forged || items.some(item => this.run.plan.isPastDriver(item)) ? "forged" : "";
  }

  layOut() {
    this.run.place();
    byId("space").style.height = `${this.run.shown.length * HEIGHT + 60}px`;
    byId("space").style.width = `calc(var(--left) + ${this.picture.columns.width}px)`;
    byId("fold").textContent = this.run.groups.some(group => group.isFolded) ? "Unfold all" : "Fold all";
    this.drawStrip();
    this.paint();
  }

  // --- drawing what is in sight ---

  paint() {
    if (!this.run) return;
    const scroll = byId("scroll"), shown = this.run.shown;
    const from = Math.max(0, Math.floor(scroll.scrollTop / HEIGHT) - MARGIN);
    const to = Math.min(shown.length, Math.ceil((scroll.scrollTop + scroll.clientHeight) / HEIGHT) + MARGIN);
    const drawing =
        svg("svg", {width: this.picture.columns.width, height: (to - from) * HEIGHT, class: "drawing"});
    drawing.style.top = `${from * HEIGHT}px`;
    drawing.append(byId("marks").content.cloneNode(true));
    this.picture.into = drawing;
    this.picture.back(from, to);
    const chain = this.chainHere(), inChain = new Set(chain.map(item => item.row)), cells = [];
    for (let place = from; place < to; place++) {
      const row = shown[place], y = (place - from + 0.5) * HEIGHT;
      cells.push(this.rowCell(row, place, inChain));
      this.picture.row(row, y);
    }
    this.picture.chain(chain, from);
    byId("space").replaceChildren(drawing, ...cells);
    byId("scroll").setAttribute("aria-activedescendant", `row${this.at}`);
    this.tell();
  }

  chainHere() {
    const row = this.run.shown[this.at];
    return row?.item ? this.run.chain(row) : [];
  }

  rowCell(row, place, inChain) {
    const made = html("div", `row ${row.kind}`), cell = html("span", "cell");
    made.id = `row${place}`;
    made.setAttribute("role", "option");
    made.style.top = `${place * HEIGHT}px`;
    const group = row.group, isFirst = row.kind === "group" || group.rows[0] === row;
    const fold = html("span", "fold", isFirst && group.rows.length > 1 ? (group.isFolded ? "▸" : "▾") : "");
    if (isFirst) fold.onclick = () => this.fold(group);
    cell.append(fold, ...this.rowText(row));
    const classes = {
      selected: place === this.at,
      after: row.isAfter,
      chain: inChain.has(row),
      hit: this.hits.has(row),
      [this.marked?.kind]: row === this.marked?.row,
      fault: row.fault
    };
    classes.raw = row.item && this.run.plan.isPastDriver(row.item);
    classes.forged = row.item?.kind === "forged" ||
        row.kind === "group" && group.troubles.some(item => item.kind === "forged");
    for (const name in classes)
      if (classes[name]) made.classList.add(name);
    made.append(cell);
    return made;
  }

  rowText(row) {
    if (row.kind === "note") return [html("span", "text", row.text)];
    if (row.kind === "group") return this.groupText(row.group);
    const parts = [];
    if (row.kind === "act") {
      parts.push(
          html("span", "number", `${row.line.number ?? ""}`),
          html("span", this.run.isAttack(row) ? "text is-attack" : "text", row.line.text.trim()));
      if (row.fault) parts.push(html("span", "text trouble", `  ${row.fault}`));
    }
    if (row.item) {
      const isTrouble = this.run.plan.isTrouble(row.item);
      parts.push(
          html("span", "item-number", String(row.item.number)),
          html("span", `text ${isTrouble ? "trouble" : `is-${row.item.kind}`}`, row.item.text));
    }
    return parts;
  }

  groupText(group) {
    const outs = group.outs.length > 3 ? `${group.outs.length} outs` :
                                         group.outs.map(item => item.text.slice(4)).join(", ");
    const parts =
        [html("span", "number", String(group.rows[0].line?.number ?? "")), html("span", "text", group.title)];
    parts.push(html("span", "text dim", outs ? `  ⇒ ${outs}` : `  (${group.items} items)`));
    const troubles = group.troubles.length, raw = group.troubles.filter(item => this.run.plan.isPastDriver(item));
    for (const item of raw) parts.push("  ", html("span", "text is-raw", item.text));
    if (troubles > raw.length)
      parts.push(html("span", "text trouble", `  ✗ ${troubles > 1 ? troubles : group.troubles[0].text}`));
    return parts;
  }

  // The whole run at the right: outs, troubles and forged by their place.
  drawStrip() {
    const strip = byId("strip"), marks = [];
    strip.setAttribute("viewBox", `0 0 18 ${Math.max(1, this.run.shown.length)}`);
    const height = Math.max(1, this.run.shown.length / 300);
    const add = (row, x, width, className) =>
        marks.push(svg("rect", {x, y: row.place, width, height, class: className}));
    const items = this.run.output?.items ?? [];
    const rows = kind =>
        new Map(items.filter(kind).map(item => [Math.round(item.row.place / height), item.row])).values();
    for (const row of rows(item => item.kind === "out")) add(row, 2, 5, "fill-out");
    for (const row of rows(item => this.run.plan.isTrouble(item) && item.kind !== "forged"))
      add(row, 8, 5, "fill-trouble");
    for (const row of rows(item => item.kind === "forged" || this.run.plan.isPastDriver(item)))
      add(row, 0, 18, "fill-forged");
    strip.replaceChildren(...marks);
  }

  // --- the selected row in words ---

  tell() {
    const row = this.run.shown[this.at], more = byId("more");
    more.replaceChildren();
    if (!row) return;
    const say = (...parts) => more.appendChild(html("div")).append(...parts);
    if (row.kind === "group")
      say(html("code", "", row.group.title),
          `: ${counted(row.group.rows.length, "row")}, ${counted(row.group.items, "item")}. Enter unfolds.`);
    if (row.kind === "note") say(row.text);
    if (row.kind === "act" || row.kind === "item") this.tellLine(row, say);
    if (row === this.marked?.row && this.marked.kind === "broken") say(html("span", "is-forged", this.marked.words));
    for (const {module, text} of this.valuesHere(row)) say("Variables of ", html("b", "", module), ": ", html("code", "", text));
    const packet = row.line ? this.run.packetOf(row) : null, acts = this.run.packets.get(packet) ?? [];
    if (acts.length)
      say(`Packet #${packet}: `,
          ...acts.flatMap(it => [this.link(`${it.what}${it.row.isAgain ? " again" : ""} at line ${it.row.line.number ?? "?"}`, it.row), " "]),
          acts[0].row.isLost ? "It is never given." : "");
    const chain = this.chainHere();
    if (chain.length > 1)
      say("Because: ",
          ...chain.flatMap(
              (item, k) => [k ? " ← " : "", this.link(`${item.number} ${item.text}`, item.row)]));
    else if (row.item?.kind === "out" && !this.run.causes)
      say("The causes of an out are shown if what `explain` wrote is opened too.");
    if (row.isAfter) say("This comes after the first `forged`: nothing is promised of it.");
  }

  // The variables of the row's modules: after its group, its line or its item, and before its line.
  valuesHere(row) {
    const rows = row.kind === "group" ? row.group.rows :
                                        this.run.rows.filter(it => it.line === row.line && (row.kind === "act" || it.index <= row.index));
    try {
      return rows.length ? this.run.values.told(rows) : [];
    } catch (error) {
      if (error instanceof RangeError) return [];
      throw error;
    }
  }

  tellLine(row, say) {
    if (row.line.number)
      say(`Line ${row.line.number}: `, html("code", "", row.line.text.trim()));
    if (row.fault) say(row.fault);
    if (row.item)
      say(`Item ${row.item.number}: `, html("code", "", row.item.text),
          ` — ${sayItem(row.item, this.run.plan, this.run.output.items[row.item.number], this.run.presented(row.line))}`);
    else if (!row.line.items.length)
      say("It gave no items.");
  }

  link(text, row) {
    const made = html("a", "", text);
    made.tabIndex = 0;
    made.onclick = () => this.go(row);
    made.onkeydown = event => event.key === "Enter" && this.go(row);
    return made;
  }

  // --- moving ---

  select(place) {
    this.at = Math.max(0, Math.min(this.run.shown.length - 1, place));
    const scroll = byId("scroll"), heads = byId("heads").offsetHeight, y = this.at * HEIGHT;
    if (y < scroll.scrollTop) scroll.scrollTop = y;
    if (y > scroll.scrollTop + scroll.clientHeight - heads - 2 * HEIGHT)
      scroll.scrollTop = y - scroll.clientHeight + heads + 2 * HEIGHT;
    this.aside(this.run.shown[this.at]);
    this.paint();
  }

  // Scrolls sideways to where the row's item is drawn.
  aside(row) {
    if (!row?.item) return;
    const scroll = byId("scroll"), {x} = this.picture.anchor(row.item);
    const room = scroll.clientWidth - document.querySelector(".corner").offsetWidth;
    if (x + 130 > scroll.scrollLeft + room)
      scroll.scrollLeft = x + 130 - room;
    else if (x - 110 < scroll.scrollLeft)
      scroll.scrollLeft = Math.max(0, x - 110);
  }

  go(row) {
    if (row.group.isFolded) {
      row.group.isFolded = false;
      this.layOut();
    }
    const scroll = byId("scroll"), y = row.place * HEIGHT;
    if (y < scroll.scrollTop || y > scroll.scrollTop + scroll.clientHeight - 120)
      scroll.scrollTop = y - scroll.clientHeight / 3;
    this.select(row.place);
  }

  hunt(way, wanted) {
    const rows = this.run.rows, here = this.run.shown[this.at];
    const start = here.kind === "group" && way > 0 ? here.index - 1 : here.index;
    for (let k = start + way; k >= 0 && k < rows.length; k += way)
      if (wanted(rows[k])) return this.go(rows[k]);
  }

  fold(group, isFolded = !group.isFolded) {
    const row = this.run.shown[this.at];
    group.isFolded = isFolded && group.rows.length > 1;
    this.run.place();
    this.at = this.run.rows[row.index].place;
    this.layOut();
  }

  foldAll() {
    const row = this.run.shown[this.at];
    const isFolded = !this.run.groups.some(group => group.isFolded);
    for (const group of this.run.groups) group.isFolded = isFolded && group.rows.length > 1;
    this.run.place();
    this.at = this.run.rows[row.index].place;
    this.layOut();
    this.select(this.at);
  }

  find(text) {
    const inText = part => part?.includes(text);
    const isHit = row => row.kind === "note" ?
        inText(row.text) :
        row.kind === "act" && inText(row.line.text) || inText(row.item?.text);
    this.hits = new Set(text ? this.run.rows.filter(isHit) : []);
    byId("count").textContent = text ? `${this.hits.size} found` : "";
    this.paint();
  }

  nextOfPacket() {
    const row = this.run.shown[this.at],
          acts = row.line ? this.run.packets.get(this.run.packetOf(row)) ?? [] : [];
    const next = acts[(acts.findIndex(it => it.row === row) + 1) % acts.length];
    if (next) this.go(next.row);
  }

  // --- keys, clicks and files ---

  keys() {
    const page = () => Math.floor((byId("scroll").clientHeight - 60) / HEIGHT),
          move = by => this.select(this.at + by);
    const isOut = row => row.item?.kind === "out",
          isTrouble = row => row.item && this.run.plan.isTrouble(row.item);
    const group = () => this.run.shown[this.at].group;
    return {
      ArrowDown: () => move(1),
      ArrowUp: () => move(-1),
      PageDown: () => move(page()),
      PageUp: () => move(-page()),
      Home: () => this.select(0),
      End: () => this.select(this.run.shown.length - 1),
      ArrowLeft: () => this.fold(group(), true),
      ArrowRight: () => this.fold(group(), false),
      Enter: () => this.fold(group()),
      z: () => this.foldAll(),
      p: () => this.nextOfPacket(),
      o: () => this.hunt(1, isOut),
      O: () => this.hunt(-1, isOut),
      x: () => this.hunt(1, isTrouble),
      X: () => this.hunt(-1, isTrouble),
      c: () => this.chainHere()[1] && this.go(this.chainHere()[1].row),
      n: () => this.hunt(1, row => this.hits.has(row)),
      N: () => this.hunt(-1, row => this.hits.has(row)),
      f: () => this.fit(),
      h: () => this.showAll(),
      "/": () => byId("find").focus(),
      "?": () => byId("keys").showModal(),
    };
  }

  listen() {
    const keys = this.keys();
    byId("scroll").addEventListener("keydown", event => {
      if (event.ctrlKey || event.metaKey || event.altKey || !(event.key in keys)) return;
      event.preventDefault();
      keys[event.key]();
    });
    for (const [id, key] of [["next-out", "o"], ["next-trouble", "x"], ["fold", "z"], ["fit", "f"], ["columns", "h"], ["help", "?"]]) {
      byId(id).onclick = () => {
        if (this.run || key === "?") keys[key]();
        if (key !== "?") byId("scroll").focus();
      };
    }
    byId("scroll").addEventListener("scroll", () => requestAnimationFrame(() => this.paint()));
    addEventListener("resize", () => this.run && this.redraw());
    byId("space").addEventListener("click", event => {
      if (event.target.closest(".fold, a") || String(getSelection())) return;
      this.at = Math.min(
          this.run.shown.length - 1,
          Math.floor((event.clientY - byId("space").getBoundingClientRect().top) / HEIGHT));
      this.paint();
    });
    byId("strip").addEventListener("click", event => {
      const place = event.offsetY / byId("strip").clientHeight * this.run.shown.length;
      byId("scroll").scrollTop = place * HEIGHT - byId("scroll").clientHeight / 2;
    });
    this.listenToHeads();
    this.listenToFind();
    this.listenToFiles();
  }

  listenToHeads() {
    const heads = byId("heads"), id = event => event.target.closest("[data-id]")?.dataset.id;
    const place = event => event.clientX - heads.querySelector("svg").getBoundingClientRect().left;
    let dragged = null, begun = 0;
    heads.addEventListener("pointerdown", event => [dragged, begun] = [id(event) ?? null, event.clientX]);
    heads.addEventListener("dblclick", event => id(event) && this.hide(id(event)));
    addEventListener("pointerup", event => {
      if (dragged && Math.abs(event.clientX - begun) > 12) this.move(dragged, place(event));
      dragged = null;
    });
  }

  listenToFind() {
    byId("find").addEventListener("input", event => this.run && this.find(event.target.value));
    byId("find").addEventListener("keydown", event => {
      if (event.key === "Enter") this.keys().n();
      if (event.key === "Escape") this.find(event.target.value = "");
      if (event.key === "Enter" || event.key === "Escape") byId("scroll").focus();
    });
  }

  listenToFiles() {
    const openFiles = async files => this.onopen(await Promise.all([...files].map(file => file.text())));
    byId("files").onchange = event => openFiles(event.target.files);
    addEventListener("dragover", event => event.preventDefault());
    addEventListener("drop", event => {
      event.preventDefault();
      openFiles(event.dataTransfer.files);
    });
    addEventListener("paste", event => {
      const text = event.clipboardData.getData("text");
      if (document.activeElement !== byId("find") && text.trim()) this.onopen([text]);
    });
    byId("save").onclick = () => this.save();
    byId("draw").onclick = () => this.saveDrawing();
    byId("theme").onclick = () => {
      const isDark = (document.documentElement.dataset.theme ??
                      (matchMedia("(prefers-color-scheme: dark)").matches ? "dark" : "")) === "dark";
      document.documentElement.dataset.theme = isDark ? "light" : "dark";
    };
  }

  // Saves a page that holds its run: the texts in base64, so that no text can end the script element.
  save() {
    const encode = text =>
        btoa(Array.from(new TextEncoder().encode(text), byte => String.fromCharCode(byte)).join(""));
    const held = Object.entries(this.texts).map(([name, text]) => `${name} ${encode(text)}`).join("\n");
    const page =
        BARE_PAGE.replace(/(<script type="text\/plain" id="data">)[^<]*/, (_, begin) => begin + held);
    this.saveAs("run.html", "text/html", page);
  }

  saveDrawing() {
    if (!this.run) return;
    if (this.run.shown.length > MOST_ROWS) return this.warn(`Fold groups first: at most ${MOST_ROWS} rows are drawn.`);
    this.saveAs("run.svg", "image/svg+xml", wholePicture(this));
  }

  warn(text) { byId("notes").append(html("div", "", text)); }

  saveAs(name, type, text) {
    const link = html("a");
    link.href = URL.createObjectURL(new Blob([text], {type}));
    link.download = name;
    link.click();
  }

  openHeld() {
    const decode = text =>
        new TextDecoder().decode(Uint8Array.from(atob(text), letter => letter.charCodeAt(0)));
    const held = byId("data").textContent.trim();
    if (!held) return;
    for (const line of held.split("\n")) {
      const [name, text] = line.split(" ");
      this.texts[name] = decode(text);
    }
    this.show();
  }

  // Follows the address: #item=7, #line=12, #fold and #dark, joined by &.
  followAddress() {
    for (const part of location.hash.slice(1).split("&")) {
      const [name, value] = part.split("="),
                   row = name === "item" ? this.run?.output?.items[value - 1]?.row :
          name === "line"                ? this.run?.rows.find(it => it.line?.number === Number(value)) :
                                           null;
      if (row) this.go(row);
      if (name === "fold" && this.run) this.foldAll();
      if (name === "dark") document.documentElement.dataset.theme = "dark";
    }
  }
}

const page = new Page();
page.openHeld();
page.followAddress();

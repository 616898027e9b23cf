// Makes a schedule of one that is written for people, as docs/SCHEDULES.md has it, and runs it as it goes: packets, boots and pieces
// are those that the program showed. A generator here yields a line of the schedule, and gets its items.

const EVENT = 24, ANSWER = 16, EVENT_KIND = 3;
const SET_KEY = 0, ATTEST = 1, EVENT_IN = 2, SAMPLE = 3;
// More events than this aren't carried for one line: there are applications that never rest.
const MOST_CARRIED = 4096;
// How many words a line for people has after its first, and how it is written.
const FORMS = {
  deploy: [1, 32, "deploy all, or deploy MODULE .."],
  sample: [2, 2, "sample MODULE VALUE"],
  carry: [2, 3, "carry MODULE MODULE [CONNECTION or PIECE]"],
  flow: [2, 2, "flow SENSOR VALUE"],
  settle: [0, 0, "settle"],
  windows: [2, 2, "windows IN OUT"],
  packets: [1, 1, "packets NUMBER"],
  boots: [2, 2, "boots NODE NUMBER"],
};

// A line for people that can't be done, in words.
class Mistake extends Error {}

// A module's last call: where its pieces went, which events they surely are, which were carried since, and how many writes to its
// node came before.
class Call {
  constructor(window, pieces, line, writes) {
    this.places = window === null ? [] : Array.from({length: pieces}, (_, k) => window + EVENT * k);
    Object.assign(this, {window, line, writes, sure: [], carried: new Map()});
  }

  // The places of events that aren't there any more and weren't carried.
  lost(pieces) { return this.places.filter(at => !this.carried.has(at) && !pieces.some(it => it.at === at)); }
}

// What the items showed: packets and how long each is, boots, which modules are loaded, attested and have open ends, their last calls,
// and what was written to each node since its last reset.
class Shown {
  constructor(plan) {
    this.plan = plan;
    this.packets = 0;
    this.lengths = new Map();
    this.writes = new Map();
    this.boots = new Map();
    this.loaded = new Set();
    this.attested = new Map();
    this.open = new Map();
    this.calls = new Map();
    this.named = new Map();
  }

  boot(node) { return this.boots.get(node) ?? 0; }

  takeIn(item, line, count) {
    const [kind, first, second, third] = item.split(" "), act = wordsOf(line);
    if (kind === "packet") this.packets = Number(first) + 1;
    if (kind === "packet") this.lengths.set(Number(first), Number(second));
    if (kind === "protect" && second !== "-") this.loaded.add(second);
    if (kind === "attested") this.attested.set(first, Number(second));
    if (kind === "open" && third === "from") this.open.set(first, new Set([...this.open.get(first) ?? [], second]));
    if (kind === "reset") this.reset(first);
    if (kind !== "done") return;
    const isCall = act[0] === "call" && act[1] === first, isAnswer = isCall && numberOf(act[2]) === ATTEST;
    const writes = this.writesTo(this.plan.nodeOf(first)).length;
    this.calls.set(first, new Call(isCall ? numberOf(act[4]) : null, isAnswer ? 0 : Number(third), count, writes));
    this.calls.get(first).sure = this.surePieces(first, this.calls.get(first));
  }

  writesTo(node) { return this.writes.get(node) ?? []; }

  // Remembers what a line wrote to a node's memory, as far as that shows.
  takeInWrite(items, [act, ...fields], place) {
    const done = items.filter(it => it.startsWith("done ")), pieces = done.reduce((count, it) => count + Number(it.split(" ")[3]), 0);
    const [node, at, size, what] = {
      call: done.length && [this.plan.nodeOf(fields[0]), fields[3], EVENT * pieces, `${fields[0]}'s call`],
      give: !items.length && [fields[1], fields[2], this.lengths.get(numberOf(fields[0])), "the `give`"],
      put: !items.length && [fields[0], fields[1], (fields[2] ?? "").length / 2, "the `put`"],
    }[act] || [];
    if (!size) return;
    const write = {begin: numberOf(at), end: numberOf(at) + size, what: `${what} at ${place}`};
    this.writes.set(node, [...this.writesTo(node), write]);
  }

  // What wrote last over one of some places since a module's last call, or nothing that is known.
  writtenOver(sender, node, places) {
    const since = this.writesTo(node).slice(this.calls.get(sender).writes);
    return since.findLast(it => places.some(at => it.begin < at + EVENT && at < it.end))?.what ?? null;
  }

  reset(node) {
    this.writes.delete(node);
    this.boots.set(node, this.boot(node) + 1);
    for (const {name} of this.plan.modulesOf(node)) {
      this.loaded.delete(name);
      this.open.delete(name);
      this.calls.delete(name);
    }
  }

  // The events of a call that was just made, if all open ends are of one output: then each `send` made one for each of them, in this
  // order.
  surePieces(module, {places}) {
    const open = this.plan.from(module).filter(it => this.open.get(module)?.has(it.name));
    if (new Set(open.map(it => it.output)).size !== 1) return [];
    return places.map((at, which) => ({at, connection: open[which % open.length].name}));
  }
}

class Writer {
  // read: the first bytes at places of a node's memory after the lines that were given. `lines` has comments too.
  constructor(plan, read) {
    Object.assign(this, {plan, read});
    this.shown = new Shown(plan);
    this.places = ["0x300", "0x400"];
    this.lines = [];
    this.given = [];
    this.notes = [];
  }

  // --- lines and what they show ---

  * put(...words) {
    const text = words.join(" ");
    this.lines.push(text);
    this.given.push(text);
    const items = yield text;
    this.shown.takeInWrite(items, words, `line ${this.number}`);
    for (const item of items) this.shown.takeIn(item, text, this.given.length);
    return items;
  }

  // Does a line, and marks what was made of it.
  * line(text, number) {
    const words = wordsOf(text), begin = this.lines.length;
    this.number = number;
    if (!words.length || words[0].startsWith("#")) return void this.lines.push(text);
    if (words[0] === "asm")
      yield* this.put(text);
    else
      yield* this.act(words);
    this.lines.splice(begin, 0, `#= line ${number} ${words.join(" ")}`);
  }

  * act(words) {
    let name = "";
    if (words.length > 2 && words.at(-2) === "as") [words, name] = [words.slice(0, -2), words.at(-1)];
    if (name && !Number.isNaN(numberOf(name))) throw new Mistake(`${name} is a number, and no name`);
    const [first, ...rest] = words, form = Object.hasOwn(FORMS, first) ? FORMS[first] : null;
    if (!form) return yield* this.plain(first, rest, name);
    if (name) throw new Mistake(`\`${first}\` names its packets itself`);
    if (rest.length < form[0] || rest.length > form[1])
      throw new Mistake(`\`${first}\` has too many words or too few: ${form[2]}`);
    yield* this[first](...rest);
  }

  // A line of a schedule, perhaps without its windows, its boot or its packet's number.
  * plain(act, fields, name) {
    const [inside, outside] = this.places, isShort = fields.length === 2;
    if (act === "call" && isShort) fields.push(inside, outside);
    if (act === "give" && isShort) fields.push(inside);
    if (act === "take" && isShort) fields.splice(1, 0, outside);
    if (act === "answer" && isShort) fields.splice(1, 0, String(this.shown.boot(this.nodeOf(fields[0]))));
    if (act === "give" && fields.length) fields[0] = this.packet(fields[0]);
    if (act === "answer" && fields.length === 3) fields[2] = this.packet(fields[2]);
    if (name && !["take", "forge", "ask"].includes(act)) throw new Mistake(`\`${act}\` makes no packet to name`);
    const wasAttested = this.shown.attested.has(fields[0]), items = yield* this.put(act, ...fields);
    if (name || act === "ask") this.newPacket(items, `\`${act}\``, name, act === "ask" ? `ask.${fields[0]}` : "");
    if (name) this.lines.push(`# ${name} is packet ${this.shown.named.get(name)}`);
    if (items.some(it => it.startsWith("attested "))) this.keys(fields[0], wasAttested, items);
  }

  // --- names and numbers ---

  nodeOf(name) {
    const {plan} = this, driver = plan.devices.get(name)?.driver;
    if (plan.modules.has(name)) return plan.nodeOf(name);
    if (driver) throw new Mistake(`there is no module ${name}: ${name} is a device, and ${driver} drives it`);
    throw new Mistake(`there is no module ${name}${near(name, [...plan.modules.keys()])}`);
  }

  packet(word) {
    const {named} = this.shown, known = [...named.keys()].sort();
    if (!Number.isNaN(numberOf(word))) return word;
    if (named.has(word)) return String(named.get(word));
    throw new Mistake(`no packet is named ${word}${near(word, known)}; the names so far: ${known.join(" ") || "none"}`);
  }

  // The number of the packet that a line made, under these names too.
  newPacket(items, what, ...names) {
    const made = items.find(it => it.startsWith("packet "));
    if (!made) throw new Mistake(`${what} made no packet: ${this.told(items)}`);
    const number = Number(made.split(" ")[1]);
    for (const name of names.filter(it => it)) this.shown.named.set(name, number);
    return String(number);
  }

  told(items) { return items.map(it => `\`${it}\``).join("; ") || "it showed nothing"; }

  // --- deploying ---

  call(module, entry) { return this.put("call", module, String(entry), ...this.places); }

  // Gives a packet to a module's node, and calls an entry of the module with it.
  * hand(packet, module, entry) {
    const given = yield* this.put("give", packet, this.nodeOf(module), this.places[0]);
    if (given.length) throw new Mistake(`packet ${packet} isn't given to ${module}'s node: ${this.told(given)}`);
    return yield* this.call(module, entry);
  }

  mustBeDone(items, module, what) {
    if (!items.some(it => it.startsWith(`done ${module} 1 `))) throw new Mistake(`${what} failed: ${this.told(items)}`);
  }

  * deploy(...names) {
    const modules = names.join() === "all" ? [...this.plan.modules.keys()] : names, {loaded} = this.shown;
    for (const name of modules) {
      const node = this.nodeOf(name);
      if (loaded.has(name)) throw new Mistake(`${name} is loaded already: \`reset ${node}\` first, or call it as it is`);
    }
    for (const name of modules) {
      const items = yield* this.put("load", name);
      if (!loaded.has(name)) throw new Mistake(`${name} is loaded, and isn't protected then: ${this.told(items)}`);
    }
    for (const name of modules) yield* this.attest(name);
  }

  // Asks a module, hands its answer to the deployer, and the set-key packets that it makes then to their holders.
  * attest(name) {
    const node = this.nodeOf(name), wasAttested = this.shown.attested.has(name);
    const ask = this.newPacket(yield* this.put("ask", name), `asking ${name}`, `ask.${name}`);
    this.mustBeDone(yield* this.hand(ask, name, ATTEST), name, `the attestation of ${name}`);
    const taken = yield* this.put("take", node, this.places[1], String(ANSWER));
    const answer = this.newPacket(taken, "taking the answer", `answer.${name}`);
    const items = yield* this.put("answer", name, String(this.shown.boot(node)), answer);
    if (!items.some(it => it.startsWith("attested ")))
      throw new Mistake(`the deployer refuses ${name}'s answer: ${this.told(items)}`);
    for (const {end, packet} of this.keys(name, wasAttested, items)) yield* this.handKey(end, packet);
  }

  // Which end each set-key packet of an accepted answer is for.
  keys(name, wasAttested, items) {
    const all = [...this.plan.connections.values()].flatMap(({name, sender, receiver}) => [
      {module: sender, connection: name, side: "from"},
      {module: receiver, connection: name, side: "to"},
    ]);
    const own = all.filter(it => it.module === name), ties = new Set(own.map(it => it.connection));
    // (renewed connections get new keys at their other ends too, in modules that were attested)
    const isOther = it => it.module !== name && ties.has(it.connection) && this.shown.attested.has(it.module);
    const ends = wasAttested ? [...own, ...all.filter(isOther)] : own;
    const packets = items.filter(it => it.startsWith("packet ")).map(it => Number(it.split(" ")[1]));
    if (packets.length !== ends.length)
      throw new Mistake(`${ends.length} set-key packets are due, and the deployer made ${packets.length}`);
    return ends.map((end, k) => {
      this.shown.named.set(`key.${end.module}.${end.connection}.${end.side}`, packets[k]);
      return {end, packet: packets[k]};
    });
  }

  // (a module that was attested at an earlier boot of its node is gone, and so is its end)
  * handKey({module, connection}, packet) {
    const {loaded, attested} = this.shown;
    if (!loaded.has(module) || attested.get(module) !== this.shown.boot(this.nodeOf(module))) return;
    const items = yield* this.hand(String(packet), module, SET_KEY);
    this.mustBeDone(items, module, `opening ${connection} in ${module}`);
  }

  // --- readings and events ---

  * sample(name, value) {
    this.nodeOf(name);
    const device = this.plan.deviceOf(name);
    if (device?.kind !== "sensor") throw new Mistake(`${name} drives no sensor`);
    if (!(numberOf(value) <= 32767)) throw new Mistake(`${value} is no value of a sensor: 0 to 32,767`);
    this.mustBeLoaded(name);
    const items = yield* this.put("sense", device.name, value);
    if (!items.some(it => it.startsWith("sense "))) throw new Mistake(`the sample isn't taken: ${this.told(items)}`);
    const called = yield* this.call(name, SAMPLE);
    this.tellStatus(called, name);
    return called;
  }

  mustBeLoaded(name) {
    if (!this.shown.loaded.has(name)) throw new Mistake(this.absence(name));
  }

  // Why a module isn't there.
  absence(name) {
    const node = this.nodeOf(name), boot = this.shown.boot(node);
    return boot ? `${name} isn't loaded on ${node} any more, which was reset: \`deploy ${name}\` renews it` :
                  `${name} isn't loaded on ${node} yet: \`deploy ${name}\` first`;
  }

  // Says of a call that did nothing why; it may be just what was wanted.
  tellStatus(items, name) {
    for (const item of items) {
      const [kind, , status] = item.split(" ");
      if (kind === "done" && status !== "1")
        this.notes.push(`${name} answers with status ${status}: ${WORDS.statuses[status]?.[1] ?? "?"}`);
      if (["reset", "busy", "budget"].includes(kind)) this.notes.push(`\`${item}\``);
    }
  }

  * carry(sender, receiver, which = "") {
    this.nodeOf(sender);
    this.nodeOf(receiver);
    const from = this.plan.from(sender), between = from.filter(it => it.receiver === receiver).map(it => it.name);
    if (!between.length) {
      const to = [...new Set(from.map(it => it.receiver))].sort().join(" ");
      throw new Mistake(`no connection leads from ${sender} to ${receiver}; ${sender} sends to: ${to || "nobody"}`);
    }
    const sent = yield* this.taken(sender, this.find(sender, receiver, between, which));
    this.mustBeLoaded(receiver);
    this.tellStatus(yield* this.hand(sent.packet, receiver, EVENT_IN), receiver);
  }

  // Makes a packet of an event in a window.
  * taken(sender, {at, connection}) {
    const {receiver} = this.plan.connections.get(connection);
    this.shown.calls.get(sender).carried.set(at, connection);
    const items = yield* this.put("take", this.nodeOf(sender), `0x${at.toString(16)}`, String(EVENT));
    return {packet: this.newPacket(items, "taking the event", `event.${sender}.${receiver}`), sender, receiver};
  }

  // The piece that is carried: the first for the receiver that wasn't, of the sender's last call.
  find(sender, receiver, between, which) {
    const call = this.shown.calls.get(sender), place = numberOf(which);
    if (!call) throw new Mistake(`${sender} wasn't called since it was loaded, so it sent nothing`);
    if (call.window === null)
      throw new Mistake(`${sender} was called by other code, and not by a line \`call\`: \`take\` its piece where that put it`);
    if (!call.places.length) throw new Mistake(`${sender} sent nothing at its last call`);
    const pieces = this.pieces(sender, call);
    if (!Number.isNaN(place)) return this.byPlace(sender, pieces, place, receiver);
    if (which && !between.includes(which))
      throw new Mistake(`no connection ${which} leads from ${sender} to ${receiver}: ${between.join(" ")}`);
    const wanted = which ? [which] : between;
    const left = pieces.find(it => wanted.includes(it.connection) && !call.carried.has(it.at));
    if (!left) throw new Mistake(this.nothingFor(sender, receiver, wanted, pieces));
    return left;
  }

  byPlace(sender, pieces, which, receiver) {
    const call = this.shown.calls.get(sender);
    if (which >= call.places.length) throw new Mistake(`there is no piece ${which}: the last call wrote ${call.places.length}`);
    const found = pieces.find(it => it.at === call.places[which]);
    const writer = this.shown.writtenOver(sender, this.nodeOf(sender), [call.places[which]]) ?? "another call or line";
    if (!found) throw new Mistake(`piece ${which} isn't there any more: ${writer} wrote over it`);
    const to = this.plan.connections.get(found.connection).receiver;
    if (to !== receiver) throw new Mistake(`piece ${which} is for ${to}, by ${found.connection}, and not for ${receiver}`);
    return found;
  }

  nothingFor(sender, receiver, wanted, pieces) {
    const {open, calls} = this.shown, closed = wanted.filter(it => !open.get(sender)?.has(it));
    if (closed.length)
      return `${sender} has no key for ${closed.join(" ")} yet, so it sent nothing to ${receiver}: \`deploy\` both`;
    const call = calls.get(sender), others = call.sure.filter(it => !wanted.includes(it.connection)).map(it => it.at);
    const lost = call.lost(pieces).filter(at => !others.includes(at)), node = this.nodeOf(sender);
    if (lost.length) {
      const writer = this.shown.writtenOver(sender, node, lost) ?? `another call or line on ${node}`;
      return `no event for ${receiver} is in the window of ${sender} any more: ${writer} wrote over what it sent; \`carry ${sender} ${
          receiver}\` before that, or set other \`windows\` for it`;
    }
    if ([...call.carried.values()].some(it => wanted.includes(it)))
      return `what ${sender} sent to ${receiver} at its last call was carried; \`give event.${sender}.${receiver} NODE\` gives it again`;
    const there = pieces.map(it => `${it.connection} to ${this.plan.connections.get(it.connection).receiver}`);
    return `no event for ${receiver} is in the window: there is ${there.join(", ") || "none"}`;
  }

  // The events of the sender in the window, as they are there now; by what the packets say, and not by their places.
  pieces(sender, call) {
    if (call.line === this.given.length && call.sure.length) return call.sure;
    const found = this.read(this.nodeOf(sender), call.places, this.given), connections = [...this.plan.connections.values()];
    return call.places.flatMap((at, k) => {
      const [low, high, link] = found[k], connection = connections[link];
      const isEvent = low + 256 * high === EVENT_KIND && connection?.sender === sender;
      return isEvent ? [{at, connection: connection.name}] : [];
    });
  }

  // A reading, and then every event that follows, as `drive` delivers them.
  * flow(sensor, value) {
    const {devices, modules} = this.plan, driver = devices.get(sensor)?.driver ?? sensor;
    if (!modules.has(driver)) {
      const known = [...devices.keys(), ...modules.keys()];
      throw new Mistake(`there is no sensor ${sensor} that a module drives, and no module of this name${near(sensor, known)}`);
    }
    const items = yield* this.sample(driver, value);
    yield* this.deliver(yield* this.sentAt(driver, items));
  }

  // Carries what is on its way, and what follows, until nothing is.
  * settle() {
    const waiting = [], calls = [...this.shown.calls].sort((one, other) => one[1].line - other[1].line);
    for (const [name] of calls) waiting.push(...yield* this.onTheWay(name));
    if (!waiting.length) this.notes.push("nothing is on its way");
    yield* this.deliver(waiting);
  }

  // Takes the events of a module's last call that are in their window and weren't carried.
  * onTheWay(sender) {
    const call = this.shown.calls.get(sender), sent = [];
    if (!call?.places.length) return sent;
    for (const piece of this.pieces(sender, call).filter(it => !call.carried.has(it.at)))
      sent.push(yield* this.taken(sender, piece));
    return sent;
  }

  // Takes the events of a call of a module, if it was left.
  * sentAt(sender, items) {
    return items.some(it => it.startsWith(`done ${sender} `)) ? yield* this.onTheWay(sender) : [];
  }

  // Gives the oldest event to its module, whose events are taken then, until none waits.
  * deliver(waiting) {
    for (let count = 0; waiting.length; count++) {
      if (count === MOST_CARRIED) throw new Mistake(`${MOST_CARRIED} events were carried, and the application doesn't come to rest`);
      const {packet, sender, receiver} = waiting.shift();
      if (!this.shown.loaded.has(receiver)) {
        this.notes.push(`the event of ${sender} isn't delivered: ${this.absence(receiver)}`);
        continue;
      }
      const items = yield* this.hand(packet, receiver, EVENT_IN);
      this.tellStatus(items, receiver);
      waiting.push(...yield* this.sentAt(receiver, items));
    }
  }

  // --- settings ---

  * windows(inside, outside) {
    for (const it of [inside, outside])
      if (!(numberOf(it) <= 65535)) throw new Mistake(`${it} is no address`);
    this.places = [inside, outside];
  }

  * packets(count) {
    const {packets} = this.shown;
    if (numberOf(count) !== packets) this.notes.push(`the next packet is ${packets}, as the program shows; \`packets\` is no longer needed`);
  }

  * boots(node, count) {
    const boot = this.shown.boot(node);
    if (numberOf(count) !== boot) this.notes.push(`${node} is at boot ${boot}, as the program shows; \`boots\` is no longer needed`);
  }
}

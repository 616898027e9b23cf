// The deployment, as far as a picture needs it: nodes, modules, devices and connections by name, from the lines that `describe` prints.

class Plan {
  constructor(described, output) {
    this.nodes = [];
    this.modules = new Map();
    this.devices = new Map();
    this.connections = new Map();
    for (const line of splitLines(described ?? "")) this.read(line.split(" "));
    this.isRead = this.nodes.length > 0;
    for (const item of output?.items ?? []) this.learn(item);
  }

  read([kind, name, ...words]) {
    const [, first, , second, , , , third] = words;
    if (kind === "node") this.addNode(name);
    if (kind === "device") this.addDevice({name, node: first, kind: second, driver: third === "-" ? null : third});
    if (kind === "module") this.addModule({name, node: first});
    if (kind === "connection") this.addConnection(name, first, second);
  }

  addNode(name) {
    if (!this.nodes.includes(name)) this.nodes.push(name);
  }

  addDevice(device) {
    this.devices.set(device.name, device);
    this.addNode(device.node);
  }

  addModule(module) {
    this.modules.set(module.name, module);
    this.addNode(module.node);
  }

  addConnection(name, from, to) {
    const [sender, output] = from.split("."), [receiver, input] = to.split(".");
    this.connections.set(name, {name, sender, output, receiver, input, text: `${from} → ${to}`});
  }

  // Takes names from an item that no deployment gave.
  learn({kind, words}) {
    if (["reset", "protect", "busy", "skip", "budget"].includes(kind)) this.addNode(words[1]);
    const first = () => {
      if (!this.nodes.length) this.addNode("?");
      return this.nodes[0];
    };
    if (kind === "protect" && words[2] !== "-" && !this.modules.has(words[2]))
      this.addModule({name: words[2], node: words[1]});
    if (["read", "out", "vouch", "open", "take", "done", "attested", "ask"].includes(kind) &&
        !this.modules.has(words[1]))
      this.addModule({name: words[1], node: first()});
    if (["sense", "drain", "raw"].includes(kind) && !this.devices.has(words[1]))
      this.addDevice({name: words[1], node: first(), kind: kind === "raw" ? "actuator" : "sensor", driver: null});
  }

  nodeOf(module) { return this.modules.get(module)?.node; }

  modulesOf(node) { return [...this.modules.values()].filter(module => module.node === node); }

  // The connections that lead from a module.
  from(module) { return [...this.connections.values()].filter(connection => connection.sender === module); }

  deviceOf(module) { return [...this.devices.values()].find(device => device.driver === module); }

  // Whether an actuator that a module drives was written past its driver.
  isPastDriver({kind, words}) { return kind === "raw" && Boolean(this.devices.get(words[1])?.driver); }

  isTrouble({kind, words}) {
    if (kind === "reset") return words[2] !== "asked";
    if (kind === "done") return words[2] !== "1";
    if (kind === "raw" || kind === "drain") return Boolean(this.devices.get(words[1])?.driver);
    return ["denied", "busy", "skip", "budget", "forged"].includes(kind);
  }
}

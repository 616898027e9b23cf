// What is wrong with the tables of a deployment, a line each: keys, names, ties, places and counts (rules D4, D5, D6, D9, D10).

// Below the last of these places are the windows to which lines for people have packets written.
const LOWEST = 0x0200, HIGHEST = 0xffe0, ABOVE_WINDOWS = 0x0600;
const MOST_ENTRIES = {node: 16, device: 32, module: 32, connection: 64};
const TYPES = {
  top: {secret: "32 digits", node: "tables", device: "tables", module: "tables", connection: "tables"},
  node: {name: "text", key: "32 digits"},
  device: {name: "text", node: "text", kind: "kind", at: "word"},
  module: {name: "text", node: "text", provider: "word", text: "word", source: "text"},
  connection: {name: "text", from: "port", to: "port"},
};
const OPTIONAL = {module: {data: "word", device: "text"}};
const FORMS = {
  "word": ["an integer from 0 to 65,535", it => Number.isInteger(it) && it >= 0 && it <= 65535],
  "tables": ["an array of tables", it => Array.isArray(it) && it.every(isTable)],
  "32 digits": ["32 hexadecimal digits", it => /^[0-9A-Fa-f]{32}$/.test(it)],
  "kind": ["`sensor` or `actuator`", it => /^(sensor|actuator)$/.test(it)],
  "port": ["`module.port`", it => /^[^.]*\.[^.]*$/.test(it)],
  "text": ["a string", it => typeof it === "string"],
};

// What a value is that doesn't suit.
function givenValue(value, form) {
  if (typeof value === "string" && form === "32 digits")
    return value.length === 32 ? "has others" : `has ${value.length} characters`;
  if (typeof value === "object" && !Array.isArray(value)) return "is one table";
  return typeof value === "string" ? `is "${value.slice(0, 40)}"` : `is ${String(value).slice(0, 40)}`;
}

function badKeys(kind, entry) {
  if (!isTable(entry)) return [`it is ${String(entry).slice(0, 40)}, and must be a table`];
  const wanted = TYPES[kind], forms = {...wanted, ...OPTIONAL[kind]}, known = Object.keys(forms);
  const lines = Object.keys(entry).filter(it => !known.includes(it)).map(it => `the key \`${it}\` is unknown here${near(it, known)}`);
  if (kind !== "top")
    lines.push(...Object.keys(wanted).filter(it => !(it in entry)).map(it => `the key \`${it}\` is missing`));
  if (kind === "module" && ("data" in entry) === ("device" in entry))
    lines.push("exactly one of `data` and `device` must be there");
  for (const [key, form] of Object.entries(forms)) {
    const [said, suits] = FORMS[form];
    if (key in entry && !suits(entry[key])) lines.push(`\`${key}\` must be ${said}, and ${givenValue(entry[key], form)}`);
  }
  return lines;
}

function badNames(kind, index, plan) {
  const entry = plan.by[kind][index], name = String(entry.name ?? ""), lines = [];
  if (!/^[a-z][a-z0-9_]{0,15}$/.test(name))
    lines.push(`\`${name}\` is no name: a lower-case letter and up to 15 lower-case letters, digits or _`);
  if (plan.names(kind).indexOf(name) < index) lines.push(`the name \`${name}\` is taken by an earlier ${kind}`);
  if (kind === "module" && name === "deployer") lines.push("no module may be named `deployer`");
  for (const key of ["node", "device"]) {
    if (!["device", "module"].includes(kind) || !(key in entry) || plan.names(key).includes(entry[key])) continue;
    lines.push(`there is no ${key} \`${entry[key]}\`${near(entry[key], plan.names(key))}`);
  }
  return lines;
}

function badEnd(entry, key, plan) {
  const module = moduleOf(entry[key]), port = portOf(entry[key]), word = {from: "output", to: "input"}[key];
  if (!plan.named("module", module))
    return [`\`${key}\` names no module \`${module}\`${near(module, plan.names("module"))}`];
  const tree = plan.tree(module), found = tree ? namesOf(tree, word) : [];
  if (found.includes(port)) return [];
  return [`\`${key}\`: the module ${module} has no ${word} \`${port}\`; its ${word}s: ${found.join(" ") || "none"}${near(port, found)}`];
}

// How a module and its device, or a connection and its modules, don't fit.
function badTies(kind, index, plan) {
  const entry = plan.by[kind][index];
  if (kind === "connection") return [...badEnd(entry, "from", plan), ...badEnd(entry, "to", plan)];
  const device = plan.named("device", entry.device), lines = [];
  const declared = plan.tree(entry.name)?.declared.find(it => ["sensor", "actuator"].includes(it.kind))?.kind;
  if (device && device.node !== entry.node)
    lines.push(`the device ${device.name} is on node ${device.node}, and the module on ${entry.node}`);
  if (device && !declared)
    lines.push(`its source declares no ${device.kind}, which its device ${device.name} is: a line \`${device.kind};\``);
  else if (device && declared !== device.kind)
    lines.push(`its source declares ${withArticle(declared)}, and its device ${device.name} is ${withArticle(device.kind)}`);
  else if (declared && !device)
    lines.push(`its source declares ${withArticle(declared)}, and it has no \`device\``);
  const ends = plan.ends(entry.name);
  if (ends > 16) lines.push(`it has ${ends} ends of connections, and at most 16 may be there`);
  if (lines.length) return lines;
  return ["a handler of it can make more than 16 packets: its sends, each once for each connection from that output"];
}

// What is wrong with the place of a section of a module, beside other sections.
function badSection(plan, module, range, others) {
  const lines = [], isPublic = range.what.startsWith("the public");
  if (range.begin % 2) lines.push(`${range.told} begins at an odd place`);
  if (range.begin < LOWEST) lines.push(`${range.told} begins below 0x0200`);
  if (range.end > HIGHEST) lines.push(`${range.told} ends ${range.end - HIGHEST} bytes above 0xffe0`);
  for (const other of others.filter(it => range.shares(it)))
    lines.push(`${range.told} and ${other.told} ${range.shares(other)}`);
  for (const device of plan.by.device.filter(it => it.node === module.node && range.shares(wordRange(it)))) {
    if (isPublic || device.name !== module.device)
      lines.push(`${range.told} holds the word of the device ${device.name}, ${hex(device.at)}`);
  }
  return lines;
}

const wordRange = ({name, at}) => new Range(`the word of ${name}`, at, at + 2);

// What a node has: sections and words of devices, those of a driver in its private section.
function takenOn(plan, node) {
  const modules = plan.by.module.filter(it => it.node === node), driven = modules.map(it => it.device);
  const words = plan.by.device.filter(it => it.node === node && !driven.includes(it.name)).map(wordRange);
  return [...words, ...modules.flatMap(it => plan.sections(it))];
}

// The first place from one on, or else above the windows, where so many bytes meet nothing; at a page, if one has room.
function freePlace(size, taken, begin) {
  const isFree = at => at >= ABOVE_WINDOWS && at <= HIGHEST - size && !taken.some(it => it.shares(new Range("", at, at + size)));
  for (const unit of [256, 2]) {
    const starts = [begin, ABOVE_WINDOWS, ...taken.map(it => it.end)].map(at => Math.ceil(at / unit) * unit);
    const free = starts.filter(isFree).sort((one, other) => one - other);
    if (free.length) return free.find(at => at >= begin) ?? free[0];
  }
  return null;
}

function toldRoom(range, node, key, at) {
  const size = (range.end - range.begin).toLocaleString("en");
  return at === null ? `node ${node} has no room for ${range.what}, ${size} bytes` :
                       `the next free place on ${node} for ${range.what}: \`${key} = ${hex(at)}\``;
}

// Where on its node sections of a module have room, one beside the other.
function toldRooms(plan, module, wrong) {
  const taken = takenOn(plan, module.node).filter(it => !wrong.some(other => it.is(other)));
  return wrong.map(it => {
    const at = freePlace(it.end - it.begin, taken, it.begin);
    const key = it.what.startsWith("the public") ? "text" : "data" in module ? "data" : "at";
    if (at !== null) taken.push(new Range("", at, at + it.end - it.begin));
    return toldRoom(it, module.node, key, at) + (key === "at" ? ` of its device ${module.device}` : "");
  });
}

// What is wrong with the places of a module's sections, and where they have room.
function badSections(index, plan) {
  const modules = plan.by.module, module = modules[index], own = plan.sections(module);
  const earlier = modules.slice(0, index).filter(it => it.node === module.node).flatMap(it => plan.sections(it));
  const found = own.map((it, k) => badSection(plan, module, it, k ? [...earlier, own[0]] : earlier));
  return [...found.flat(), ...toldRooms(plan, module, own.filter((_, k) => found[k].length))];
}

function badPlaces(kind, index, plan) {
  if (kind === "module") return badSections(index, plan);
  const device = plan.by.device[index], {at} = device, lines = [];
  if (at % 2 || at < LOWEST || at >= HIGHEST)
    lines.push(`its place ${hex(at)} is odd, below 0x0200, or 0xffe0 or above`);
  const others = plan.by.device.filter(it => it !== device && it.node === device.node && it.at === at);
  lines.push(...others.map(it => `the device ${it.name} is at ${hex(at)} too`));
  const own = plan.sections(plan.driverOf(device.name) ?? {})[1] ?? wordRange(device);
  const taken = takenOn(plan, device.node).filter(it => !it.is(own));
  return [...lines, toldRoom(own, device.node, "at", freePlace(own.end - own.begin, taken, at))];
}

// Which of the entries are too many.
function badCounts(plan) {
  const many = KINDS.filter(kind => plan.by[kind].length > MOST_ENTRIES[kind]);
  const crowded = plan.names("node").map(node => [node, plan.by.module.filter(it => it.node === node).length]);
  return [
    ...many.map(kind => `${plan.by[kind].length} ${kind}s, and at most ${MOST_ENTRIES[kind]}`),
    ...crowded.filter(([, count]) => count > 8).map(([node, count]) => `${count} modules on node ${node}, and at most 8`),
  ];
}

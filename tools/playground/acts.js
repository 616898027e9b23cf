// Which words the lines of a schedule and the queries of Snap have, and what each takes.

// A field by its name, and for a number the least and the greatest.
const number = (name, least, greatest) => ({name, least, greatest});
const NODE = {name: "NODE"}, MODULE = {name: "MODULE"}, DEVICE = {name: "DEVICE"}, REGISTER = {name: "REGISTER"};
const wordNamed = name => number(name, 0, 65535), countNamed = name => number(name, 0, 2 ** 32 - 1);
const bytesTo = greatest => ({name: "HEX", bytes: greatest});
const REGISTERS = ["pc", "sp", "sr", "r0", "r1", "r2", ...Array.from({length: 12}, (_, k) => `r${k + 4}`)];

const ACT_FIELDS = {
  run: [NODE, number("STEPS", 1, 65535)],
  finish: [NODE],
  put: [NODE, wordNamed("ADDRESS"), bytesTo(1024)],
  asm: [NODE, wordNamed("ADDRESS"), {name: "TEXT"}],
  set: [NODE, REGISTER, wordNamed("VALUE")],
  take: [NODE, wordNamed("ADDRESS"), number("LENGTH", 1, 384)],
  give: [countNamed("PACKET"), NODE, wordNamed("ADDRESS")],
  forge: [bytesTo(384)],
  sense: [DEVICE, number("VALUE", 0, 32767)],
  irq: [NODE, number("LINE", 0, 14)],
  reset: [NODE],
  ask: [MODULE],
  answer: [MODULE, countNamed("BOOT"), countNamed("PACKET")],
  load: [MODULE],
  call: [MODULE, wordNamed("ENTRY"), wordNamed("IN"), wordNamed("OUT")],
};
const LINE = number("L", 0, 65536);
const QUERIES = {
  regs: [NODE, LINE],
  bytes: [NODE, wordNamed("AT"), number("LEN", 1, 64), LINE],
  items: [number("L", 1, 65536)],
};

const sensorsOf = plan => plan.by.device.filter(it => it.kind === "sensor").map(it => String(it.name));

// The words that suit a field; null if they are no names.
function namesFor({name}, plan) {
  if (name === "REGISTER") return REGISTERS;
  if (name === "DEVICE") return plan && sensorsOf(plan);
  return plan && ["NODE", "MODULE"].includes(name) ? plan.names(name.toLowerCase()) : null;
}

function suitsField(field, text, plan) {
  if (field.bytes) return /^([0-9A-Fa-f]{2})+$/.test(text) && text.length <= 2 * field.bytes;
  if (field.greatest) return numberOf(text) >= field.least && numberOf(text) <= field.greatest;
  return namesFor(field, plan)?.includes(text) ?? true;
}

function toldField(field, plan) {
  const shown = value => value.toLocaleString("en");
  if (field.bytes) return `1 to ${shown(field.bytes)} bytes, two hexadecimal digits each`;
  if (field.greatest) return `${field.name}, a number from ${shown(field.least)} to ${shown(field.greatest)}`;
  const what = field.name === "DEVICE" ? "sensor" : field.name.toLowerCase();
  return `a ${what}: ${(namesFor(field, plan) ?? []).join(" ") || "none"}`;
}

const toldFields = (first, table) => [first, ...(table[first] ?? []).map(it => it.name)].join(" ");

// {column, notes} of the first field of a line that doesn't suit.
function badField(line, fields, plan) {
  const words = [...line.matchAll(/[^ \t]+/g)].slice(1);
  const at = words.findIndex((it, k) => fields[k] && !suitsField(fields[k], it[0], plan));
  if (at < 0) return {notes: []};
  const names = namesFor(fields[at], plan) ?? [];
  return {column: words[at].index + 1, notes: [`expected: ${toldField(fields[at], plan)}${near(words[at][0], names)}`]};
}

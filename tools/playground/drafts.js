// The texts that a person wrote here. The browser keeps each until it is emptied, so that neither another example nor
// a page that is closed loses one.

const DRAFT = "sancus text ";

// What the browser keeps for this page, if it does.
function storage() {
  try {
    return globalThis.localStorage ?? null;
  } catch {
    return null;
  }
}

class Drafts {
  constructor() {
    this.storage = storage();
    this.texts = new Map();
    this.saved = new Set();
    for (const name of this.stored()) this.texts.set(name, this.storage.getItem(DRAFT + name));
  }

  // The names of what is kept, in the order in which they were begun.
  stored() {
    const names = Object.keys(this.storage ?? {}).filter(key => key.startsWith(DRAFT)).map(key => key.slice(DRAFT.length));
    return names.sort((one, other) => one.localeCompare(other, "en", {numeric: true}));
  }

  // (another page may have begun some since)
  newName() {
    const numbers = [...this.texts.keys(), ...this.stored()].map(name => Number(name.split(" ")[1]));
    return `own ${Math.max(0, ...numbers) + 1}`;
  }

  keep(name, text) {
    if (!text.trim()) return this.drop(name);
    this.texts.set(name, text);
    try {
      this.storage?.setItem(DRAFT + name, text);
    } catch {
      // (there is no room: the browser asks before the page is left)
    }
  }

  drop(name) {
    this.texts.delete(name);
    this.storage?.removeItem(DRAFT + name);
  }

  // Whether each is kept beyond this page, by the browser or in a file.
  get areSafe() {
    const isSafe = ([name, text]) => this.saved.has(text) || this.storage?.getItem(DRAFT + name) === text;
    return [...this.texts].every(isSafe);
  }
}

// A text's first line, as far as it fits a list.
const MOST_TITLE = 28;

function titleOf(text) {
  const line = splitLines(text).find(it => it.trim())?.replace(/^[#\s]+/, "") ?? "";
  return line.length > MOST_TITLE ? `${line.slice(0, MOST_TITLE)}…` : line;
}

// All texts that the desk can show, by name: a person's own, the one that was opened, and the examples.
class Sources {
  constructor(examples) {
    this.drafts = new Drafts();
    this.examples = examples;
    this.opened = null;
  }

  text(name) {
    return this.drafts.texts.get(name) ?? (name === OPENED ? this.opened : this.examples[name]) ?? null;
  }

  isDraft(name) { return this.drafts.texts.has(name); }

  // The name of a text that is one of these, whole.
  nameOf(text) {
    const names = [...this.drafts.texts.keys(), OPENED, ...Object.keys(this.examples)];
    return names.find(name => this.text(name) === text) ?? null;
  }

  get lastDraft() { return [...this.drafts.texts.keys()].at(-1) ?? null; }

  options() {
    const group = (label, options) => {
      const made = html("optgroup");
      made.label = label;
      made.append(...options);
      return made;
    };
    const own = [...this.drafts.texts].map(([name, text]) => new Option(`${name}: ${titleOf(text)}`, name));
    if (this.opened !== null) own.push(new Option("(opened)", OPENED));
    const examples = Object.keys(this.examples).map(name => new Option(name, name));
    return [...(own.length ? [group("Yours", own)] : []), group("Examples", examples)];
  }
}

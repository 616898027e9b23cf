"use strict";

// Reads the TOML in which deployments are written. It refuses less than the program, which alone judges.
class Toml {
  constructor(text) {
    this.text = text;
    this.at = 0;
  }

  static read(text) { return new Toml(text).document(); }

  fail(what) {
    const before = this.text.slice(0, this.at).split("\n"), line = before.length, column = before.at(-1).length + 1;
    throw Object.assign(new Error(`line ${line}: ${what}`), {what, line, column});
  }

  // Takes what the pattern, a sticky one, finds here.
  take(pattern) {
    pattern.lastIndex = this.at;
    const found = pattern.exec(this.text);
    if (found) this.at += found[0].length;
    return found ? found[0] : null;
  }

  skip(acrossLines) { this.take(acrossLines ? /(?:[ \t\r\n]|#[^\n]*)*/y : /[ \t]*/y); }

  skips(token) {
    if (!this.text.startsWith(token, this.at)) return false;
    this.at += token.length;
    return true;
  }

  expect(token) {
    if (!this.skips(token)) this.fail(`${token} is missing`);
  }

  document() {
    const root = {};
    let table = root;
    for (this.skip(true); this.at < this.text.length; this.skip(true)) {
      if (this.skips("[["))
        table = this.header(root, "]]");
      else if (this.skips("["))
        table = this.header(root, "]");
      else
        this.pair(table);
    }
    return root;
  }

  header(root, closing) {
    const keys = this.keys(), made = {};
    this.expect(closing);
    const holder = Toml.inner(root, keys.slice(0, -1)), last = keys.at(-1);
    if (closing === "]]")
      (holder[last] ??= []).push(made);
    else
      holder[last] = made;
    return made;
  }

  static inner(table, keys) {
    for (const key of keys) table = Array.isArray(table[key]) ? table[key].at(-1) : (table[key] ??= {});
    return table;
  }

  keys() {
    const keys = [];
    do {
      this.skip(false);
      keys.push(
          /["']/.test(this.text[this.at]) ? this.string() :
                                            this.take(/[A-Za-z0-9_-]+/y) ?? this.fail("no key"));
      this.skip(false);
    } while (this.skips("."));
    return keys;
  }

  pair(table) {
    const keys = this.keys();
    this.expect("=");
    Toml.inner(table, keys.slice(0, -1))[keys.at(-1)] = this.value();
  }

  value() {
    this.skip(false);
    if (/["']/.test(this.text[this.at])) return this.string();
    if (this.skips("[")) return this.list("]", [], list => list.push(this.value()));
    if (this.skips("{")) return this.list("}", {}, table => this.pair(table));
    const word = (this.take(/[^\s,\]}#]+/y) ?? this.fail("no value")).replaceAll("_", "");
    return /^[+-]?(0x[0-9a-fA-F]+|0o[0-7]+|0b[01]+|[0-9]+)$/.test(word) ? Number(word) : word;
  }

  list(closing, made, one) {
    for (this.skip(true); !this.skips(closing); this.skip(true)) {
      one(made);
      this.skip(true);
      if (!this.skips(",") && this.text[this.at] !== closing) this.fail(`${closing} is missing`);
    }
    return made;
  }

  string() {
    const quote = this.text[this.at],
          closing = this.text.startsWith(quote.repeat(3), this.at) ? quote.repeat(3) : quote;
    this.at += closing.length;
    if (closing.length === 3) this.take(/\r?\n/y);
    let text = "";
    while (!this.skips(closing)) {
      if (this.at >= this.text.length) this.fail("a string isn't closed");
      if (quote === "\"" && this.skips("\\"))
        text += this.escaped();
      else
        text += this.text[this.at++];
    }
    return text;
  }

  escaped() {
    if (this.take(/[ \t]*\r?\n\s*/y) !== null) return "";
    const letter = this.text[this.at++];
    const plain = {b: "\b", t: "\t", n: "\n", f: "\f", r: "\r", e: "\x1b", "\"": "\"", "\\": "\\"};
    if (letter in plain) return plain[letter];
    const digits = {x: 2, u: 4, U: 8}[letter] ?? this.fail("an unknown escape");
    this.at += digits;
    return String.fromCodePoint(parseInt(this.text.slice(this.at - digits, this.at), 16));
  }
}

// Reads a module's source as docs/LANGUAGE.md has it: tokens and tree, and at a fault what could have been there. The program
// alone judges a source.

const KEYWORDS = new Set("sensor actuator input output var array on sample let if else repeat send emit".split(" "));
const COMPARED = ["==", "!=", "<", "<=", ">", ">="], SUMMED = ["+", "-", "|", "^"], MULTIPLIED = ["*", "&"];
const UNARY = ["-", "~", "!"];
const NAMED = "a name", NUMBER = "a number", END = "the end", NONE = "none";
// How many brackets and unary operators are open at a time, and how many operators one sum or term has.
const MOST_OPEN = 48, MOST_IN_CHAIN = 48;
const GREATEST = 65535;

// The longest number at the start of digits that isn't above 65,535.
function longestNumber(digits) {
  let end = digits.startsWith("0x") ? 3 : 1;
  while (end < digits.length && Number(digits.slice(0, end + 1)) <= GREATEST) end++;
  return digits.slice(0, end);
}

// A token is {kind, text, at}: its kind is the word or sign itself, or one of the names above.
function nextToken(source, from) {
  let at = from;
  const found = pattern => {
    pattern.lastIndex = at;
    return pattern.exec(source)?.[0] ?? "";
  };
  at += found(/(?:[ \t\n]|\/\/[^\n]*)*/y).length;
  if (at >= source.length) return {kind: END, text: "", at: source.length};
  const digits = found(/0x[0-9A-Fa-f]+|[0-9]+/y);
  if (digits) return {kind: NUMBER, text: longestNumber(digits), at};
  const name = found(/[a-z][a-z0-9_]{0,15}/y);
  if (name) return {kind: KEYWORDS.has(name) ? name : NAMED, text: name, at};
  const sign = found(/==|!=|<=|>=|[-+|^*&~!<>=;(){}[\]]/y);
  return sign ? {kind: sign, text: sign, at} : {kind: NONE, text: String.fromCodePoint(source.codePointAt(at)), at};
}

// The first token that the grammar doesn't allow, and what it allows there.
class NotInGrammar extends Error {
  constructor(token, expected, bound) {
    super(`not in the grammar: ${token.text}`);
    Object.assign(this, {token, expected, bound});
  }
}

// Reads one module. What was looked for at the next token is kept, to be told if none of it is there.
class Parser {
  constructor(source) {
    this.source = source;
    this.token = nextToken(source, 0);
    this.looked = new Set();
    this.open = 0;
  }

  advance() {
    const {token} = this;
    this.token = nextToken(this.source, token.at + Math.max(1, token.text.length));
    this.looked = new Set();
    return token;
  }

  sees(...kinds) {
    for (const kind of kinds) this.looked.add(kind);
    return kinds.includes(this.token.kind);
  }

  fail(bound = "") { return new NotInGrammar(this.token, new Set(this.looked), bound); }

  take(...kinds) {
    if (!this.sees(...kinds)) throw this.fail();
    return this.advance();
  }

  // Takes an opening bracket, or an operator before its operand.
  begin(...kinds) {
    if (this.sees(...kinds) && this.open === MOST_OPEN)
      throw this.fail("more than 48 brackets and unary operators are open here");
    this.open++;
    return this.take(...kinds);
  }

  finish(kind) {
    this.take(kind);
    this.open--;
  }

  module() {
    const declared = [], handlers = [];
    while (this.sees("sensor", "actuator", "input", "output", "var", "array")) declared.push(this.declaration());
    while (this.sees("on", "sample")) handlers.push(this.handler());
    this.take(END);
    return {declared, handlers};
  }

  // {kind, name, value, at}: the value is a variable's first one, or an array's length.
  declaration() {
    const {kind, at} = this.advance();
    if (kind === "sensor" || kind === "actuator") {
      this.take(";");
      return {kind, name: "", value: 0, at};
    }
    const name = this.take(NAMED), made = {kind, name: name.text, value: 0, at: name.at};
    if (kind === "var" && this.sees("=")) {
      this.advance();
      made.value = Number(this.take(NUMBER).text);
    }
    if (kind === "array") {
      this.take("[");
      made.value = Number(this.take(NUMBER).text);
      this.take("]");
    }
    this.take(";");
    return made;
  }

  // {input, parameter, body, ..}: the input is null for the handler of samples.
  handler() {
    const first = this.advance(), name = first.kind === "on" ? this.take(NAMED) : null;
    this.take("(");
    const parameter = this.take(NAMED);
    this.take(")");
    const body = this.block();
    return {input: name?.text ?? null, parameter: parameter.text, body, at: (name ?? first).at, parameterAt: parameter.at};
  }

  block() {
    const found = [];
    this.begin("{");
    while (!this.sees("}")) found.push(this.statement());
    this.finish("}");
    return found;
  }

  statement() {
    if (this.sees("if")) return this.choice();
    if (this.sees("repeat")) {
      const {at} = this.advance(), count = Number(this.take(NUMBER).text);
      return {kind: "repeat", count, body: this.block(), at};
    }
    const made = this.simple();
    this.take(";");
    return made;
  }

  choice() {
    const {at} = this.advance(), test = this.expression(), then = this.block();
    let other = [];
    if (this.sees("else")) {
      this.advance();
      other = this.block();
    }
    return {kind: "if", test, then, other, at};
  }

  simple() {
    const first = this.take("let", "send", "emit", NAMED);
    if (first.kind === "emit") return {kind: "emit", value: this.expression(), at: first.at};
    if (first.kind === "send") {
      const {text, at} = this.take(NAMED);
      return {kind: "send", name: text, value: this.between("(", ")"), at};
    }
    if (first.kind === "let") {
      const {text, at} = this.take(NAMED);
      this.take("=");
      return {kind: "let", name: text, value: this.expression(), at};
    }
    const index = this.sees("[") ? this.between("[", "]") : null;
    this.take("=");
    const made = {name: first.text, value: this.expression(), at: first.at};
    return index ? {kind: "store", index, ...made} : {kind: "assign", ...made};
  }

  between(opening, closing) {
    this.begin(opening);
    const made = this.expression();
    this.finish(closing);
    return made;
  }

  expression() {
    const left = this.sum();
    if (!this.sees(...COMPARED)) return left;
    const {kind, at} = this.advance();
    return {kind: "combined", sign: kind, left, right: this.sum(), at};
  }

  sum() { return this.chain(SUMMED, () => this.chain(MULTIPLIED, () => this.unary())); }

  chain(signs, below) {
    let made = below();
    for (let count = 0; this.sees(...signs); count++) {
      if (count === MOST_IN_CHAIN) throw this.fail("one sum or product has more than 48 operators");
      const {kind, at} = this.advance();
      made = {kind: "combined", sign: kind, left: made, right: below(), at};
    }
    return made;
  }

  unary() {
    const signs = [];
    while (this.sees(...UNARY)) signs.push(this.begin(...UNARY));
    const operand = this.primary();
    this.open -= signs.length;
    return signs.reduceRight((made, {kind, at}) => ({kind: "applied", sign: kind, operand: made, at}), operand);
  }

  primary() {
    if (this.sees("(")) return this.between("(", ")");
    const {kind, text, at} = this.take(NUMBER, NAMED);
    if (kind === NUMBER) return {kind: "constant", value: Number(text), at};
    return this.sees("[") ? {kind: "element", name: text, index: this.between("[", "]"), at} : {kind: "variable", name: text, at};
  }
}

// The tree of a source; null if it is no module.
function treeOf(source) {
  try {
    return typeof source === "string" ? new Parser(source).module() : null;
  } catch (error) {
    if (error instanceof NotInGrammar) return null;
    throw error;
  }
}

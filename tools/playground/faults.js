// Faults in words: what the rule says, by the table that the command line reads, where in the text it is broken, and what was
// expected there.

// How many letters the first bytes of a text are: the program counts bytes.
function lettersOf(text, bytes) {
  return new TextDecoder().decode(new TextEncoder().encode(text).subarray(0, bytes)).length;
}

// Line and column, from 1, of a place in a source by its letters.
function placeAt(source, at) {
  const before = source.slice(0, at).split("\n");
  return {line: before.length, column: before.at(-1).length + 1};
}

// The line where an entry of the deployment begins: its header, or its name's line.
function entryLine(text, plan, kind, index) {
  const lines = splitLines(headOf(text)), found = test => lines.flatMap((line, at) => test(line, at) ? [at + 1] : []);
  const headed = found(line => RegExp(`^\\s*\\[\\[\\s*${kind}\\s*\\]\\]`).test(line));
  if (headed[index]) return headed[index];
  const entries = plan?.by[kind] ?? [], name = entries[index]?.name;
  const begun = Math.max(0, lines.findIndex(line => RegExp(`^\\s*${kind}\\s*=`).test(line)));
  const names = line => [...line.matchAll(/name\s*=\s*["']([^"']*)["']/g)].map(it => it[1]);
  const before = entries.slice(0, index).filter(it => it.name === name).length;
  return found((line, at) => at >= begun && names(line).includes(name))[before];
}

// Where a source begins from a place on: after a quote, or at the line after one; -1 if it isn't found as it is.
function sourceStart(text, source, from) {
  let at = text.indexOf(source, from);
  while (at >= 0 && !/["']\n?$/.test(text.slice(Math.max(0, at - 2), at))) at = text.indexOf(source, at + 1);
  return at;
}

// Line and column in the text of a place in a module's source.
function placeInSource(text, plan, index, at) {
  const {source} = plan.by.module[index], begins = entryLine(text, plan, "module", index);
  const from = text.split("\n").slice(0, (begins ?? 1) - 1).join("\n").length;
  const start = source ? sourceStart(text, source, from) : -1;
  return start < 0 ? {line: begins} : placeAt(text, start + at);
}

// A fault is told as {words, notes, line, column}: line and column count from 1, in letters, and may be absent.
class Faults {
  constructor(text) {
    this.text = text;
    this.lines = splitLines(text);
    this.mark = this.lines.indexOf("%%") + 1;
    this.plan = Deployment.of(text);
  }

  // What the last line of an output says; null if it is no fault.
  told(last = "") {
    const [kind, what, rule, ...place] = last.split(" ");
    if (kind === "illegal") return {words: WORDS.illegal, notes: [], line: this.traceLine(Number(what))};
    if (kind !== "fault" || !what) return null;
    const said = rule ? WORDS[what]?.[rule] : WORDS[what];
    if (!said || !place.length) return {words: said ?? last, notes: []};
    const more = what === "deployment" ? this.ofDeployment(rule, place) : this.ofLine(what, rule, Number(place[0]));
    return {words: `${rule}: ${said}`, notes: [], ...more};
  }

  // (a trace that isn't in the text has no line there)
  traceLine(number) {
    const start = this.lines.indexOf("trace", this.mark);
    return start < 0 ? undefined : start + 1 + number;
  }

  // --- deployments ---

  ofDeployment(rule, place) {
    if (rule === "D1") return {line: this.longLine()};
    if (rule === "D2") return {notes: this.withoutMark()};
    if (rule === "D3") return this.noToml();
    if (rule === "D6" && this.plan) return {notes: badCounts(this.plan)};
    const [kind, number, ...rest] = place, index = Number(number);
    if (kind === "top" && this.plan) return {notes: [...badKeys("top", this.plan.toml), ...this.bareTables()]};
    const entry = KINDS.includes(kind) && this.plan?.by[kind][index];
    if (!entry) return {};
    const named = entry.name ? `${kind} ${entry.name}` : `${kind} number ${index}, counted from 0`;
    const {notes = [], ...found} = this.ofEntry(rule, kind, index, rest);
    return {line: entryLine(this.text, this.plan, kind, index), notes: [named, ...notes], ...found};
  }

  // What there is in place of a table of a kind of which there may be several.
  bareTables() {
    return KINDS.filter(kind => isTable(this.plan.toml[kind])).map(twoBrackets);
  }

  ofEntry(rule, kind, index, rest) {
    const {plan} = this;
    switch (rule) {
      case "D4": return {notes: badKeys(kind, plan.toml[kind][index])};
      case "D5": return {notes: badNames(kind, index, plan)};
      case "D7": return this.grammar(index, Number(rest[0]), Number(rest[1]));
      case "D8": return this.brokenRule(index, rest[0]);
      case "D9": return {notes: badTies(kind, index, plan)};
      case "D10": return {notes: badPlaces(kind, index, plan)};
    }
    return {};
  }

  longLine() {
    const at = this.lines.findIndex(line => new TextEncoder().encode(line).length > 4096);
    return at < 0 ? undefined : at + 1;
  }

  withoutMark() {
    const line = this.lines.findIndex(it => ["%%", "%", "%%%"].includes(it.trim()));
    if (line >= 0) return [`line ${line + 1}: the mark is a line \`%%\` alone: no blank before or after it, and nothing else`];
    const first = wordsOf(this.lines.find(it => /^[ \t]*[^# \t]/.test(it)) ?? "")[0];
    const isSchedule = ACTS.includes(first) || PEOPLE.includes(first);
    return [isSchedule ? "these are lines of a schedule: the deployment and a line `%%` come before them" :
                         "Check needs no mark; Run, Drive, Explain and Snap take what follows it"];
  }

  // (the program alone judges: the page may find nothing wrong)
  noToml() {
    try {
      Toml.read(headOf(this.text));
      return {};
    } catch ({what, line, column}) {
      return {line, column, notes: what ? [what, ...guessOfToml(this.lines[line - 1])] : []};
    }
  }

  // If a source isn't in the grammar: what was expected, and what the language has in place of what was tried.
  grammar(index, line, column) {
    const {source} = this.plan.by.module[index];
    if (typeof source !== "string") return {};
    const rows = source.split("\n"), letters = lettersOf(rows[line - 1] ?? "", column - 1);
    const at = rows.slice(0, line - 1).join("\n").length + (line > 1 ? 1 : 0) + letters;
    return {...placeInSource(this.text, this.plan, index, at), notes: this.expectedAt(source, at)};
  }

  expectedAt(source, at) {
    try {
      new Parser(source).module();
      return [];
    } catch (error) {
      if (!(error instanceof NotInGrammar)) throw error;
      return error.token.at === at ? [...expectation(error), ...hintsAt(source, at)] : [];
    }
  }

  // Which name breaks a rule of the language, and where.
  brokenRule(index, rule) {
    const {plan, text} = this, tree = plan.tree(plan.by.module[index].name);
    const places = (tree ? brokenPlaces(tree, rule) : []).map(it => ({...it, ...placeInSource(text, plan, index, it.at)}));
    const more = places.flatMap(({what, line}, k) => [k ? `line ${line}: ${what}` : what, ...guessOfName(what)]);
    const [first] = places.filter(it => it.at);
    return {notes: [WORDS.language[rule], ...more], ...(first && {line: first.line, column: first.column})};
  }

  // --- schedules, readings, queries and traces ---

  // The place in the text of a line that counts from a mark, and what is wrong there.
  ofLine(what, rule, number) {
    if (what === "trace" && rule !== "E1") return {line: this.traceLine(number)};
    const line = (what === "query" ? this.lines.indexOf("%%", this.mark) + 1 : this.mark) + number;
    const text = this.lines[line - 1] ?? "", found = /[^ \t]/.exec(text);
    const of = {schedule: this.act, reading: this.reading, query: this.query}[what];
    return {line, ...(of && found && of.call(this, rule, text, found.index + 1))};
  }

  act(rule, text, begins) {
    const [act] = wordsOf(text);
    if (rule === "S3") return {column: begins, notes: guessOfAct(act, this.plan)};
    if (["S4", "S5", "S6"].includes(rule) && ACT_FIELDS[act]) return badField(text, ACT_FIELDS[act], this.plan);
    if (rule === "S8") return this.assembly(text);
    return rule === "S7" ? {column: begins, notes: [`its words: ${toldFields(act, ACT_FIELDS)}`]} : {};
  }

  // Why the text of an `asm` line isn't assembled, and at which statement.
  assembly(text) {
    const begins = /^[ \t]*asm[ \t]+\S+[ \t]+\S+[ \t]+/.exec(text)?.[0].length ?? 0, found = assemblyHint(text.slice(begins));
    return {
      column: (found ? text.indexOf(found.statement, begins) : begins) + 1,
      notes: found ? [found.say] : []
    };
  }

  reading(rule, text, begins) {
    const [first, value] = wordsOf(text);
    if (rule === "Q5" && value) return {column: text.indexOf(value, begins - 1 + first.length) + 1};
    if (rule !== "Q4" && rule !== "Q3") return {};
    if (ACTS.includes(first)) {
      const says = `\`${first}\` is a line of a schedule: Run takes those, and Drive makes them of readings`;
      return {column: begins, notes: [says]};
    }
    if (PEOPLE.includes(first)) return {column: begins, notes: [forPeople(first)]};
    if (rule === "Q3" || !this.plan) return {};
    const sensors = sensorsOf(this.plan).filter(it => this.plan.driverOf(it));
    return {column: begins, notes: [`sensors that a module drives: ${sensors.join(" ") || "none"}${near(first, sensors)}`]};
  }

  query(rule, text, begins) {
    const [first] = wordsOf(text);
    if (rule === "Y3") return {column: begins, notes: [`the queries: ${Object.keys(QUERIES).join(" ")}`]};
    if (rule === "Y4") return {column: begins, notes: [`its words: ${toldFields(first, QUERIES)}`]};
    return ["Y5", "Y6"].includes(rule) && QUERIES[first] ? badField(text, QUERIES[first], this.plan) : {};
  }
}

// Guesses what was meant: what was expected at a fault, and what there is in place of what was tried.

const STATEMENT = ["let", "send", "emit", "if", "repeat", NAMED];
const VALUE = [NUMBER, NAMED, "("];

// What was expected in place of a token.
function expectation({token, expected, bound}) {
  if (bound) return [bound];
  let left = [...expected];
  const said = [], has = kinds => kinds.every(it => left.includes(it));
  const takeOut = (kinds, words) => {
    left = left.filter(it => !kinds.includes(it));
    said.push(words);
  };
  if (has(STATEMENT)) takeOut(STATEMENT, "a statement (`let x = ..;`, `x = ..;`, `if`, `repeat`, `send`, `emit`)");
  if (has(VALUE)) takeOut([...VALUE, ...UNARY], "a value (a number, a name, brackets)");
  const operators = [...COMPARED, ...SUMMED, ...MULTIPLIED];
  if (left.filter(it => operators.includes(it)).length > 3) takeOut(operators, "an operator");
  said.push(...left.map(it => [NAMED, NUMBER, END].includes(it) ? it : `\`${it}\``).sort());
  if (!said.length) return [];
  const seen = token.kind === END ? "the end of the text" : `\`${token.text}\``;
  return [`expected ${said.slice(0, -1).join(", ")}${said.length > 1 ? " or " : ""}${said.at(-1)}, and found ${seen}`];
}

// What the language has in place of what was tried at a fault.
function hintsAt(source, at) {
  const before = source.slice(Math.max(0, at - 200), at), here = source.slice(at, at + 40);
  const hint = WORDS.hints.find(it => RegExp(it.before).test(before) && RegExp(it.here).test(here));
  if (hint) return [hint.say];
  return /[\w)\]]\s*\n\s*$/.test(before) ? ["perhaps a `;` is missing at the end of the line before"] : [];
}

function guessOfName(what) {
  return /^`(true|false)` isn't declared/.test(what) ? ["there are no truth values: 1 and 0"] : [];
}

function guessOfToml(line = "") {
  if (ACTS.includes(wordsOf(line)[0])) return ["this looks like a line of a schedule, which comes after a line `%%`"];
  const found = /^\s*\[\s*(node|device|module|connection)\s*\]/.exec(line);
  if (found) return [twoBrackets(found[1])];
  const isBare = /^\s*(source|secret|key|name|node|from|to|kind|device)\s*=\s*[^"'\[\s]/.test(line);
  return isBare ? ["a text is written between quotes"] : [];
}

function twoBrackets(kind) {
  return `each ${kind} begins with two brackets, \`[[${kind}]]\`, since there may be several`;
}

// What a line is that is no line of a schedule.
function guessOfAct(act, plan) {
  if (act === "%%" || act === "%") return ["a second `%%` is for Snap, whose queries follow it"];
  if (PEOPLE.includes(act)) return [forPeople(act)];
  if (Object.hasOwn(QUERIES, act)) return [`\`${act}\` is a query of Snap: it comes after a second \`%%\``];
  const acts = `the acts: ${ACTS.join(" ")}`;
  if (ITEMS.has(act)) return [`\`${act}\` is an item of a trace, and no line of a schedule; ${acts}`];
  if (plan?.named("device", act))
    return ["this looks like a reading: Drive takes those, and `sense DEVICE VALUE` is the line of a schedule"];
  return [`${acts}${near(act, ACTS)}`];
}

function forPeople(act) {
  return `\`${act}\` is a line for people: Run takes those, after a deployment with modules`;
}

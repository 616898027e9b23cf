// Warns of what the rules of a deployment allow, and hardly anybody wants.

// More places of one module aren't told.
const MOST_PLACES = 4;

function keyWarnings(plan) {
  const seen = new Map(), lines = [];
  for (const {name, key} of plan.by.node) {
    const other = seen.get(String(key).toLowerCase());
    if (other)
      lines.push(
          `nodes ${other} and ${name} have one key, so modules with the same places and text on both can pass for one ` +
          "another: an item `forged` may come without a tag that was guessed");
    else
      seen.set(String(key).toLowerCase(), name);
  }
  if (plan.by.connection.length && !("secret" in plan.toml))
    lines.push(
        "the deployment has connections and no `secret`, so their keys come from sixteen zero bytes, which anybody " +
        "knows and can forge events with");
  return lines;
}

// Inputs and outputs that lead nowhere: mostly a connection or a handler was forgotten.
function portWarnings(plan) {
  const ports = key => new Set(plan.by.connection.map(it => String(it[key]))), sent = ports("from"), taken = ports("to");
  return plan.names("module").flatMap(name => {
    const tree = plan.tree(name);
    if (!tree) return [];
    const handles = input => tree.handlers.some(it => it.input === input);
    const outputs = namesOf(tree, "output").filter(port => !sent.has(`${name}.${port}`));
    const inputs = namesOf(tree, "input");
    const isBlind = tree.declared.some(({kind}) => kind === "sensor") && !handles(null);
    return [
      ...outputs.map(port => `no connection leads from the output ${name}.${port}: what it sends is lost`),
      ...inputs.filter(port => !taken.has(`${name}.${port}`)).map(port => `no connection leads to the input ${name}.${port}`),
      ...inputs.filter(port => !handles(port)).map(
          port => `${name} has no handler \`on ${port}(..)\`: what comes there changes nothing`),
      ...(isBlind ? [`${name} has a sensor and no handler \`sample(..)\`: a reading changes nothing`] : []),
    ];
  });
}

// The number that was meant, if this is one below 0; else 0.
function belowZero(it) {
  const isNumber = part => part.kind === "constant";
  if (it.kind === "applied" && it.sign === "-" && isNumber(it.operand)) return -it.operand.value;
  const isLess = it.kind === "combined" && it.sign === "-" && isNumber(it.left) && isNumber(it.right);
  return isLess ? Math.min(0, it.left.value - it.right.value) : 0;
}

// Comparisons with a number that hold always or never, since a word is from 0 to 65,535.
const ALWAYS = {">= 0": "always", "< 0": "never", "<= 65535": "always", "> 65535": "never"};
const MIRRORED = {"<": ">", ">": "<", "<=": ">=", ">=": "<="};

function comparisonWarnings({sign, left, right, at}) {
  if (!MIRRORED[sign]) return [];
  return [[sign, right], [MIRRORED[sign], left]].flatMap(([sign, side]) => {
    const meant = belowZero(side), holds = side.kind === "constant" && ALWAYS[`${sign} ${side.value}`];
    const is = (meant & 0xffff).toLocaleString("en");
    if (meant) return [{at, what: `comparisons have no sign, and ${meant} is ${is} here: add an offset to both sides`}];
    return holds ? [{at, what: `this ${holds} holds, since a value is from 0 to 65,535`}] : [];
  });
}

function indexWarnings(tree, {name, index, at}, effect) {
  const array = declaredAs(tree, name);
  if (array?.kind !== "array" || index.kind !== "constant" || index.value < array.value) return [];
  return [{at, what: `the last element of \`${name}\` is ${name}[${array.value - 1}], and past it ${effect}`}];
}

function valueWarnings(tree) {
  return tree.handlers.flatMap(it => walk(it.body)).flatMap(it => [
    ...(it.kind === "store" ? indexWarnings(tree, it, "nothing is stored") : []),
    ...expressionsOf(it).flatMap(subexpressions).flatMap(part => [
      ...(part.kind === "combined" ? comparisonWarnings(part) : []),
      ...(part.kind === "element" ? indexWarnings(tree, part, "0 is read") : []),
    ]),
  ]).slice(0, MOST_PLACES);
}

// What a text's deployment is warned of, as {words, line, column}; the place is that of a value.
function warningsOf(text) {
  const plan = Deployment.of(text);
  if (!plan) return [];
  const values = plan.by.module.flatMap((module, index) => {
    const tree = plan.tree(module.name);
    return (tree ? valueWarnings(tree) : []).map(({at, what}) => ({words: what, ...placeInSource(text, plan, index, at)}));
  });
  return [...[...keyWarnings(plan), ...portWarnings(plan)].map(words => ({words})), ...values];
}

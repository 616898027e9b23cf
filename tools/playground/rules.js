// Where in a source a rule of docs/LANGUAGE.md is broken: the program names the rule, and this the name and its place. A place is
// {at, what}.

const namesOf = (tree, kind) => tree.declared.filter(it => it.kind === kind).map(it => it.name);
const declaredAs = (tree, name) => tree.declared.find(it => it.name === name);
const withArticle = kind => `${/^[aeiou]/.test(kind) ? "an" : "a"} ${kind}`;
const handlerName = ({input}) => input === null ? "`sample`" : `\`on ${input}\``;
const letsOf = handler => walk(handler.body).filter(it => it.kind === "let");

function* duplicates(tree) {
  const seen = new Set(), handled = new Set();
  for (const {name, at} of tree.declared) {
    if (name && seen.has(name)) yield {at, what: `\`${name}\` is declared a second time`};
    seen.add(name);
  }
  for (const {at} of tree.declared.filter(({kind}) => kind === "sensor" || kind === "actuator").slice(1))
    yield {at, what: "a second device is declared: a module has one sensor or one actuator"};
  for (const handler of tree.handlers) {
    if (handled.has(handler.input)) yield {at: handler.at, what: `${handlerName(handler)} has a second handler`};
    handled.add(handler.input);
    yield* duplicateLocals(tree, handler);
  }
}

function* duplicateLocals(tree, handler) {
  const {parameter, parameterAt} = handler, taken = new Set([parameter]);
  if (declaredAs(tree, parameter)) yield {at: parameterAt, what: `the parameter \`${parameter}\` has a declared name`};
  for (const {name, at} of letsOf(handler)) {
    if (declaredAs(tree, name))
      yield {at, what: `the local \`${name}\` has a declared name`};
    else if (taken.has(name))
      yield {at, what: `the handler has a local \`${name}\` already; write \`${name} = ..\` for a new value`};
    taken.add(name);
  }
}

// Names as they are used, {name, wanted, isLocal, at}: as a value or to be assigned (`var`), as an array, an output or an input.
function usesOf({input, parameter, body, at}) {
  const own = input === null ? [] : [{name: input, wanted: "input", isLocal: false, at}];
  return [...own, ...usesIn(body, new Set([parameter]))];
}

const USED_AS = {send: "output", store: "array", assign: "var", variable: "var", element: "array"};

function usesIn(block, outer) {
  const seen = new Set(outer), found = [];
  const use = ({kind, name, at}) => USED_AS[kind] ? [{name, wanted: USED_AS[kind], isLocal: seen.has(name), at}] : [];
  for (const it of block) {
    found.push(...use(it), ...expressionsOf(it).flatMap(subexpressions).flatMap(use));
    found.push(...blocksOf(it).flatMap(inner => usesIn(inner, seen)));
    if (it.kind === "let") seen.add(it.name);
  }
  return found;
}

function* unknownNames(tree) {
  for (const handler of tree.handlers) {
    const lets = letsOf(handler).map(it => it.name);
    const known = [...tree.declared.map(it => it.name), ...lets, handler.parameter];
    for (const {name, wanted, isLocal, at} of usesOf(handler)) {
      if (isLocal || declaredAs(tree, name)) continue;
      if (lets.includes(name))
        yield {at, what: `the local \`${name}\` is out of sight here: before its \`let\`, or after the end of its block`};
      else if (["input", "output"].includes(wanted))
        yield {at, what: `no ${wanted} \`${name}\` is declared${near(name, known)}`};
      else
        yield {at, what: `\`${name}\` isn't declared${near(name, known)}`};
    }
  }
}

const USES = {var: "a value", array: "an array", output: "an output", input: "an input"};

function* wrongKinds(tree) {
  const has = kind => tree.declared.some(it => it.kind === kind);
  for (const handler of tree.handlers) {
    for (const {name, wanted, isLocal, at} of usesOf(handler)) {
      const kind = isLocal ? "local" : declaredAs(tree, name)?.kind ?? wanted;
      if (kind === wanted || isLocal && wanted === "var") continue;
      yield {at, what: `\`${name}\` is ${withArticle(kind === "var" ? "variable" : kind)}, and is used as ${USES[wanted]} here`};
    }
    if (handler.input === null && !has("sensor"))
      yield {at: handler.at, what: "there is a `sample` handler, and no line `sensor;`"};
    if (has("actuator")) continue;
    for (const {at} of walk(handler.body).filter(({kind}) => kind === "emit"))
      yield {at, what: "there is an `emit`, and no line `actuator;`"};
  }
}

function* depths(block, level = 0) {
  for (const it of block) {
    const height = Math.max(0, ...expressionsOf(it).map(heightOf));
    if (height > 32) yield {at: it.at, what: `the expression here has height ${height}, and at most 32 may be`};
    if (blocksOf(it).length && level === 15) yield {at: it.at, what: "the block here is inside more than 15 others"};
    for (const inner of blocksOf(it)) yield* depths(inner, level + 1);
  }
}

function* locals(tree) {
  for (const handler of tree.handlers) {
    const lets = letsOf(handler), count = lets.length + 1;
    if (count > 16)
      yield {
        at: lets[15].at,
        what: `the handler ${handlerName(handler)} has ${count} locals with its parameter; this is the 17th`
      };
  }
}

function* counts(tree) {
  for (const {kind, count, at} of tree.handlers.flatMap(it => walk(it.body)))
    if (kind === "repeat" && (count < 1 || count > 256)) yield {at, what: `the count is ${count}, and must be 1 to 256`};
}

function* packets(tree) {
  for (const handler of tree.handlers) {
    const count = sendsOf(handler.body);
    if (count > 16)
      yield {at: handler.at, what: `the handler ${handlerName(handler)} can send ${count} times, and at most 16 may be`};
  }
}

function* costs(tree) {
  for (const handler of tree.handlers) {
    const total = 64 + blockCost(handler.body);
    if (total <= 262144) continue;
    const costly = `the handler ${handlerName(handler)} costs ${total.toLocaleString("en")}, and at most 262,144 may be`;
    yield {at: handler.at, what: `${costly}; a \`repeat\` counts its block as often as it runs`};
  }
}

function* sizes(tree) {
  for (const kind of ["input", "output"]) {
    const count = namesOf(tree, kind).length;
    if (count > 255) yield {at: 0, what: `there are ${count} ${kind}s, and at most 255 may be`};
  }
  const total = nodesOf(tree);
  if (total > 512) yield {at: 0, what: `the source has ${total} nodes, and at most 512 may be: split the module`};
}

function* cells(tree) {
  for (const {kind, name, value, at} of tree.declared)
    if (kind === "array" && (value < 1 || value > 1024))
      yield {at, what: `the array \`${name}\` has length ${value}, and 1 to 1,024 may be`};
  const total = cellsOf(tree);
  if (total > 1024)
    yield {at: 0, what: `variables and arrays have ${total.toLocaleString("en")} cells in all, and at most 1,024 may be`};
}

const LANGUAGE_RULES = {
  1: duplicates,
  2: unknownNames,
  3: wrongKinds,
  4: tree => tree.handlers.flatMap(it => [...depths(it.body)]),
  5: locals,
  6: counts,
  7: packets,
  8: costs,
  9: sizes,
  10: cells
};

// Where the rule is broken, in the order of the text; at most four places.
function brokenPlaces(tree, rule) {
  return [...LANGUAGE_RULES[rule]?.(tree) ?? []].sort((one, other) => one.at - other.at).slice(0, 4);
}

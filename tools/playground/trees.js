// What is counted in the tree of a source: parts, nodes, cells and costs, as docs/LANGUAGE.md has them.

const sum = numbers => numbers.reduce((one, other) => one + other, 0);

function partsOf(it) {
  return {element: [it.index], applied: [it.operand], combined: [it.left, it.right]}[it.kind] ?? [];
}

function expressionsOf(it) {
  return {if: [it.test], store: [it.index, it.value], repeat: []}[it.kind] ?? [it.value];
}

function blocksOf(it) {
  return {if: [it.then, it.other], repeat: [it.body]}[it.kind] ?? [];
}

const walk = block => block.flatMap(it => [it, ...blocksOf(it).flatMap(walk)]);

// An expression and all in it, from the left. (One of operators alone may be higher than calls may be nested; so below.)
function subexpressions(whole) {
  const left = [whole], found = [];
  while (left.length) {
    const it = left.pop();
    found.push(it);
    left.push(...partsOf(it).reverse());
  }
  return found;
}

function heightOf(whole) {
  let level = [whole], count = 0;
  for (; level.length; count++) level = level.flatMap(partsOf);
  return count;
}

const blockSize = block => sum(walk(block).map(it => 1 + sum(expressionsOf(it).map(e => subexpressions(e).length))));
const cellsIn = tree => tree.declared.filter(({kind}) => kind === "var" || kind === "array");
const nodesOf = tree => cellsIn(tree).length + sum(tree.handlers.map(it => 1 + blockSize(it.body)));
const cellsOf = tree => sum(cellsIn(tree).map(({kind, value}) => kind === "array" ? value : 1));

const ownCost = it => it.kind === "element" ? 64 : it.kind === "combined" && it.sign === "*" ? 512 : 32;
const costOf = it => sum(subexpressions(it).map(ownCost));

const blockCost = block => sum(block.map(statementCost));

function statementCost(it) {
  const inner = sum(expressionsOf(it).map(costOf));
  if (it.kind === "repeat") return 64 + it.count * (64 + blockCost(it.body));
  if (it.kind === "if") return 64 + inner + Math.max(blockCost(it.then), blockCost(it.other));
  return ({store: 96, send: 8192}[it.kind] ?? 64) + inner;
}

// How often a block can send at most.
function sendsOf(block) {
  return sum(block.map(it => {
    if (it.kind === "if") return Math.max(sendsOf(it.then), sendsOf(it.other));
    return it.kind === "repeat" ? it.count * sendsOf(it.body) : Number(it.kind === "send");
  }));
}

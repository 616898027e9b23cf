// Finds words for an assembly text that isn't assembled: an unknown mnemonic, a number out of range, a form that isn't there.

const TWO = "mov add addc subc sub cmp bit bic bis xor and".split(" ");
const ONE = "rrc rra push swpb sxt call".split(" ");
const JUMPS = "jne jeq jnc jc jn jge jl jmp".split(" ");
const BARE = "reti unprotect protect attest wrap unwrap getid getcaller".split(" ");
const MNEMONICS = [...TWO, ...ONE, ...JUMPS, ...BARE];

// What is wrong with the first statement of a text in which something is seen, and that statement; null if nothing is.
function assemblyHint(text) {
  for (const part of text.replace(/\/\/.*$/, "").split(";")) {
    const statement = part.replace(/^\s*[a-z][a-z0-9_]{0,15}\s*:/, "").trim(), say = statement && hintOf(statement);
    if (say) return {statement, say};
  }
  return null;
}

function hintOf(statement) {
  const [mnemonic] = statement.split(" ", 1), rest = statement.slice(mnemonic.length).trim();
  return ofMnemonic(mnemonic, rest) ?? ofNumbers(statement) ?? ofOperands(mnemonic, rest);
}

function ofMnemonic(mnemonic, rest) {
  const plain = mnemonic.replace(/\.[bw]$/, ""), lower = plain.toLowerCase(), emulated = WORDS.instructions[lower];
  if ([...TWO, ...ONE].includes(plain) || [...JUMPS, ...BARE, ".word"].includes(mnemonic)) {
    const isLong = mnemonic.endsWith(".w");
    return isLong ? `\`${mnemonic}\` is written \`${plain}\`: a word is what an instruction takes without \`.b\`` : null;
  }
  if (emulated) {
    const filled = ["SRC", "DST", "TARGET"].reduce((text, place) => text.replaceAll(place, rest || place), emulated);
    return `\`${plain}\` is no instruction of its own here: write \`${filled}\``;
  }
  if (lower === "dadd") return "there is no `dadd` here: the word is no instruction";
  if (MNEMONICS.includes(lower)) return `mnemonics have lower-case letters: \`${lower}\``;
  if (mnemonic.startsWith(".")) return `\`${mnemonic}\` is unknown: \`.word VALUE, ..\` is the one directive`;
  const guess = near(plain, MNEMONICS).replace(/^; (.*)$/, " ($1)");
  return `\`${mnemonic}\` is no mnemonic${guess}: ${MNEMONICS.join(" ")}`;
}

function ofNumbers(statement) {
  const negative = /#?-\s*([0-9]+)/.exec(statement);
  if (negative) {
    const wrapped = -Number(negative[1]) & 0xffff;
    return `\`${negative[0]}\` is no number: they are 0 to 65,535, so write \`${wrapped}\` (${hex(wrapped)})`;
  }
  for (const [, text] of statement.matchAll(/(?<![\w.])(0x[0-9A-Fa-f]+|[0-9][0-9A-Za-z]*)/g)) {
    if (Number.isNaN(numberOf(text))) return `\`${text}\` is no number: decimal digits, or 0x and hexadecimal ones`;
    if (numberOf(text) > 65535) return `\`${text}\` is out of range: numbers are 0 to 65,535`;
  }
  return null;
}

function ofOperands(mnemonic, rest) {
  const plain = mnemonic.replace(/\.b$/, ""), count = rest.split(",").filter(it => it.trim()).length;
  const wanted = TWO.includes(plain) ? 2 : [...ONE, ...JUMPS].includes(plain) ? 1 : BARE.includes(mnemonic) ? 0 : count;
  const said = ["no operand", "one operand", "two operands, with a comma between them"][wanted];
  return count === wanted ? null : `\`${mnemonic}\` has ${said}`;
}

// Compares the WebAssembly build with the native one, output and status, over examples, attacks, damaged inputs and wrong words.
//
//   node tools/wasm/compare.mjs [NATIVE [FILE.wasm [HOST..]]]
//
// By default these are the builds of release/, and host.js runs FILE.wasm; HOST is another command that runs it, such as wasmtime.
// Not a part of the gate.
import {spawnSync} from "node:child_process";
import {readFileSync, readdirSync} from "node:fs";
import {fileURLToPath} from "node:url";

const TOP = new URL("../../", import.meta.url);
const inTop = name => fileURLToPath(new URL(name, TOP));
const [native = inTop("release/sancus_run"), file = inTop("release/sancus.wasm"), ...host] = process.argv.slice(2);
const runOnce = new Function(`${readFileSync(new URL("host.js", import.meta.url), "utf8")}; return runOnce;`)();
const module = new WebAssembly.Module(readFileSync(file));
const COMMANDS = ["run", "drive", "check", "explain", "snap", "lines", "batch", "describe"];
let count = 0, differ = 0;

function started(command, words, input) {
  const {status, stdout} = spawnSync(command, words, {input, maxBuffer: 1 << 30});
  return {status, output: stdout};
}

function here(words, input) {
  if (host.length) return started(host[0], [...host.slice(1), file, ...words], input);
  const parts = [];
  const {status} = runOnce(module, words, input, part => parts.push(part));
  return {status, output: Buffer.concat(parts)};
}

function compare(name, words, input) {
  const one = started(native, words, input), other = here(words, input);
  count++;
  if (one.status === other.status && one.output.equals(other.output)) return one;
  differ++;
  console.log(`DIFFERS: ${words.join(" ")} <${name}: status ${one.status} natively, ${other.status} here`);
  return one;
}

function examples() {
  const names = folder => readdirSync(inTop(folder)).filter(it => it.endsWith(".txt")).map(it => `${folder}${it}`);
  return ["examples/", "examples/attacks/", "examples/snap/"].flatMap(names);
}

// Cut in the deployment and in the schedule, with other ends of lines, and with a byte that no text has.
function damaged(input) {
  const cuts = [3, 7, 9].map(part => input.subarray(0, input.length * part / 10));
  return [...cuts, Buffer.from(String(input).replaceAll("\n", "\r\n")), Buffer.concat([input, Buffer.from([255, 10])])];
}

for (const name of examples()) {
  const input = readFileSync(inTop(name)), head = input.subarray(0, input.indexOf("\n%%\n") + 1);
  const [run] = COMMANDS.map(word => compare(name, [word], input));
  for (const word of ["asm", "dis"]) compare(name, [word, "0x4000"], input);
  compare(`${name} with its trace`, ["explain"], Buffer.concat([head, Buffer.from("%%\n"), run.output]));
  damaged(input).forEach((it, k) => compare(`${name}, damaged in way ${k}`, ["run"], it));
}

// More than a line may have, more lines than a schedule has, and no input.
const others = {
  "a long line": Buffer.alloc(3_000_000, "a"),
  "many lines": Buffer.from(`%%\n${"light 1\n".repeat(70_000)}`),
  "nothing": Buffer.alloc(0)
};
for (const name in others)
  for (const word of COMMANDS) compare(name, [word], others[name]);
const WORDS = [
  "", "run run", "--help", "fly", "gen 1", "gen 10", "gen 100", "gen 1000", "gen 8000", "gen 0", "gen 8001", "asm 1x",
  "dis 65535"
];
for (const words of WORDS) compare("nothing", words.split(" ").filter(it => it), Buffer.alloc(0));
console.log(`${count} runs compared, ${differ} differ`);
process.exitCode = differ ? 1 : 0;

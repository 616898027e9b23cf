// Tests playground.html in each browser that is installed, by what it shows. Not a part of the gate.
//
//   node tools/playground/test.mjs [--program release/sancus_run] [--pictures FOLDER] [--browser Firefox] [--test Property]
//
// Outputs are compared with those of the native program.
import {spawnSync} from "node:child_process";
import {readdirSync, readFileSync, rmSync, writeFileSync} from "node:fs";
import {tmpdir} from "node:os";
import {join} from "node:path";
import {fileURLToPath} from "node:url";

import {BROWSERS, sleep} from "./browsers.mjs";

const TOP = new URL("../../", import.meta.url);
const PAGE = String(new URL("playground.html", TOP));
const given = process.argv.slice(2);
const option = (name, otherwise) => given.includes(name) ? given[given.indexOf(name) + 1] : otherwise;
const program = option("--program", fileURLToPath(new URL("release/sancus_run", TOP)));
const pictures = option("--pictures", null);
const wanted = option("--browser", null), only = option("--test", null);

const JS = JSON.stringify;
let failed = 0;

function expect(name, isWell, seen = "") {
  if (isWell) return console.log(`ok: ${name}`);
  failed++;
  console.log(`FAILED: ${name}\n  ${JS(seen)}`);
}

function native(word, text) {
  const ran = spawnSync(program, [word], {input: text, maxBuffer: 1 << 28});
  return {status: ran.status, output: String(ran.stdout)};
}

const example = name => readFileSync(new URL(`examples/${name}.txt`, TOP), "utf8");

function exampleNames() {
  const names = folder => readdirSync(new URL(`examples/${folder}`, TOP))
                              .filter(it => it.endsWith(".txt"))
                              .map(it => folder + it.slice(0, -4));
  return ["", "attacks/", "snap/"].flatMap(names);
}

// An element of the page, and what it does then.
const element = id => `document.getElementById(${JS(id)})`;
const shown = id => `${element(id)}.textContent`;
const act = code => `(() => { ${code}; return ""; })()`;
const DONE = "document.documentElement.dataset.done";

// A browser with the page, which waits for what it began.
class Test {
  constructor(browser) {
    this.browser = browser;
  }

  value(expression) {
    return this.browser.value(expression);
  }

  async until(expression) {
    for (let tries = 0; tries < 600; tries++) {
      const value = await this.value(expression);
      if (value) return value;
      await sleep(50);
    }
    return "never";
  }

  done() {
    return this.until(`${DONE} ?? ""`);
  }

  async open(hash = "") {
    await this.browser.open("about:blank");
    await this.browser.open(`${PAGE}${hash}`);
    return this.done();
  }

  write(text) {
    return this.value(
        act(`${element("text")}.value = ${JS(text)}; ${element("text")}.dispatchEvent(new Event("input"))`));
  }

  async click(id) {
    await this.value(act(`delete ${DONE}; ${element(id)}.click()`));
    return this.done();
  }

  async choose(name) {
    await this.value(act(`delete ${DONE}; ${element("example")}.value = ${JS(name)}; ${
        element("example")}.dispatchEvent(new Event("change"))`));
    return this.done();
  }

  text() {
    return this.value(`${element("text")}.value`);
  }

  said() {
    return this.value(shown("said"));
  }

  wrote() {
    return this.value(shown("wrote"));
  }

  rows() {
    return this.value(`document.querySelectorAll("#space .row").length`);
  }

  async picture(name) {
    await sleep(200);
    if (pictures)
      writeFileSync(`${pictures}/${this.browser.constructor.name}_${name}.png`, await this.browser.picture());
  }
}

const short = output => output.replace(/^(image \S+ \S{24})\S{24,}$/gm, "$1…").slice(0, 200_000);

async function testExamples(test) {
  const bad = [], names = exampleNames();
  for (const name of names) {
    await test.choose(name);
    const said = await test.said(), wrote = await test.wrote(), rows = await test.rows();
    const word = said.split(" ")[0], {status, output} = native(word, example(name));
    const isSame = said.startsWith(`${word} ended with status ${status},`) && wrote === short(output);
    if (!isSame || !rows) bad.push({name, said, rows});
  }
  expect(`${names.length} examples give what the native program gives, and a picture`, !bad.length, bad);
}

async function testWords(test) {
  const text = example("attack"), head = text.split("\n%%\n")[0];
  const inputs =
      {run: text, drive: text, check: text, explain: `${head}\n%%\n${native("run", text).output}`, snap: text};
  for (const word in inputs) {
    await test.open(`#example=attack&do=${word}`);
    const {status, output} = native(word, inputs[word]), said = await test.said(), wrote = await test.wrote();
    expect(
        `the command ${word}`, said.startsWith(`${word} ended with status ${status},`) && wrote === short(output),
        said);
  }
  await test.open("#example=readings");
  await test.value(act(`${element("scroll")}.dispatchEvent(new KeyboardEvent("keydown", {key: "o"}))`));
  const more = await test.value(shown("more"));
  expect("the picture of readings has causes", more.includes("Because: ") && more.includes("sense light"), more);
  await test.picture("readings");
  await test.write(`${example("readings").split("\n%%\n")[0]}\n%%\n${native("run", example("lighting")).output}`);
  await test.click("do-explain");
  expect(
      "a trace is judged and drawn",
      (await test.said()).startsWith("explain ended with status 0") && await test.rows() > 20, await test.said());
}

async function testFaults(test) {
  const text = example("lighting"), lines = text.split("\n"),
        at = part => lines.findIndex(it => it.includes(part)) + 1;
  const changed = (old, now) => text.replace(old, now), head = `${text.split("\n%%\n")[0]}\n`;
  const cases = [
    ["a schedule", "run", changed("load logic", "laod logic"), "S3: no line of a schedule begins with this word", at("load logic")],
    [
      "a source's grammar", "check", changed("on show(v) { emit v; }", "on show(v) { emit v }"), "D7",
      at("on show(v)")
    ],
    [
      "a source's rules", "check", changed("send level(v)", "send other(v)"), "Unknown: a name isn't declared",
      at("send level(v)")
    ],
    ["a key", "check", changed("provider = 7", "povider = 7"), "D4: a key is unknown or missing", at("[[module]]")],
    ["TOML", "check", changed('node = "a"', "node = a b"), "D3", undefined],
    [
      "readings", "drive", `${head}%%\nlight 1\nlight 99999\n`, "Q5: the value isn't a number below 32,768",
      at("%%") + 2
    ],
    [
      "a trace", "explain", `${head}%%\ntrace\nout lamp 1\nend\n`, "the sources don't allow this item", at("%%") + 2
    ],
    ["a query", "snap", `${head}%%\nload eye\n%%\nfly 1\n`, "Y3", at("%%") + 3],
    ["no mark", "run", "secret = 3\n", "D2: there is no line %%", undefined],
  ];
  for (const [name, word, input, words, line] of cases) {
    await test.write(input);
    await test.click(`do-${word}`);
    const said = await test.said(),
          marked = await test.value(`${element("marked")}.hidden ? 0 : Number(${element("marked")}.dataset.line)`);
    const isRight =
        said.includes(words) && (line === undefined || said.includes(`, at line ${line}`) && marked === line);
    expect(`a fault in words at its line: ${name}`, isRight, {said, marked, line});
  }
  await testNotes(test, changed);
  await test.write(cases[0][2]);
  await test.click("do-run");
  await test.picture("fault");
}

// What the command line says of a text, beyond the fault line: on a terminal.
function told(word, text) {
  const ran = spawnSync(fileURLToPath(new URL("sancus", TOP)), [word, "-"], {input: text});
  return String(ran.stderr).split("\n").map(line => line.replace(/^sancus: /, ""));
}

async function testNotes(test, changed) {
  const cases = [
    ["an operator that isn't there", "check", changed("send level(v)", "send level(v % 3)"), ", column 26"],
    ["a semicolon that is missing", "check", changed("output level;", "output level"), "perhaps a `;` is missing"],
    ["a name that isn't declared", "check", changed("send level(v)", "send levl(v)"), "did you mean `level`?"],
    ["a local declared twice", "check", changed("send level(v);", "let v = 1; send level(v);"), "the handler has a local `v` already"],
    ["a key", "check", changed("provider = 7", "povider = 7"), "the key `povider` is unknown here; did you mean `provider`?"],
    ["a device", "check", changed('device = "light"', 'device = "ligth"'), "did you mean `light`?"],
    ["a port", "check", changed("logic.level", "logic.levle"), "has no input `levle`; its inputs: level; did you mean"],
    ["a place", "check", changed("text = 0x6000", "text = 0x4400"), "the next free place on a for the public section of logic: `text = 0x"],
    ["a table in place of several", "check", `[module]\nname = "x"\n%%\n`, "each module begins with two brackets"],
    ["an act", "run", changed("load logic", "laod logic"), "did you mean `load`?"],
    ["a module of a line", "run", changed("load logic", "load lgic"), "expected: a module: eye logic lamp; did you mean `logic`?"],
    ["an instruction", "run", changed("load logic", "asm a 0x800 mov r5, r6; inc r5"), "write `add #1, r5`"],
    ["an operand", "run", changed("load logic", "asm a 0x800 mov #70000, r6"), "`70000` is out of range"],
    ["no secret", "run", changed(/^secret.*$/m, ""), "warning: the deployment has connections and no `secret`"],
    ["a comparison", "run", changed("v > limit", "v >= 0"), "warning: this always holds"],
  ];
  for (const [name, word, input, words] of cases) {
    await test.write(input);
    await test.click(`do-${word}`);
    const said = await test.value(`${element("said")}.innerText`);
    expect(`more words of a fault: ${name}`, said.includes(words), said);
    const notes = await test.value(`[...${element("said")}.querySelectorAll(".note, .warning")].map(it => it.firstChild.data)`);
    const others = told(word, input).map(line => line.replace(/, line \d+ of the input$/, ""));
    const foreign = notes.filter(it => !others.some(other => other.includes(it)));
    expect(`as the command line has them: ${name}`, !foreign.length, {foreign, others});
  }
}

async function testPeople(test) {
  await test.open("#example=" + encodeURIComponent("parking/day for people"));
  const outs = (await test.wrote()).split("\n").filter(it => it.startsWith("out "));
  expect("lines for people are run", outs.join() === "out dfree 2,out dfree 2,out dfree 1", outs);
  const here = await test.value(`document.querySelector(".row.selected").textContent`);
  expect("and the picture begins after their set-up", here.includes("7:00"), here);
  await test.picture("people");
  const head = example("lighting").split("%%\n")[0], at = head.split("\n").length + 2;
  for (const [line, words] of [["carry eye lmp", "there is no module lmp; did you mean `lamp`?"], ["laod eye", "S3: no line of a schedule begins with this word"]]) {
    await test.write(`${head}%%\ndeploy all\nsample eye 5\n${line}\n`);
    await test.click("do-run");
    const said = await test.said(), marked = await test.value(`Number(${element("marked")}.dataset.line)`);
    expect(`a line for people that can't be done: ${line}`, said.includes(words) && marked === at + 1, {said, marked, at});
    expect("what came before it is drawn", await test.rows() >= 6, await test.rows());
  }
}

async function testLive(test) {
  await test.value(act("localStorage.clear()"));
  const head = `${example("lighting").split("%%\n")[0]}%%\n`;
  await test.open("#example=lighting");
  await test.write(head);
  await test.value(act(`${element("live")}.open = true`));
  const line = async text => {
    await test.value(act(`delete ${DONE}; ${element("live-line")}.value = ${JS(text)}; ${element("live-do")}.click()`));
    return test.done();
  };
  const events = () => test.value(`[...${element("live-events")}.children].map(it => it.firstChild.data.trim())`);
  const press = async (row, name) => {
    const button = `[...${element("live-events")}.children[${row}].querySelectorAll("button")].find(it => it.textContent === ${JS(name)})`;
    await test.value(act(`delete ${DONE}; ${button}.click()`));
    return test.done();
  };
  for (const text of ["deploy all", "sample eye 120", "sample eye 7"]) await line(text);
  const both = ["1: eye → logic by up", "2: eye → logic by up"];
  expect("what a module sends waits", JS(await events()) === JS(both), await events());
  await press(1, "Deliver");
  expect("an event is delivered", (await test.wrote()).includes("take logic up 1 7"), await test.wrote());
  const after = ["1: eye → logic by up", "3: logic → lamp by down"];
  expect("and what follows waits", JS(await events()) === JS(after), await events());
  await test.picture("live");
  await press(0, "Twice");
  expect("an older event is refused, twice", (await test.wrote()).split("done logic 6 0").length === 3, await test.wrote());
  await test.click("live-undo");
  expect("that is taken back", JS(await events()) === JS(after) && !(await test.wrote()).includes("done logic 6 0"), await events());
  await press(0, "Drop");
  await line("carry logic lamp");
  expect("`carry` delivers", JS(await events()) === "[]" && (await test.wrote()).includes("out lamp 0"), await events());
  const text = await test.text();
  expect("the input is the session", text.includes("take a 0x400 24 as e1.eye.logic\n") && text.includes("# drop e1.eye.logic\n"), text);
  await line("sample lamp 1");
  expect("what can't be done is explained", (await test.said()).includes("lamp drives no sensor"), await test.said());
  await test.click("live-undo");
  expect("and taken back", await test.text() === text, await test.text());
  await test.value(act("localStorage.clear()"));
}

async function testProperty(test) {
  await test.open("#example=lighting");
  await test.value(act(`${element("property")}.open = true`));
  const told = () => test.value(shown("property-told"));
  const ask = async text => {
    await test.value(act(`${element("property-text")}.value = ${JS(text)}; ${element("property-text")}.dispatchEvent(new Event("input"))`));
    await test.click("do-holds");
    return told();
  };
  const bright = readFileSync(new URL("examples/properties/bright.property", TOP), "utf8");
  const holds = await ask(bright);
  expect("a property that holds", holds.startsWith("holds (proved)") && holds.includes("No item of this run breaks it"), holds);
  const fails = await ask("on out lamp(v) { if v { fail; } }");
  expect("one that the run breaks", fails.startsWith("unknown") && fails.includes("item 42, `out lamp 1`, breaks the property"), fails);
  const row = await test.value(`document.querySelector(".row.broken")?.textContent ?? ""`);
  expect("the picture marks the item", row.includes("out lamp 1"), row);
  await test.picture("property");
  for (const [text, words] of [
    ["on out lmp(v) { fail; }", "P3: the deployment has no such item, at line 1, column 8"],
    ["\non out lamp(v) { send; }", "P2: the property isn't in the grammar of docs/PROPERTIES.md, at line 2, column 18"],
    ["on out lamp(v) { w = v; }", "rule 2 of the language"],
  ]) {
    const said = await ask(text);
    expect(`a fault of a property: ${words}`, said.includes(words), said);
  }
  await ask(bright);
  await test.value(act(`${element("do-link")}.click()`));
  await test.until(`${shown("said")}.startsWith("The address of this page")`);
  const hash = await test.value("location.hash");
  await test.value(act("localStorage.clear()"));
  await test.open(hash);
  expect("an address carries the property", await test.value(`${element("property-text")}.value`) === bright, hash);
  await test.value(act("localStorage.clear()"));
}

async function testStop(test) {
  // (a jump to itself, for as long as a schedule may have it run)
  await test.write(`%%\nasm n 0x4000 jmp 0x4000\nset n pc 0x4000\n${"run n 65535\n".repeat(60000)}`);
  await test.value(act(`delete ${DONE}; ${element("do-run")}.click()`));
  await test.until(`!${element("do-stop")}.disabled`);
  await sleep(300);
  const done = await test.click("do-stop");
  expect("a run is stopped", done === "stopped" && await test.said() === "run: stopped", await test.said());
  expect("nothing runs then", await test.value(`${element("do-stop")}.disabled`));
}

async function testLink(test) {
  const text = `${example("lighting").replace("sense light 120", "sense light 7")}# ž 𝄞\n`;
  await test.write(text);
  await test.click("do-run");
  const wrote = await test.wrote();
  await test.value(act(`${element("do-link")}.click()`));
  await test.until(`${shown("said")}.startsWith("The address of this page")`);
  const hash = await test.value("location.hash");
  await test.open(hash);
  expect("an address carries its input", await test.text() === text, hash);
  expect("and it is run", await test.wrote() === wrote && wrote.includes("sense light 7"));
  await test.open("#z=AAAA");
  expect(
      "an address that holds no input", (await test.said()).startsWith("The address holds no input"),
      await test.said());
}

// What "Save page" saves.
const SAVED =
    `(async () => { const {createObjectURL} = URL; let kept; URL.createObjectURL = it => { kept = it; return createObjectURL.call(URL, it); };
  ${element("save")}.click(); URL.createObjectURL = createObjectURL; return kept.text(); })()`;

async function testSaved(test) {
  if (!test.browser.press) return;
  await test.open("#example=lighting");
  const file = join(tmpdir(), `playground-${process.pid}.html`);
  writeFileSync(file, await test.value(SAVED));
  await test.browser.open(`file://${file}`);
  const done = await test.done();
  expect("a page that was saved holds its run", done === "held" && await test.text() === example("lighting"), done);
  expect("and draws it", await test.rows() > 20, await test.rows());
  await test.click("do-run");
  expect("and runs it", (await test.said()).startsWith("run ended with status 0"), await test.said());
  rmSync(file);
}

const OWN = `${example("lighting").replace("sense light 120", "sense light 9")}`;
const chosen = test => test.value(`${element("example")}.value`);
const reload = async test => {
  await test.value(act(`delete ${DONE}; location.reload()`)).catch(() => null);
  await sleep(300);
  return test.done();
};

async function testTexts(test) {
  await test.value(act("localStorage.clear()"));
  await test.open("#example=lighting");
  await test.write(OWN);
  expect("a text of one's own has a name", await chosen(test) === "own 1", await chosen(test));
  await test.choose("attack");
  expect("another text can be chosen", await test.text() === example("attack"));
  await test.choose("own 1");
  expect("and the own one again", await test.text() === OWN, await test.text());
  await test.choose("attack");
  await test.value(act(`${element("text")}.focus(); document.execCommand("undo")`));
  expect("a text that was replaced comes back by Undo", await test.text() === OWN && await chosen(test) === "own 1");
  await reload(test);
  expect("it is there after the page was loaded again", await test.text() === OWN && await chosen(test) === "own 1");
  await test.open("#example=attack");
  await test.write(`${example("attack")}# more`);
  expect("a second text doesn't take the place of the first", await chosen(test) === "own 2", await chosen(test));
  await test.open();
  expect("what was written last is there after the page was closed", await test.text() === `${example("attack")}# more`);
  await test.choose("own 1");
  expect("and so is the other", await test.text() === OWN);
  await test.value(act(`Storage.prototype.setItem = () => { throw new Error("full") }`));
  await test.write(`${OWN}# more`);
  expect("the browser asks before it leaves what it can't keep", await test.value("typeof onbeforeunload") === "function");
  await test.value(act(`${element("do-save")}.click()`));
  expect("and doesn't if that was saved", await test.value("onbeforeunload === null"));
  const names = await test.value(`[...${element("example")}.options].map(it => it.value).join(" ")`);
  expect("parking is in the list", ["day", "hostile", "replay"].every(it => names.includes(`parking/${it}`)), names);
  await test.value(act("localStorage.clear()"));
}

async function testOpen(test) {
  await test.open("#example=readings");
  const [head, lines] = example("lighting").split("%%\n"), open = texts => test.value(act(`delete ${DONE};
    const files = new DataTransfer();
    for (const text of ${JS(texts)}) files.items.add(new File([text], "a file"));
    ${element("files")}.files = files.files;
    ${element("files")}.dispatchEvent(new Event("change"))`));
  await open([head]);
  await test.done();
  expect("a deployment that is opened is in the editor", await test.text() === head);
  expect("and is checked", (await test.said()).startsWith("check ended with status 0"), await test.said());
  expect("nothing is said of an output", await test.value(`document.querySelectorAll("#notes .bad").length`) === 0);
  await open([lines]);
  await test.done();
  expect("a schedule joins the deployment that is there", await test.text() === example("lighting"), await test.text());
  expect("and is run", (await test.said()).startsWith("run ended with status 0"), await test.said());
  await open([lines, head]);
  await test.done();
  expect("two files are one input", await test.text() === example("lighting"));
}

async function testPolicy(test) {
  await test.value(act(`document.body.append(Object.assign(document.createElement("script"), {textContent: "window.bad = 1"}))`));
  expect("no script but the page's runs", await test.value(`String(window.bad)`) === "undefined");
  const reached = await test.value(`fetch("https://example.org").then(() => "reached", () => "refused")`);
  expect("the page connects to nothing", reached === "refused", reached);
}

async function testLayout(test) {
  await test.open("#example=lighting");
  const isInside = await test.value(
      "document.documentElement.scrollWidth <= innerWidth && document.documentElement.scrollHeight <= innerHeight");
  expect("nothing is outside the window", isInside);
  const hidden = await test.value(`[...document.querySelectorAll("#desk button, header button")].filter(it => it.offsetParent && !it.closest("details:not([open])")).filter(it => {
    const {left, right, top, bottom} = it.getBoundingClientRect();
    const seen = document.elementFromPoint((left + right) / 2, (top + bottom) / 2);
    return left < 0 || top < 0 || right > innerWidth || bottom > innerHeight || seen !== it;
  }).map(it => it.id).join(" ")`);
  expect("each button is in sight", hidden === "", hidden);
  const more = await test.value(`${element("numbers")}.scrollHeight - ${element("text")}.scrollHeight`);
  expect("the numbers are as high as the text", Math.abs(more) < 40, more);
}

async function testKeys(test) {
  if (!test.browser.press) return;
  await test.open("#example=lighting");
  await test.value(act(`${element("text")}.focus(); ${element("text")}.setSelectionRange(0, 0)`));
  await test.browser.press("x", {text: "x"});
  await test.value(act(`delete ${DONE}`));
  await test.browser.press("Enter", {ctrl: true});
  await test.done();
  expect("Ctrl+Enter runs what is written", (await test.said()).includes("D3"), await test.said());
  expect("and the text keeps the keys", await test.value("document.activeElement.id") === "text");
  const order = [],
        wanted = ["do-run", "do-drive", "do-check", "do-explain", "do-snap", "do-link", "do-save", "do-lessons", "text"];
  await test.value(act(`${element("example")}.focus()`));
  for (let k = 0; k < wanted.length; k++) {
    await test.browser.press("Tab");
    order.push(await test.value("document.activeElement.id"));
  }
  expect("Tab goes from word to word", wanted.every((id, k) => order[k] === id), order);
}

async function testPhone(Browser) {
  const browser = new Browser(), test = new Test(browser);
  await browser.begin({width: 390, height: 844});
  await test.open("#example=lighting");
  const box = id => test.value(`(({left, right, top, bottom}) => ({left, right, top, bottom}))(${element(id)}.getBoundingClientRect())`);
  const desk = await box("desk"), seen = await box("seen");
  expect("on a phone the picture is below the editor", seen.top >= desk.bottom && seen.left === 0, {desk, seen});
  expect("both are as wide as the window", [desk, seen].every(it => it.right > 370), {desk, seen});
  expect("nothing is wider", await test.value("document.documentElement.scrollWidth <= innerWidth"));
  await test.picture("phone");
  await browser.end();
}

async function testWithoutWebAssembly(Browser) {
  const browser = new Browser(), test = new Test(browser);
  await browser.begin({width: 1280, height: 720, script: "delete globalThis.WebAssembly"});
  const done = await test.open(), said = await test.said();
  expect(
      "a browser without WebAssembly is told so",
      done === "refused" && said.startsWith("This browser has no WebAssembly"), said);
  await test.picture("without");
  await browser.end();
}

const TESTS = [
  testTexts, testOpen, testLayout, testWords, testFaults, testPeople, testLive, testProperty, testStop, testLink, testSaved, testKeys, testExamples,
];
const made = spawnSync("python3", [fileURLToPath(new URL("make.py", import.meta.url)), "--check"]);
expect("the page is what its parts give", made.status === 0, String(made.stderr));
for (const Browser of BROWSERS.filter(it => !wanted || it.name === wanted)) {
  if (!Browser.isHere()) {
    console.log(`${Browser.name} isn't installed`);
    continue;
  }
  console.log(`--- ${Browser.name}`);
  const browser = new Browser(), test = new Test(browser);
  await browser.begin({width: 1280, height: 720});
  await test.open();
  for (const one of TESTS.filter(it => !only || it.name === `test${only}`)) await one(test);
  expect("no errors", !browser.errors.length, browser.errors);
  if (!only) await testPolicy(test);
  await browser.end();
  if (only || Browser.name !== "Chromium") continue;
  await testPhone(Browser);
  await testWithoutWebAssembly(Browser);
}
console.log(failed ? `${failed} failed` : "all passed");
process.exitCode = failed ? 1 : 0;

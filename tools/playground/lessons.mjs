// Does each lesson of playground.html in the browsers that are installed, as a student would: a wrong answer first, a run
// without an answer, and then the task. Not a part of the gate.
//
//   node tools/playground/lessons.mjs [--pictures FOLDER] [--browser Firefox]
import {writeFileSync} from "node:fs";

import {BROWSERS, sleep} from "./browsers.mjs";

const PAGE = String(new URL("../../playground.html", import.meta.url));
const given = process.argv.slice(2);
const option = name => given.includes(name) ? given[given.indexOf(name) + 1] : null;
const pictures = option("--pictures"), wanted = option("--browser");

// Of each lesson the right choice, what is seen in its run, and what a student makes of its text: a change that doesn't do the
// task, and one that does.
const SET_UP = "deploy all\nsample eye 120\ncarry eye logic\n";
const lines = added => text => `${text.split("%%\n")[0]}%%\n${added}`;
const more = added => text => text + added;
const STUDENT = [
  {
    right: 1,
    seen: "out lamp 1",
    fails: text => text.replace("sample eye 120", "sample eye 101"),
    does: text => text.replace("sample eye 120", "sample eye 100"),
  },
  {
    right: 1,
    seen: "out lamp 1",
    fails: more("carry logic lamp\n"),
    does: lines(`${SET_UP}sample eye 20\ncarry eye logic\ncarry logic lamp\n`),
  },
  {
    right: 1,
    seen: "done lamp 6 0",
    fails: more("give event.logic.lamp b\ncall lamp 2\n"),
    does: more("sample eye 130\ncarry eye logic\ncarry logic lamp\n"),
  },
  {right: 2, seen: "reset b write", fails: more("run b 1\n"), does: more("asm b 0x800 mov #1, &0x1000\nset b pc 0x800\nrun b 1\n")},
  {
    right: 1,
    seen: "done lamp 5 0",
    fails: more("call lamp 2\n"),
    does: more("sample eye 120\ncarry eye logic\ncarry logic lamp\n"),
  },
  {right: 1, seen: "done lamp 7 0", fails: more("call lamp 2\n"), does: text => `#${text}`},
  {right: 2, seen: "sense light 20", fails: more("carry eye logic\n"), does: more("give late b\ncall lamp 2\n")},
];
const DONE = "document.documentElement.dataset.done";
const element = id => `document.getElementById(${JSON.stringify(id)})`;
const act = code => `(() => { ${code}; return ""; })()`;
let failed = 0;

function expect(name, isWell, seen = "") {
  console.log(`${isWell ? "ok" : "FAILED"}: ${name}`);
  if (isWell) return;
  failed++;
  console.log(`  ${JSON.stringify(seen)}`);
}

class Student {
  constructor(browser) {
    this.browser = browser;
  }

  value(expression) {
    return this.browser.value(expression);
  }

  async until(expression) {
    for (let tries = 0; tries < 600; tries++) {
      if (await this.value(expression)) return true;
      await sleep(50);
    }
    return false;
  }

  async after(code) {
    await this.value(act(`delete ${DONE}; ${code}`));
    await this.until(`${DONE} ?? ""`);
  }

  told() {
    return this.value(`${element("lesson-told")}.textContent`);
  }

  async writes(change) {
    const text = await this.value(`${element("text")}.value`);
    await this.value(act(`${element("text")}.value = ${JSON.stringify(change(text))}; ${element("text")}.dispatchEvent(new Event("input"))`));
    await this.after(`${element("do-run")}.click()`);
    return this.told();
  }

  async says(choice) {
    await this.value(act(`document.querySelectorAll("#lesson-choices input")[${choice}].click()`));
    await this.after(`${element("lesson-run")}.click()`);
    return this.told();
  }
}

async function does(student, number, {right, seen, fails, does}) {
  const name = what => `lesson ${number}: ${what}`;
  await student.until(`${element("lesson-title")}.textContent.startsWith("Lesson ${number} of 7: ")`);
  expect(name("no run before an answer"), await student.value(`${element("lesson-run")}.disabled`));
  await student.after(`${element("do-run")}.click()`);
  expect(name("a run without one asks for it"), (await student.told()).startsWith("First say what you expect"));
  const wrong = await student.says(right === 0 ? 1 : 0);
  expect(name("a wrong answer"), wrong.includes("It is: ") && wrong.includes("Your turn."), wrong);
  const well = await student.says(right);
  expect(name("the right one"), well.includes("So it is.") && well.includes("Your turn."), well);
  const wrote = await student.value(`${element("wrote")}.textContent`);
  expect(name("the run shows it"), wrote.includes(seen), wrote.slice(-300));
  const notYet = await student.writes(fails);
  expect(name("what doesn't do the task"), notYet.includes("Your turn."), notYet);
  await student.after(`${element("lesson-again")}.click()`);
  await student.says(right);
  const reached = await student.writes(does);
  expect(name("what does it"), reached.includes("Done, by item "), reached);
  if (pictures) writeFileSync(`${pictures}/lesson_${student.browser.constructor.name}_${number}.png`, await student.browser.picture());
}

async function byKeys(student) {
  if (!student.browser.press) return;
  await student.after(`location.hash = "#lesson=1"`);
  await student.value(act(`document.querySelector("#lesson-choices input").focus()`));
  await student.browser.press(" ", {code: "Space", text: " "});
  await student.browser.press("Tab");
  expect("keys: Tab goes from the answers to Run", await student.value("document.activeElement.id") === "lesson-run");
  await student.value(act(`delete ${DONE}`));
  await student.browser.press("Enter", {text: "\r"});
  await student.until(`${DONE} ?? ""`);
  expect("keys: Enter runs", (await student.told()).startsWith("You said: 120."), await student.told());
}

async function onPhone(Browser) {
  const browser = new Browser(), student = new Student(browser);
  await browser.begin({width: 390, height: 844});
  await browser.open(`${PAGE}#lesson=3`);
  await student.until(`${DONE} ?? ""`);
  expect("on a phone nothing is wider", await student.value("document.documentElement.scrollWidth <= innerWidth"));
  await does(student, 3, STUDENT[2]);
  await browser.end();
}

for (const Browser of BROWSERS.filter(it => (!wanted || it.name === wanted) && it.isHere())) {
  console.log(`--- ${Browser.name}`);
  const browser = new Browser(), student = new Student(browser);
  await browser.begin({width: 1280, height: 900});
  await browser.open(`${PAGE}#lesson=1`);
  for (const [at, lesson] of STUDENT.entries()) {
    await does(student, at + 1, lesson);
    await student.value(act(`${element("lesson-next")}.click()`));
  }
  await byKeys(student);
  expect("no errors", !browser.errors.length, browser.errors);
  await browser.end();
  if (Browser.name === "Chromium") await onPhone(Browser);
}
console.log(failed ? `${failed} failed` : "all passed");
process.exitCode = failed ? 1 : 0;

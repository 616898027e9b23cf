// Draws a run as one SVG by the viewer's own code, without a browser: reads its texts as JSON (as src/sancus/viewer/pages.py makes them) and
// writes the picture. tools/picture.py starts it.

import {readFileSync} from "node:fs";
import {runInNewContext} from "node:vm";

const VIEWER = new URL("../src/sancus/viewer/", import.meta.url);
const SCRIPTS = ["texts", "language", "plan", "values", "rows", "words", "draw"];
const read = name => readFileSync(new URL(name, VIEWER), "utf8");
// How wide the lines and items beside the picture are, in pixels and in letters, and how long a comment may be, which stands over the picture.
const LEFT = 292, LETTERS = 36, COMMENT = 120;
const LOOK = {scale: 0.82, hidden: new Set(["deployer"]), order: []};

const escaped = text => String(text).replace(/[&<>"]/g, it => ({"&": "&amp;", "<": "&lt;", ">": "&gt;", "\"": "&quot;"})[it]);

// As much of an element as drawing needs.
class Element {
  constructor(name) { Object.assign(this, {name, attributes: [], childNodes: [], textContent: ""}); }
  setAttribute(key, value) { this.attributes.push(` ${key}="${escaped(typeof value === "number" ? Number(value.toFixed(2)) : value)}"`); }
  append(...made) { this.childNodes.push(...made); }
  toString() {
    return `<${this.name}${this.attributes.join("")}>${escaped(this.textContent)}${this.childNodes.join("")}</${this.name}>`;
  }
}

const document = {createElementNS: (_, name) => new Element(name)};
const words = `const WORDS = ${read("../faults.json")};`;
const {Run, Picture, HEIGHT, svg} = runInNewContext(
    [words, ...SCRIPTS.map(name => read(`${name}.js`)), "({Run, Picture, HEIGHT, svg})"].join("\n"), {document});

// The rules for what is drawn, with light colours in place of the page's variables.
function rules() {
  const style = read("style.css"), lines = style.split("\n");
  const color = (_, name) => name === "mono" ? "monospace" : new RegExp(`--${name}: light-dark\\((#\\w+)`).exec(style)[1];
  return lines.slice(lines.findIndex(line => line.startsWith("svg text {")), lines.findIndex(line => line.startsWith("#more")))
              .map(line => line.replace(/var\(--([\w-]+)\)/g, color)).join("\n");
}

// A line of the schedule or an item, as the page has them beside the picture.
function said(row, y, run) {
  const made = svg("text", {x: row.kind === "item" ? 40 : 8, y: y + 4, class: `left ${row.kind}`});
  let room = row.kind === "note" ? COMMENT : LETTERS - (row.kind === "act" && row.item ? row.item.text.length + 1 : 0);
  const add = (className, text) => {
    const shown = text.length > room ? `${text.slice(0, room - 1)}…` : text;
    made.append(svg("tspan", {class: className, dx: made.childNodes.length ? 8 : 0}, shown));
    room = LETTERS;
  };
  if (row.kind === "note") add("", row.text);
  if (row.kind === "group") add("dim", `${row.group.title} (${row.group.items} items)`);
  if (row.kind === "act") add(run.isAttack(row) ? "text is-attack" : "text", row.line.text.trim());
  if (row.item) add(`text ${run.plan.isTrouble(row.item) ? "trouble" : `is-${row.item.kind}`}`, row.item.text);
  return made;
}

function drawn(run) {
  const picture = new Picture(run, LOOK), {shown} = run, top = picture.headHeight + 2;
  const width = LEFT + picture.columns.width, height = top + shown.length * HEIGHT + 10;
  const whole = svg("svg", {xmlns: "http://www.w3.org/2000/svg", width, height, viewBox: `0 0 ${width} ${height}`});
  const part = (x, y, ...content) => {
    const made = svg("g", {transform: `translate(${x} ${y})`});
    made.append(...content);
    whole.append(made);
    return made;
  };
  whole.append(svg("style", {}, rules()), /<defs>.*<\/defs>/s.exec(read("page.html"))[0], svg("rect", {width, height, class: "ground"}));
  part(LEFT, 0, ...picture.heads().childNodes);
  picture.into = part(LEFT, top);
  picture.back(0, shown.length);
  const left = part(0, top), middle = place => (place + 0.5) * HEIGHT;
  shown.forEach((row, place) => picture.row(row, middle(place)));
  shown.forEach((row, place) => left.append(said(row, middle(place), run)));
  return `${whole}\n`;
}

process.stdout.write(drawn(new Run(JSON.parse(readFileSync(0)))));

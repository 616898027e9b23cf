// The texts that the page opens: an input of the program, what `run` wrote, and what `explain` wrote.

const ITEMS = new Set(
    ("reset protect sense read drain ask attested denied vouch open take out raw done packet forged " +
     "busy skip budget")
        .split(" "));

function splitLines(text) {
  const lines = text.split("\n");
  if (lines.at(-1) === "") lines.pop();
  return lines.map(line => line.endsWith("\r") ? line.slice(0, -1) : line);
}

const wordsOf = line => line.split(/[ \t]+/).filter(word => word);

function numberOf(word) {
  return /^(0x[0-9a-fA-F]{1,20}|[0-9]{1,20})$/.test(word ?? "") ? Number(word) : NaN;
}

// The first words of the lines that a schedule has, and of those for people, which `sancus schedule` makes a schedule of.
const ACTS = "run finish put asm set take give forge sense irq reset ask answer load call".split(" ");
const PEOPLE = ["deploy", "sample", "carry", "flow", "settle", "windows", "packets", "boots"];

// Which of the texts this is, as a part of {input, head, output, causes, described}, or of {deployment, schedule}, which an input is made of.
function sortText(text) {
  text = text.replace(/^\uFEFF/, "");
  const lines = splitLines(text), mark = lines.indexOf("%%"), first = lines.find(line => line.trim()) ?? "";
  if (/^(because|legal|illegal|forged) |^fault trace /.test(first)) return {causes: text};
  if (/^node \S+$/.test(first)) return {described: text};
  if (mark >= 0 && lines.slice(0, mark).every(line => !wordsOf(line).length)) return {schedule: lines.slice(mark + 1).join("\n")};
  if (mark < 0) return sortPart(text, lines);
  if (!/^(image |trace$|> |fault )/.test(lines[mark + 1] ?? "")) return {input: text};
  return {head: lines.slice(0, mark).join("\n"), output: lines.slice(mark + 1).join("\n")};
}

// A text without a mark, by its first line that is no comment.
function sortPart(text, lines) {
  const [word, next] = wordsOf(lines.find(line => /^[ \t]*[^# \t]/.test(line)) ?? "");
  if (/^(image|trace|>|fault)$/.test(word ?? "")) return {output: text};
  if (next === "=" || /^\[|=/.test(word ?? "")) return {deployment: text};
  const isReading = /^[a-z][a-z0-9_]*$/.test(word ?? "") && !ITEMS.has(word) && /^[0-9]+$/.test(next ?? "");
  return ACTS.includes(word) || PEOPLE.includes(word) || isReading ? {schedule: text} : {output: text};
}

// The input that a deployment and a schedule are together; null if there is neither. `head` is the deployment to which a schedule is
// added that came alone.
function joinedInput({deployment, schedule}, head = "") {
  const ended = text => text.endsWith("\n") ? text : `${text}\n`;
  if (schedule === undefined) return deployment ?? null;
  return `${ended(deployment ?? head)}%%\n${schedule}`;
}

// The deployment of a text: its lines before the mark.
function headOf(text) {
  const lines = splitLines(text), mark = lines.indexOf("%%");
  return lines.slice(0, mark < 0 ? lines.length : mark).map(line => `${line}\n`).join("");
}

// A line of a schedule; its kind is its first word, "#" for a comment, and empty for a blank line.
function scheduleLine(text, number) {
  const words = wordsOf(text);
  return {
    number,
    text,
    words,
    kind: words.length === 0 ? "" :
        words[0][0] === "#"  ? "#" :
                               words[0],
    items: []
  };
}

function readInput(text) {
  const lines = splitLines(text);
  return {lines: lines.slice(lines.indexOf("%%") + 1).map((line, at) => scheduleLine(line, at + 1))};
}

// The items of a run. If each line of the schedule comes before its items, as `> LINE`, lines has them.
function readOutput(text) {
  const output = {images: new Map(), items: [], lines: null, last: null, odd: []};
  let line = null;
  for (const shown of splitLines(text)) {
    const words = shown.split(" ");
    if (words[0] === "image")
      output.images.set(words[1], words[2] ?? "");
    else if (words[0] === ">") {
      line = scheduleLine(shown.slice(2), (output.lines ??= []).length + 1);
      output.lines.push(line);
    } else if (shown === "end" || words[0] === "fault")
      output.last = shown;
    else if (ITEMS.has(words[0])) {
      const item = {number: output.items.length + 1, text: shown, words, kind: words[0]};
      output.items.push(item);
      line?.items.push(item);
    } else if (shown !== "trace" && words[0] !== "steps")
      output.odd.push(shown);
  }
  return output;
}

// What `explain` says: the cause of an item by its number, and where the trace stops being legal or promised.
function readCauses(text) {
  const causes = {because: new Map(), illegal: null, forged: null};
  for (const line of splitLines(text)) {
    const words = line.split(" ");
    if (words[0] === "because")
      causes.because.set(Number(words[1]), Number(words[2]));
    else if (words[0] in causes)
      causes[words[0]] = Number(words[1]);
  }
  return causes;
}

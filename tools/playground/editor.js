// The text of an input with the numbers of its lines, and with a mark at the line of a fault.

const LINE_HEIGHT = 18, PADDING = 6;
// A longer text takes the browser too long to type.
const MOST_TYPED = 400_000;

class Editor {
  constructor(onChange) {
    this.area = byId("text");
    this.numbered = "";
    this.markedLine = null;
    this.isReplacing = false;
    this.area.addEventListener("input", () => {
      this.mark(null);
      this.number();
      if (!this.isReplacing) onChange();
    });
    this.area.addEventListener("scroll", () => this.follow());
    // (the page takes a text that is pasted elsewhere as a file)
    this.area.addEventListener("paste", event => event.stopPropagation());
    addEventListener("resize", () => this.follow());
  }

  get text() {
    return this.area.value;
  }

  set text(value) {
    this.replace(value);
    this.area.scrollTop = this.area.scrollLeft = 0;
    this.mark(null);
    this.number();
  }

  // Puts a text in place of another as a person would type it, so that it can be undone.
  replace(value) {
    const focused = document.activeElement;
    this.isReplacing = true;
    this.area.focus({preventScroll: true});
    this.area.select();
    const isUndoable = this.text !== "" && value !== "" && value.length < MOST_TYPED &&
        document.execCommand("insertText", false, value);
    if (!isUndoable || this.text !== value) this.area.value = value;
    this.area.setSelectionRange(0, 0);
    this.isReplacing = false;
    focused?.focus({preventScroll: true});
  }

  get lines() {
    return splitLines(this.text);
  }

  // Where the deployment ends, by its place in lines; -1 if there is no line %%.
  get markAt() {
    return this.lines.indexOf("%%");
  }

  // Numbers each line, and after the mark its place in the schedule too, which is what the picture shows.
  number() {
    // (lines for people become others)
    const count = this.text.split("\n").length, mark = areForPeople(this.text) ? -1 : this.markAt, wanted = `${count} ${mark}`;
    if (wanted !== this.numbered) {
      const width = mark < 0 ? 0 : String(count - mark).length + 2;
      const row = (_, at) => `${at + 1}${(mark >= 0 && at > mark ? String(at - mark) : "").padStart(width)}`;
      byId("numbers").textContent = Array.from({length: count}, row).join("\n");
      this.numbered = wanted;
    }
    this.follow();
  }

  // Marks a line, counted from 1, or none.
  mark(line) {
    this.markedLine = line;
    this.follow();
  }

  go(line, column = 1) {
    const before = this.text.split("\n").slice(0, line - 1).reduce((sum, it) => sum + it.length + 1, 0);
    this.area.focus();
    this.area.setSelectionRange(before + column - 1, before + column - 1);
    this.show(line);
  }

  show(line) {
    const y = (line - 1) * LINE_HEIGHT, {scrollTop, clientHeight} = this.area;
    if (y < scrollTop || y > scrollTop + clientHeight - 3 * LINE_HEIGHT)
      this.area.scrollTop = Math.max(0, y - clientHeight / 3);
    this.follow();
  }

  follow() {
    byId("numbers").scrollTop = this.area.scrollTop;
    byId("marked").hidden = this.markedLine === null;
    byId("marked").dataset.line = this.markedLine;
    byId("marked").style.top = `${PADDING + ((this.markedLine ?? 1) - 1) * LINE_HEIGHT - this.area.scrollTop}px`;
  }
}

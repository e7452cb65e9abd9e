// The editor of questions: blocks, completion, and the mark under the byte that a refusal names.
import { completions } from "./completion.js";
import { element } from "./dom.js";

const BLANK = /^[ \t\r]*$/;

// The blocks of a text, each with its place: the line, and for the first line how far it begins in the line.
export function blocksOf(text, line = 0, column = 0) {
  const found = [];
  let open = null;
  text.split("\n").forEach((one, at) => {
    if (BLANK.test(one)) open = null;
    else if (open) open.text += "\n" + one;
    else found.push((open = { text: one, line: line + at, column: at === 0 ? column : 0 }));
  });
  return found;
}

export class Editor {
  constructor(box, { run, changed, catalogue, language }) {
    this.catalogue = catalogue;
    this.language = language;
    this.mirror = CodeMirror(box, {
      mode: "kql",
      lineWrapping: true,
      matchBrackets: true,
      autoCloseBrackets: { pairs: "()[]{}\"\"''", override: true },
      viewportMargin: 50,
      screenReaderLabel: "Question",
      placeholder: "A question. Shift-Enter runs the block under the cursor, or what is selected.",
      extraKeys: { "Shift-Enter": run, "Ctrl-Enter": run, "Cmd-Enter": run, F5: run, "Ctrl-Space": () => this.complete(), Tab: false, "Shift-Tab": false },
      hintOptions: { hint: (mirror) => this.hint(mirror), completeSingle: false, closeCharacters: /[\s()[\]{};,|=]/, extraKeys: { Enter: (mirror, list) => this.enter(mirror, list) } },
    });
    this.mirror.on("change", changed);
    this.mirror.on("inputRead", (_, change) => this.typed(change));
  }

  typed(change) {
    const sign = change.text.join("").slice(-1);
    const kind = this.mirror.getTokenTypeAt(this.mirror.getCursor()) ?? "";
    if (/[A-Za-z_.#]/.test(sign) && change.origin === "+input" && !/string|comment|number/.test(kind)) this.complete();
  }

  complete() {
    this.mirror.showHint();
  }

  hint(mirror) {
    const cursor = mirror.getCursor();
    const block = this.blockAt(cursor.line);
    const start = block ? block.line : cursor.line;
    const before = mirror.getRange({ line: start, ch: 0 }, cursor);
    const { length, found } = completions(before, block ? block.text : "", this.language(), this.catalogue());
    const list = found.map((one) => ({ text: one.isCall ? `${one.text}(` : one.text, render: (box) => box.append(...offered(one)) }));
    const data = { list, from: { line: cursor.line, ch: cursor.ch - length }, to: cursor };
    CodeMirror.on(data, "select", (one) => (this.selected = one));
    return data;
  }

  // Enter takes what is offered, but ends the line where it is there already.
  enter(mirror, list) {
    const cursor = mirror.getCursor();
    if (mirror.getRange({ line: cursor.line, ch: 0 }, cursor).endsWith(this.selected.text)) {
      list.close();
      mirror.execCommand("newlineAndIndent");
    } else list.pick();
  }

  // The block that a line is of; on a blank line, the one above it.
  blockAt(line) {
    const doc = this.mirror.getDoc();
    while (line > 0 && BLANK.test(doc.getLine(line))) line--;
    if (BLANK.test(doc.getLine(line))) return blocksOf(doc.getValue())[0] ?? null;
    let first = line;
    let last = line;
    while (first > 0 && !BLANK.test(doc.getLine(first - 1))) first--;
    while (last < doc.lastLine() && !BLANK.test(doc.getLine(last + 1))) last++;
    return { text: doc.getRange({ line: first, ch: 0 }, { line: last }), line: first, column: 0 };
  }

  // What is to be run: the selected blocks, or the one under the cursor.
  asked() {
    this.mirror.closeHint();
    const doc = this.mirror.getDoc();
    if (!doc.somethingSelected()) {
      const block = this.blockAt(doc.getCursor().line);
      return block ? [block] : [];
    }
    const from = doc.getCursor("from");
    return blocksOf(doc.getRange(from, doc.getCursor("to")), from.line, from.ch);
  }

  // Marks the token that begins at a place of a block.
  mark(doc, block, place) {
    const line = block.line + place.line;
    const column = place.column + (place.line === 0 ? block.column : 0);
    const text = doc.getLine(line);
    if (text === undefined) return;
    const token = /^(?:[A-Za-z0-9_]+|\s+|.)/u.exec(text.slice(column));
    const from = token ? column : Math.max(0, text.length - 1);
    doc.markText({ line, ch: from }, { line, ch: from + (token ? token[0].length : 1) }, { className: "refused" });
    if (doc === this.mirror.getDoc()) this.mirror.scrollIntoView({ line, ch: from }, 40);
  }

  unmark(doc) {
    doc.getAllMarks().filter((mark) => mark.className === "refused").forEach((mark) => mark.clear());
  }
}

function offered(one) {
  return [element("span", { class: "hint-text" }, one.told ?? one.text), element("span", { class: "hint-kind" }, one.kind)];
}

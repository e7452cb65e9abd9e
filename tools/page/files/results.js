// What came of a question, below the editor: replies, an answer's table, its chart, and a cell that was opened.
import { button, counted, element } from "./dom.js";
import { described, draw } from "./drawing.js";
import { Grid } from "./grid.js";
import { tree } from "./tree.js";

const KINDS = [["time", "time"], ["line", "line"], ["bar", "bar"]];

export class Results {
  constructor(box, { connection, told }) {
    this.connection = connection;
    this.told = told;
    this.replies = element("ol", { class: "replies", "aria-label": "Replies" });
    this.chartButton = button("Chart", () => this.toggleChart(), { "aria-pressed": "false" });
    this.tools = element(
      "div",
      { class: "tools", role: "toolbar", "aria-label": "Answer", hidden: true },
      this.chartButton,
      button("Copy CSV", () => this.copyAll("csv")),
      button("Copy JSON", () => this.copyAll("json")),
      button("Save CSV", () => this.save("csv")),
      button("Save JSON", () => this.save("json")),
      (this.count = element("span", { class: "count", role: "status" })),
    );
    this.table = element("div", { class: "table" });
    this.chart = element("section", { class: "chart", "aria-label": "Chart", hidden: true });
    this.split = element("div", { class: "split", hidden: true }, this.table, this.chart);
    this.cell = element("aside", { class: "cell", "aria-label": "Cell", hidden: true, tabindex: -1 });
    this.box = element("div", { class: "results" }, this.replies, this.tools, this.split, this.cell);
    box.append(this.box);
    this.grid = new Grid(this.table, {
      rows: (arrangement, first, count) => this.call("rows", { arrangement, first, count }),
      open: (row, column) => this.open(row, column),
      copy: (first, count, columns) => this.copy("cells", first, count, columns),
      told: (text) => told(text),
      arranged: () => this.counted(),
    });
    this.held = [];
  }

  call(name, given) {
    return this.connection.call(name, { answer: this.answer.answer, ...given });
  }

  // Begins anew: what was asked before is let go of.
  begin() {
    for (const one of this.held) this.connection.call("drop", { answer: one }).catch(() => {});
    this.held = [];
    this.answer = null;
    this.replies.replaceChildren();
    this.tools.hidden = this.split.hidden = this.cell.hidden = true;
    this.clearChart();
  }

  say(text, kind, more = []) {
    const line = element("li", { class: kind }, element("span", { class: "first" }, text), ...more.map((one) => element("span", { class: "sentence" }, one)));
    this.replies.append(line);
    return line;
  }

  // Shows an answer. Where several came, each can be shown.
  add(reply) {
    this.held.push(reply.answer);
    const line = this.say("", "answer");
    line.firstChild.append(button(`${counted(reply.rows, "row")}, ${reply.seconds} s`, () => this.show(reply)));
    this.replies.classList.toggle("single", this.replies.childElementCount === 1);
    this.show(reply);
  }

  show(reply) {
    this.answer = reply;
    this.tools.hidden = this.split.hidden = false;
    this.cell.hidden = true;
    this.grid.show(reply.columns, reply.rows);
    this.counted();
    this.choices = { kind: reply.chart ?? "bar" };
    if (this.isCharted) this.drawChart();
  }

  counted() {
    const { total, all } = this.grid;
    this.count.textContent = `${total === all ? counted(all, "row") : `${total.toLocaleString("en")} of ${counted(all, "row")}`}, ${this.answer.seconds} s`;
    if (this.isCharted && !this.split.hidden) this.drawChart();
  }

  get isCharted() {
    return this.chartButton.getAttribute("aria-pressed") === "true";
  }

  toggleChart() {
    this.chartButton.setAttribute("aria-pressed", String(!this.isCharted));
    if (this.isCharted) this.drawChart();
    else this.clearChart();
    this.grid.render();
  }

  clearChart() {
    this.drawn?.destroy();
    this.drawn = null;
    this.chart.hidden = true;
    this.chart.replaceChildren();
  }

  async drawChart() {
    const { kind, x, y, by } = this.choices;
    const turn = (this.turn = (this.turn ?? 0) + 1);
    let made = null;
    let why = null;
    try {
      made = await this.call("chart", { arrangement: this.grid.arrangement, kind, x, y: y ?? [], by });
    } catch (fault) {
      why = fault.message;
    }
    if (turn !== this.turn || !this.isCharted) return;
    this.clearChart();
    this.chart.hidden = false;
    this.chart.append(this.chartChoices());
    if (why) this.chart.append(element("p", { class: "no-chart" }, `No chart: ${why}`));
    else this.drawMade(made);
    this.grid.render();
  }

  drawMade(made) {
    const canvas = element("canvas", { role: "img", "aria-label": described(made) });
    this.chart.append(element("div", { class: "canvas" }, canvas), ...made.notes.map((note) => element("p", { class: "note" }, note)));
    this.made = made;
    this.drawn = draw(canvas, made);
  }

  // Draws the same chart in other colours.
  repaint() {
    if (!this.drawn) return;
    const canvas = this.drawn.canvas;
    this.drawn.destroy();
    this.drawn = draw(canvas, this.made);
  }

  chartChoices() {
    const select = (text, options, chosen, change) => {
      const box = element("select", { onchange: () => change(box.value) }, ...options.map(([value, shown]) => element("option", { value, selected: value === String(chosen) }, shown)));
      return element("label", {}, `${text} `, box);
    };
    const place = (value) => (value === "" ? null : Number(value));
    const change = (what) => {
      this.choices = { ...this.choices, ...what };
      this.drawChart();
    };
    const columns = [["", "chosen by type"], ...this.answer.columns.map((column, at) => [String(at), column.name])];
    return element(
      "div",
      { class: "choices", role: "group", "aria-label": "Chart" },
      select("Chart", KINDS, this.choices.kind, (kind) => change({ kind, x: null, y: null, by: null })),
      select("x", columns, this.choices.x ?? "", (x) => change({ x: place(x) })),
      select("y", columns, this.choices.y?.[0] ?? "", (y) => change({ y: y === "" ? null : [Number(y)] })),
      select("series", columns, this.choices.by ?? "", (by) => change({ by: place(by) })),
    );
  }

  async open(row, column) {
    try {
      const found = await this.call("cell", { row, column });
      const name = this.answer.columns[column].name;
      const close = button("Close", () => this.closeCell());
      const text = found.tree ? tree(found.tree) : element("pre", {}, found.null ? "null" : found.text);
      this.cell.replaceChildren(element("h2", {}, name, " ", element("span", { class: "type" }, found.type)), button("Copy", () => this.copyText(found.text)), close, text);
      this.cell.hidden = false;
      this.cell.focus();
      this.cell.onkeydown = (event) => event.key === "Escape" && this.closeCell();
    } catch (fault) {
      this.told(fault.message);
    }
  }

  closeCell() {
    this.cell.hidden = true;
    this.grid.body.focus();
  }

  async copyText(text) {
    try {
      await navigator.clipboard.writeText(text);
      this.told("Copied.");
    } catch (fault) {
      this.told(`Not copied: ${fault.message}`);
    }
  }

  copyAll(form) {
    return this.copy(form, 0, this.grid.total, []);
  }

  async copy(form, first, count, columns) {
    try {
      const { text } = await this.call("copy", { arrangement: this.grid.arrangement, form, first, count, columns });
      await navigator.clipboard.writeText(text);
      this.told(`Copied ${counted(count, "row")}.`);
    } catch (fault) {
      this.told(`Not copied: ${fault.message}`);
    }
  }

  // The server gives the file at an address that holds once; the browser saves it as it comes.
  async save(form) {
    try {
      const { path } = await this.call("save", { arrangement: this.grid.arrangement, form });
      const link = element("a", { href: path, download: `answer.${form}` });
      document.body.append(link);
      link.click();
      link.remove();
    } catch (fault) {
      this.told(`Not saved: ${fault.message}`);
    }
  }

  close() {
    this.begin();
    this.box.remove();
  }
}

// A table of any number of rows. Only those that are seen are in the page; others are asked for as they come into sight.
import { element, newId } from "./dom.js";

const ROW = 24;
// A browser's box has a largest height. A table that would be higher is scrolled by its share of the way.
const HIGHEST = 8_000_000;
const BLOCK = 200;
const MOST_BLOCKS = 30;
const SPARE = 2;
const ASIDE = 120;

const clamp = (value, low, high) => Math.max(low, Math.min(value, high));

export class Grid {
  // `rows(arrangement, first, count)` gives rows, `open(row, column)` shows a cell, `copy(first, count, columns)` copies
  // cells, `told(text)` says something, `arranged()` is called where other rows are shown.
  constructor(box, calls) {
    Object.assign(this, calls);
    this.head = element("div", { class: "grid-head", role: "rowgroup" });
    this.body = element("div", { class: "grid-rows", role: "rowgroup", tabindex: 0, "aria-label": "Rows" });
    this.sheet = element("div", { class: "grid-sheet", role: "presentation" }, this.head, this.body);
    this.box = element("div", { class: "grid", role: "grid", "aria-label": "Answer", "aria-multiselectable": "true" }, this.sheet);
    box.append(this.box);
    this.box.addEventListener("scroll", () => this.scrolled());
    this.box.addEventListener("wheel", (event) => this.wheel(event), { passive: false });
    this.body.addEventListener("keydown", (event) => this.key(event));
    this.body.addEventListener("mousedown", (event) => this.pressed(event));
    this.body.addEventListener("mousemove", (event) => event.buttons === 1 && this.pressed(event, true));
    this.body.addEventListener("dblclick", () => this.openActive());
    this.body.addEventListener("copy", (event) => this.copied(event));
    new ResizeObserver(() => this.render()).observe(this.box);
  }

  show(columns, total) {
    this.columns = columns;
    this.turn = (this.turn ?? 0) + 1;
    this.box.removeAttribute("aria-busy");
    this.all = this.total = total;
    // What is shown, and what was asked for last, which may still be on its way.
    this.arrangement = this.wanted = { sort: null, descending: false, filters: {} };
    this.active = this.anchor = { row: 0, column: 0 };
    this.pool = [];
    this.body.replaceChildren();
    this.box.setAttribute("aria-colcount", columns.length);
    this.makeHead();
    this.sheet.style.setProperty("--columns", columns.map((one) => `${clamp(Math.max(one.width, one.type.length + 2), 6, 60) + 3}ch`).join(" "));
    this.forget();
    this.box.scrollTop = this.box.scrollLeft = 0;
    this.moveTo(0);
  }

  makeHead() {
    const cells = this.columns.map((column, at) => {
      const sorter = element("button", { type: "button", class: "sorter", onclick: () => this.sortBy(at) }, element("span", { class: "name" }, column.name), element("span", { class: "type" }, column.type));
      return element("div", { role: "columnheader", "aria-colindex": at + 1, "aria-sort": "none", class: `grid-cell${column.right ? " right" : ""}` }, sorter);
    });
    const filters = this.columns.map((column, at) => {
      const field = element("input", { type: "text", spellcheck: "false", placeholder: "filter", "aria-label": `Filter ${column.name}`, title: "text, !text, = != > >= < <= value" });
      let waiting;
      field.addEventListener("input", () => {
        clearTimeout(waiting);
        waiting = setTimeout(() => this.filterBy(at, field), 250);
      });
      return element("div", { role: "gridcell", class: "grid-cell" }, field);
    });
    this.heads = cells;
    this.head.replaceChildren(element("div", { role: "row", "aria-rowindex": 1, class: "grid-row" }, ...cells), element("div", { role: "row", "aria-rowindex": 2, class: "grid-row grid-filters" }, ...filters));
  }

  // The rows that are known belong to another arrangement.
  forget() {
    this.blocks = new Map();
    this.asked = new Set();
    this.version = (this.version ?? 0) + 1;
  }

  sortBy(column) {
    const { sort, descending } = this.wanted;
    const next = sort !== column ? { sort: column, descending: false } : descending ? { sort: null, descending: false } : { sort: column, descending: true };
    this.arrange({ ...this.wanted, ...next });
  }

  filterBy(column, field) {
    const filters = { ...this.wanted.filters };
    if (field.value.trim()) filters[column] = field.value;
    else delete filters[column];
    this.arrange({ ...this.wanted, filters }, field);
  }

  // Shows the rows in another order, or others, where the server takes what was typed.
  async arrange(arrangement, field = null) {
    this.box.setAttribute("aria-busy", "true");
    const turn = (this.turn = (this.turn ?? 0) + 1);
    this.wanted = arrangement;
    try {
      const found = await this.rows(arrangement, 0, BLOCK);
      if (turn !== this.turn) return;
      field?.removeAttribute("aria-invalid");
      this.arrangement = arrangement;
      const { sort, descending } = arrangement;
      this.heads.forEach((head, at) => head.setAttribute("aria-sort", at !== sort ? "none" : descending ? "descending" : "ascending"));
      this.total = found.total;
      this.forget();
      this.blocks.set(0, found.rows);
      this.active = this.anchor = { row: 0, column: this.active.column };
      this.moveTo(0);
      this.arranged();
    } catch (fault) {
      if (turn !== this.turn) return;
      this.wanted = this.arrangement;
      field?.setAttribute("aria-invalid", "true");
      this.told(fault.message);
    } finally {
      if (turn === this.turn) this.box.removeAttribute("aria-busy");
    }
  }

  get seen() {
    return Math.max(1, (this.box.clientHeight - this.head.offsetHeight) / ROW);
  }

  get lastPosition() {
    return Math.max(0, this.total - this.seen);
  }

  get isExact() {
    return this.total * ROW <= HIGHEST;
  }

  // Puts a row at the top. The row may be a fraction; the scrollbar follows it.
  moveTo(position) {
    this.position = clamp(position, 0, this.lastPosition);
    this.sheet.style.height = `${this.head.offsetHeight + Math.min(this.total * ROW, HIGHEST)}px`;
    const way = this.sheet.offsetHeight - this.box.clientHeight;
    this.box.scrollTop = this.isExact ? this.position * ROW : (this.position / Math.max(1, this.lastPosition)) * way;
    this.expected = this.box.scrollTop;
    this.render();
  }

  scrolled() {
    if (!this.columns || this.box.scrollTop === this.expected) return;
    this.expected = this.box.scrollTop;
    const way = this.sheet.offsetHeight - this.box.clientHeight;
    this.position = clamp(this.isExact ? this.expected / ROW : (this.expected / Math.max(1, way)) * this.lastPosition, 0, this.lastPosition);
    this.render();
  }

  // A wheel moves by rows, however many a pixel of the scrollbar stands for.
  wheel(event) {
    if (!this.columns || this.isExact || event.ctrlKey || event.shiftKey || !event.deltaY) return;
    const rows = event.deltaMode === 0 ? event.deltaY / ROW : event.deltaMode === 1 ? event.deltaY : event.deltaY * this.seen;
    const before = this.position;
    this.moveTo(this.position + rows);
    if (this.position !== before) event.preventDefault();
  }

  render() {
    if (!this.columns || !this.box.clientHeight) return;
    this.body.style.height = `${Math.min(this.box.clientHeight - this.head.offsetHeight, this.total * ROW)}px`;
    this.body.style.top = `${this.head.offsetHeight}px`;
    this.box.setAttribute("aria-rowcount", this.total + SPARE);
    const first = Math.floor(this.position);
    const count = Math.min(Math.ceil(this.seen) + 1, this.total - first);
    while (this.pool.length < count) this.pool.push(this.makeRow());
    this.pool.forEach((row, at) => this.fill(row, at < count ? first + at : null));
    const active = this.pool.find((row) => row.place === this.active.row);
    if (active) this.body.setAttribute("aria-activedescendant", active.cells[this.active.column]?.id ?? "");
    else this.body.removeAttribute("aria-activedescendant");
    this.want(first, count);
  }

  makeRow() {
    const cells = this.columns.map((column, at) => element("div", { role: "gridcell", id: newId("cell"), "aria-colindex": at + 1, class: `grid-cell type-${column.type}${column.right ? " right" : ""}` }));
    const box = element("div", { role: "row", class: "grid-row" }, ...cells);
    this.body.append(box);
    return { box, cells, place: null, data: null };
  }

  fill(row, place) {
    row.place = place;
    row.box.hidden = place === null;
    if (place === null) return;
    row.box.style.transform = `translateY(${(place - this.position) * ROW}px)`;
    row.box.setAttribute("aria-rowindex", place + 1 + SPARE);
    const data = this.row(place);
    if (row.data !== data || data === null) {
      row.data = data;
      row.cells.forEach((cell, at) => {
        const text = data ? data[1][at] : "…";
        cell.textContent = text;
        cell.classList.toggle("null", text === "null" && this.columns[at].type !== "string");
      });
    }
    const chosen = this.chosen();
    row.cells.forEach((cell, at) => {
      const isChosen = place >= chosen.first && place <= chosen.last && at >= chosen.left && at <= chosen.right;
      cell.classList.toggle("chosen", isChosen);
      cell.classList.toggle("active", place === this.active.row && at === this.active.column);
      if (isChosen) cell.setAttribute("aria-selected", "true");
      else cell.removeAttribute("aria-selected");
    });
  }

  row(place) {
    return this.blocks.get(Math.floor(place / BLOCK))?.[place % BLOCK] ?? null;
  }

  // Asks for the rows in sight that aren't known, two blocks at a time; what has gone out of sight meanwhile isn't asked for.
  want(first, count) {
    for (let block = Math.floor(first / BLOCK); block <= Math.floor((first + Math.max(0, count - 1)) / BLOCK); block++) {
      if (this.total && !this.blocks.has(block) && !this.asked.has(block) && this.asked.size < 2) this.fetch(block);
    }
  }

  async fetch(block) {
    const version = this.version;
    this.asked.add(block);
    try {
      const found = await this.rows(this.arrangement, block * BLOCK, BLOCK);
      if (version !== this.version) return;
      this.blocks.set(block, found.rows);
      if (this.blocks.size > MOST_BLOCKS) this.blocks.delete(this.blocks.keys().next().value);
    } catch (fault) {
      if (version === this.version) this.told(fault.message);
      return;
    } finally {
      if (version === this.version) this.asked.delete(block);
    }
    this.render();
  }

  chosen() {
    const [first, last] = [this.active.row, this.anchor.row].sort((a, b) => a - b);
    const [left, right] = [this.active.column, this.anchor.column].sort((a, b) => a - b);
    return { first, last, left, right };
  }

  // Makes a cell the active one, and scrolls it into sight.
  activate(row, column, extends_) {
    this.active = { row: clamp(row, 0, Math.max(0, this.total - 1)), column: clamp(column, 0, this.columns.length - 1) };
    if (!extends_) this.anchor = this.active;
    const whole = Math.floor(this.seen);
    if (this.active.row < this.position) this.moveTo(this.active.row);
    else if (this.active.row > this.position + whole - 1) this.moveTo(this.active.row - whole + 1 + (this.active.row === this.total - 1 ? 1 : 0));
    else this.render();
    const cell = this.pool.find((one) => one.place === this.active.row)?.cells[this.active.column];
    if (!cell) return;
    const [left, right] = [cell.offsetLeft, cell.offsetLeft + Math.min(cell.offsetWidth, this.box.clientWidth - ASIDE)];
    if (left < this.box.scrollLeft) this.box.scrollLeft = left;
    else if (right > this.box.scrollLeft + this.box.clientWidth) this.box.scrollLeft = right - this.box.clientWidth;
  }

  key(event) {
    const { row, column } = this.active;
    const all = event.ctrlKey || event.metaKey;
    const page = Math.max(1, Math.floor(this.seen) - 1);
    const steps = {
      ArrowDown: [all ? this.total - 1 : row + 1, column],
      ArrowUp: [all ? 0 : row - 1, column],
      ArrowRight: [row, all ? this.columns.length - 1 : column + 1],
      ArrowLeft: [row, all ? 0 : column - 1],
      PageDown: [row + page, column],
      PageUp: [row - page, column],
      Home: [all ? 0 : row, 0],
      End: [all ? this.total - 1 : row, this.columns.length - 1],
    };
    if (steps[event.key]) this.activate(...steps[event.key], event.shiftKey);
    else if (all && event.key === "a") this.chooseAll();
    else if (event.key === "Enter") this.openActive();
    else return;
    event.preventDefault();
  }

  chooseAll() {
    this.anchor = { row: 0, column: 0 };
    this.active = { row: Math.max(0, this.total - 1), column: this.columns.length - 1 };
    this.render();
  }

  pressed(event, extends_ = event.shiftKey) {
    const row = this.pool.find((one) => one.box.contains(event.target));
    const column = row?.cells.findIndex((cell) => cell.contains(event.target)) ?? -1;
    if (column < 0 || event.button !== 0) return;
    event.preventDefault();
    this.body.focus({ preventScroll: true });
    this.activate(row.place, column, extends_);
  }

  openActive() {
    const data = this.row(this.active.row);
    if (data) this.open(data[0], this.active.column);
  }

  copied(event) {
    event.preventDefault();
    const { first, last, left, right } = this.chosen();
    if (this.total) this.copy(first, last - first + 1, Array.from({ length: right - left + 1 }, (_, at) => left + at));
  }
}

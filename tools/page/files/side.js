// The side of the page: tables, views and policies with their columns, and the questions that were asked.
import { button, counted, element } from "./dom.js";

export class Side {
  constructor(catalogue, history, { insert, reuse, fetchHistory }) {
    Object.assign(this, { catalogue, history, insert, reuse, fetchHistory });
    this.opened = new Set();
    this.search = element("input", { type: "search", placeholder: "search", "aria-label": "Search the history", oninput: () => this.listHistory() });
    this.entries = element("ul", { class: "entries" });
    this.past = [];
    history.append(element("h2", {}, "History"), this.search, this.entries);
  }

  show(catalogue) {
    const groups = [
      ["Tables", catalogue.tables.map((it) => this.entity(it, "table"))],
      ["Views", catalogue.views.map((it) => this.entity(it, "view"))],
      ["Policies", catalogue.policies.map((it) => this.policy(it))],
    ];
    const shown = groups.filter(([name, items]) => items.length || name === "Tables");
    this.catalogue.replaceChildren(...shown.flatMap(([name, items]) => [element("h2", {}, name), items.length ? element("ul", {}, ...items) : element("p", { class: "dim" }, "none yet")]));
  }

  folding(id, summary, ...children) {
    const box = element("details", { open: this.opened.has(id) }, element("summary", {}, ...summary), ...children);
    box.addEventListener("toggle", () => (box.open ? this.opened.add(id) : this.opened.delete(id)));
    return element("li", {}, box);
  }

  entity(it, kind) {
    const count = it.rows === null ? "" : counted(it.rows, "row");
    const columns = element("ul", { class: "columns" }, ...it.columns.map((column) => element("li", {}, button(column.name, () => this.insert(column.written), { title: "Puts the name into the question" }), " ", element("span", { class: "type" }, column.type))));
    const more = it.query ? [element("p", { class: "dim" }, `of ${it.table}, stored up to commit ${it.stored}`), element("pre", {}, it.query)] : [];
    return this.folding(`${kind} ${it.name}`, [element("span", { class: "name" }, it.name), " ", element("span", { class: "dim" }, count)], button("Insert", () => this.insert(it.written), { "aria-label": `Insert ${it.name}` }), columns, ...more);
  }

  policy(it) {
    return this.folding(`policy ${it.table}`, [element("span", { class: "name" }, it.table), " ", element("span", { class: "dim" }, "update policy")], element("pre", {}, it.text ?? "set by another session"));
  }

  async refreshHistory() {
    this.past = await this.fetchHistory();
    this.listHistory();
  }

  listHistory() {
    const wanted = this.search.value.toLowerCase();
    const found = this.past.filter((one) => one.text.toLowerCase().includes(wanted)).slice(0, 100);
    this.entries.replaceChildren(...found.map((one) => element("li", {}, button(one.text, () => this.reuse(one.text), { title: `${one.when.replace("T", " ")}: ${one.reply}`, class: one.reply.startsWith("refused") ? "entry was-refused" : "entry" }))));
  }
}

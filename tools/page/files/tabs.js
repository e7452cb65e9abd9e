// The tabs: each has a text and what came of its questions. The texts stay while the browser's tab does.
import { button, element, newId } from "./dom.js";

const KEPT = "tabs";

export class Tabs {
  constructor(box, { made, shown, closed }) {
    Object.assign(this, { made, shown, closed });
    this.list = element("div", { role: "tablist", "aria-label": "Questions", onkeydown: (event) => this.key(event) });
    this.tabs = [];
    this.number = 0;
    box.append(this.list, button("+", () => this.open(""), { "aria-label": "New tab", id: "new-tab" }));
  }

  // Opens the tabs that were open before the page was loaded anew.
  restore() {
    let kept = [];
    try {
      kept = JSON.parse(sessionStorage.getItem(KEPT)) ?? [];
    } catch {
      kept = [];
    }
    for (const text of kept) this.open(String(text), false);
    if (!this.tabs.length) this.open("");
    else this.activate(this.tabs[0]);
  }

  open(text, isShown = true) {
    const name = `Question ${++this.number}`;
    const head = element("button", { type: "button", role: "tab", id: newId("tab"), "aria-controls": "work", "aria-selected": "false", tabindex: -1 }, name);
    const tab = { name, head, doc: CodeMirror.Doc(text, "kql") };
    const close = button("×", () => this.close(tab), { "aria-label": `Close ${name}`, class: "close", tabindex: -1 });
    head.addEventListener("click", () => this.activate(tab));
    tab.box = element("span", { class: "tab", role: "presentation" }, head, close);
    this.list.append(tab.box);
    this.tabs.push(tab);
    this.made(tab);
    if (isShown) this.activate(tab);
    return tab;
  }

  activate(tab) {
    this.active = tab;
    for (const one of this.tabs) {
      one.head.setAttribute("aria-selected", String(one === tab));
      one.head.tabIndex = one === tab ? 0 : -1;
    }
    document.getElementById("work").setAttribute("aria-labelledby", tab.head.id);
    this.shown(tab);
    this.keep();
  }

  close(tab) {
    const at = this.tabs.indexOf(tab);
    this.tabs.splice(at, 1);
    tab.box.remove();
    this.closed(tab);
    if (!this.tabs.length) this.open("");
    else if (this.active === tab) this.activate(this.tabs[Math.min(at, this.tabs.length - 1)]);
    this.keep();
  }

  key(event) {
    const at = this.tabs.indexOf(this.active);
    const last = this.tabs.length - 1;
    const next = { ArrowRight: at === last ? 0 : at + 1, ArrowLeft: at === 0 ? last : at - 1, Home: 0, End: last }[event.key];
    if (next !== undefined) this.activate(this.tabs[next]);
    else if (event.key === "Delete") this.close(this.active);
    else return;
    event.preventDefault();
    this.active.head.focus();
  }

  keep() {
    try {
      sessionStorage.setItem(KEPT, JSON.stringify(this.tabs.map((tab) => tab.doc.getValue())));
    } catch {
      // A text that is too large for the browser's store isn't kept.
    }
  }
}

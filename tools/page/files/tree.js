// A dynamic as a tree that opens level by level.
import { counted, element } from "./dom.js";

const OPEN_LEVELS = 2;

export function tree(node, name = null, level = 0) {
  const head = name === null ? [] : [element("span", { class: "tree-name" }, name), ": "];
  if (!node.children) return element("div", { class: "tree-leaf" }, ...head, element("span", { class: `tree-${node.kind}` }, node.kind === "str" ? JSON.stringify(node.text) : node.text));
  const [open, close, what] = node.kind === "dict" ? ["{", "}", "member"] : ["[", "]", "item"];
  const summary = element("summary", {}, ...head, element("span", { class: "tree-count" }, `${open} ${counted(node.count, what)} ${close}`));
  const made = element("details", { class: "tree" }, summary);
  // A level is made when it is opened first: a dynamic may have very many.
  const fill = () => {
    if (made.childElementCount > 1) return;
    made.append(...node.children.map(([key, inner]) => tree(inner, key, level + 1)));
    if (node.count > node.children.length) made.append(element("div", { class: "tree-leaf" }, `… and ${node.count - node.children.length} more`));
  };
  made.addEventListener("toggle", () => made.open && fill());
  if (level < OPEN_LEVELS) {
    fill();
    made.open = true;
  }
  return made;
}

// What is offered while a question is typed: tables, columns, functions, operators, and behind a dot the members that were seen.

const IDENTIFIER = /[A-Za-z0-9_-]*$/;
const PATH = /([A-Za-z_][A-Za-z0-9_]*(?:\s*\.\s*[A-Za-z_][A-Za-z0-9_]*|\s*\[\s*(?:"[^"]*"|\d+)\s*\])*)\s*\.\s*([A-Za-z0-9_]*)$/;
const NAMED = /([A-Za-z_][A-Za-z0-9_]*)\s*=(?![=~])/g;
const MOST = 200;

// The words that fit at the end of a text, which is a block up to the cursor, and how many signs of it they replace.
export function completions(before, block, language, catalogue) {
  const command = /^\s*([.#][A-Za-z-]*)$/.exec(before);
  if (command) return { length: command[1].length, found: matching(command[1], language.commands.map((text) => ({ text, kind: "command" }))) };
  const path = PATH.exec(before);
  const members = path && membersOf(path[1], block, catalogue);
  if (members) return { length: path[2].length, found: matching(path[2], members) };
  const typed = IDENTIFIER.exec(before)[0];
  const lead = before.slice(0, before.length - typed.length);
  return { length: typed.length, found: matching(typed, candidates(lead, block, language, catalogue)) };
}

function candidates(lead, block, language, catalogue) {
  const entities = [...catalogue.tables.map((it) => ({ text: it.written, kind: "table" })), ...catalogue.views.map((it) => ({ text: it.written, kind: "view" }))];
  const operators = Object.entries(language.operators).map(([text, it]) => ({ text, kind: "operator", told: it.form }));
  const isSource = /(?:^|;|\(|\bunion)\s*$/.test(lead);
  if (/\|\s*$/.test(lead)) return operators;
  if (/\bkind\s*=\s*$/.test(lead)) return language.joins.map((text) => ({ text, kind: "join" }));
  if (/:\s*$/.test(lead)) return language.types.map((text) => ({ text, kind: "type" }));
  const sources = operators.filter((it) => ["print", "range", "datatable", "union"].includes(it.text));
  const calls = (from, kind) => Object.entries(from).map(([text, it]) => ({ text, kind, told: it.form, isCall: true }));
  const words = [...language.reserved, ...language.parts].map((text) => ({ text, kind: "word" }));
  const inSummarize = /\bsummarize\b[^|]*$/.test(lead) && !/\bby\b[^|]*$/.test(lead.split("summarize").pop());
  const expressions = [
    ...columnsOf(block, catalogue).map((it) => ({ text: it.written, kind: it.type })),
    ...namedIn(block).map((text) => ({ text, kind: "named here" })),
    ...(inSummarize ? calls(language.aggregates, "aggregate") : []),
    ...calls(language.functions, "function"),
  ];
  return isSource ? [...entities, ...sources, ...expressions, ...words] : [...expressions, ...entities, ...words];
}

const namedIn = (block) => [...new Set([...block.matchAll(NAMED)].map((found) => found[1]))];

// The columns of the tables and views that a block names, or of all where it names none.
function columnsOf(block, catalogue) {
  const all = [...catalogue.tables, ...catalogue.views];
  const words = new Set(block.match(/[A-Za-z_][A-Za-z0-9_]*/g) ?? []);
  const named = all.filter((it) => words.has(it.name) || block.includes(it.written));
  const found = new Map();
  for (const entity of named.length ? named : all) for (const column of entity.columns) if (!found.has(column.name)) found.set(column.name, column);
  return [...found.values()];
}

function membersOf(path, block, catalogue) {
  const steps = path.split(/\s*\.\s*|\s*\[\s*|\s*\]\s*/).filter(Boolean);
  const column = columnsOf(block, catalogue).find((it) => it.name === steps[0] && it.members);
  if (!column) return null;
  let members = column.members;
  for (const step of steps.slice(1)) if (!/^\d+$/.test(step)) members = members[step.replace(/^"|"$/g, "")] ?? {};
  return Object.keys(members)
    .filter((name) => /^[A-Za-z_][A-Za-z0-9_]*$/.test(name))
    .map((text) => ({ text, kind: "member" }));
}

// Those that begin with what was typed, and then those that have it within.
function matching(typed, offered) {
  const wanted = typed.toLowerCase();
  const places = new Map();
  for (const one of offered) {
    const at = one.text.toLowerCase().indexOf(wanted);
    if (at >= 0 && !places.has(one.text)) places.set(one.text, [at === 0 || one.text.startsWith("['") && at === 2 ? 0 : 1, one]);
  }
  const found = [...places.values()];
  return [...found.filter(([rank]) => rank === 0), ...found.filter(([rank]) => rank === 1)].slice(0, MOST).map(([, one]) => one);
}

// The page: joins its parts.
import { button, byId, counted, element } from "./dom.js";
import { Editor } from "./editor.js";
import { defineMode } from "./kql.js";
import { Results } from "./results.js";
import { Side } from "./side.js";
import { Connection, takeFragment } from "./socket.js";
import { Tabs } from "./tabs.js";

const LONGEST_LINK = 30_000;
const page = { language: null, catalogue: { tables: [], views: [], policies: [] }, state: null, asked: 0 };
const connection = new Connection();
let question = takeFragment();

const tell = (text) => {
  byId("told").textContent = text;
};

function start(hello) {
  page.language = hello.language;
  defineMode(hello.language);
  page.editor = new Editor(byId("editor"), { run, changed: () => keepSoon(), catalogue: () => page.catalogue, language: () => page.language });
  page.side = new Side(byId("catalogue"), byId("history"), { insert, reuse, fetchHistory: () => connection.call("history") });
  page.tabs = new Tabs(byId("tabs"), { made, shown, closed });
  page.tabs.restore();
  openLink();
}

// A link's question is put into a tab of its own, and never run by itself.
function openLink() {
  if (!question) return;
  page.tabs.open(question);
  tell("This question came with the link. Read it before you run it.");
  question = null;
}

function made(tab) {
  tab.results = new Results(byId("results"), { connection, told: tell });
  tab.running = new Set();
}

function shown(tab) {
  for (const one of page.tabs.tabs) one.results.box.hidden = one !== tab;
  page.editor.mirror.swapDoc(tab.doc);
  tab.results.grid.render();
  page.editor.mirror.refresh();
  page.editor.mirror.focus();
  showRunning();
}

function closed(tab) {
  tab.isClosed = true;
  for (const asked of tab.running) connection.call("leave", { asked }).catch(() => {});
  tab.results.close();
}

let keeping;
function keepSoon() {
  clearTimeout(keeping);
  keeping = setTimeout(() => page.tabs.keep(), 300);
}

function insert(text) {
  page.editor.mirror.replaceSelection(text, "end");
  page.editor.mirror.focus();
}

// A question of the history goes to the end of the text, and the cursor with it.
function reuse(text) {
  const doc = page.tabs.active.doc;
  const end = { line: doc.lastLine(), ch: doc.getLine(doc.lastLine()).length };
  const lead = doc.getValue().trim() ? (doc.getLine(doc.lastLine()).trim() ? "\n\n" : "\n") : "";
  doc.replaceRange(lead + text, end);
  doc.setCursor(doc.lastLine(), doc.getLine(doc.lastLine()).length);
  page.editor.mirror.focus();
}

async function run() {
  const tab = page.tabs.active;
  const blocks = page.editor.asked();
  if (!blocks.length) {
    tell("There is no question here.");
    return;
  }
  tell("");
  for (const asked of tab.running) connection.call("leave", { asked }).catch(() => {});
  const turn = (tab.turn = (tab.turn ?? 0) + 1);
  tab.results.begin();
  page.editor.unmark(tab.doc);
  for (const [at, block] of blocks.entries()) {
    const goesOn = await runBlock(tab, turn, block);
    if (tab.turn !== turn || tab.isClosed) return;
    if (!goesOn) {
      if (at + 1 < blocks.length) tab.results.say(`${counted(blocks.length - at - 1, "command")} behind it ${blocks.length - at === 2 ? "wasn't" : "weren't"} run.`, "told");
      break;
    }
  }
  page.side.refreshHistory().catch(() => {});
}

// Runs one block, and says whether the next one is to be run.
async function runBlock(tab, turn, block) {
  let reply;
  try {
    reply = await ask(tab, block.text, false);
    if (reply.kind === "confirm") reply = (await agreed(block.text, reply.folder)) ? await ask(tab, block.text, true) : { kind: "declined" };
  } catch (fault) {
    reply = { kind: "fault", first: fault.message };
  }
  if (tab.turn !== turn || tab.isClosed) {
    if (reply.answer) connection.call("drop", { answer: reply.answer }).catch(() => {});
    return false;
  }
  return showReply(tab, block, reply);
}

async function ask(tab, text, confirmed) {
  const asked = ++page.asked;
  tab.running.add(asked);
  showRunning();
  try {
    return await connection.call("ask", { text, asked, confirmed });
  } finally {
    tab.running.delete(asked);
    showRunning();
  }
}

function showReply(tab, block, reply) {
  const { results } = tab;
  if (reply.kind === "answer") results.add(reply);
  else if (reply.kind === "told") results.say(`${reply.first} (${reply.seconds} s)`, "told");
  else if (reply.kind === "refusal") {
    results.say(reply.first, "refusal", reply.sentences);
    if (reply.place) page.editor.mark(tab.doc, block, reply.place);
  } else if (reply.kind === "left") results.say(reply.runs ? "You left this question. The engine is still busy with it, and what you ask next waits for it." : "You left this question before it was begun.", "told");
  else if (reply.kind === "declined") results.say("The file wasn't written.", "told");
  else if (reply.kind === "ended") results.say(reply.first, "refusal");
  else if (reply.kind === "fault") results.say(reply.first, "refusal");
  return ["answer", "told", "comment"].includes(reply.kind);
}

// Asks before a command writes a file.
function agreed(text, folder) {
  const dialog = byId("ask");
  byId("ask-text").textContent = `${text.slice(0, 200)}\n\nThis command writes a file of CSV into ${folder}.`;
  dialog.returnValue = "no";
  dialog.showModal();
  return new Promise((resolve) => dialog.addEventListener("close", () => resolve(dialog.returnValue === "yes"), { once: true }));
}

function leave() {
  for (const asked of page.tabs.active.running) connection.call("leave", { asked }).catch((fault) => tell(fault.message));
}

async function copyLink() {
  const block = page.editor.asked()[0];
  const link = block && `${location.origin}/#question=${encodeURIComponent(block.text)}`;
  if (!link || link.length > LONGEST_LINK) {
    tell(link ? "This question is too long for a link." : "There is no question here.");
    return;
  }
  try {
    await navigator.clipboard.writeText(link);
    tell("The link is copied. It holds in this browser while kq-page runs.");
  } catch (fault) {
    tell(`Not copied: ${fault.message}`);
  }
}

function showRunning() {
  const runs = Boolean(page.tabs?.active?.running.size);
  byId("leave").disabled = !runs;
  byId("work").setAttribute("aria-busy", String(runs));
}

function showState(state) {
  page.state = { ...state, at: performance.now() };
  showLoading(state.loading);
  showEngine();
  showEnd(state.engine.ended);
}

let lastLoading = "";
function showLoading(loading) {
  const text = JSON.stringify(loading);
  if (text === lastLoading) return;
  lastLoading = text;
  const rate = loading.seconds > 0 && loading.rows ? `, ${Math.round(loading.rows / loading.seconds).toLocaleString("en")} rows/s` : "";
  const files = loading.files.join(", ");
  const told = loading.told.length ? [element("details", { open: loading.failed }, element("summary", {}, loading.failed ? "The loading stopped" : "What was told"), ...loading.told.map((line) => element("p", {}, line)))] : [];
  if (loading.done) {
    byId("loading").replaceChildren(element("span", {}, `${files}: ${counted(loading.rows, "row")} in ${loading.seconds} s`), ...told);
    return;
  }
  const bar = element("progress", { max: loading.size ?? false, value: loading.size ? loading.taken : false, "aria-label": `Loading ${loading.file ?? files}` });
  byId("loading").replaceChildren(element("span", {}, `Loading ${loading.file ?? files}: ${counted(loading.rows, "row")}${rate}`), bar, ...told);
}

function showEngine() {
  const state = page.state?.engine;
  if (!state) return;
  const seconds = Math.round(state.seconds + (performance.now() - page.state.at) / 1000);
  const waiting = state.waiting && state.busy ? `; ${state.waiting} more wait` : "";
  const text = state.busy ? `The engine is busy${seconds >= 1 ? ` for ${seconds} s` : ""} with: ${state.busy.replace(/\s+/g, " ").slice(0, 60)}${waiting}` : "";
  if (byId("engine").textContent !== text) byId("engine").textContent = text;
}

function showEnd(ended) {
  const box = byId("alert");
  if (!ended) {
    if (box.dataset.about === "end") box.replaceChildren();
    return;
  }
  if (box.dataset.about === "end" && box.childElementCount) return;
  box.dataset.about = "end";
  box.replaceChildren(element("span", {}, `${ended} Its tables are gone. `), button("Load anew", () => connection.call("again").catch((fault) => tell(fault.message))));
}

connection.addEventListener("hello", ({ detail }) => {
  byId("alert").replaceChildren();
  if (!page.editor) start(detail);
  page.catalogue = detail.catalogue;
  page.side.show(detail.catalogue);
  page.side.refreshHistory().catch(() => {});
  showState(detail);
});
connection.addEventListener("catalogue", ({ detail }) => {
  page.catalogue = detail.catalogue;
  page.side?.show(detail.catalogue);
});
connection.addEventListener("state", ({ detail }) => showState(detail));
connection.addEventListener("gone", ({ detail }) => {
  byId("alert").dataset.about = "server";
  byId("alert").replaceChildren(element("span", {}, detail === 4403 ? "This page has no key to its server. Open the address that kq-page printed." : "The server of this page has gone. Where kq-page was started anew, open the address that it printed."));
});
window.addEventListener("hashchange", () => {
  question = takeFragment();
  if (page.tabs) openLink();
});
matchMedia("(prefers-color-scheme: dark)").addEventListener("change", () => page.tabs?.tabs.forEach((tab) => tab.results.repaint()));
byId("run").addEventListener("click", run);
byId("leave").addEventListener("click", leave);
byId("link").addEventListener("click", copyLink);
setInterval(showEngine, 1000);
if (matchMedia("(max-width: 700px)").matches) byId("side").open = false;

// Shows a source, with each thread at its line.

import {chooser, run, state} from "./data.js";
import {byId, chip, clip, el, fill, paint, scrollInto, setTitle, wash} from "./elements.js";
import {NO_THREAD} from "./fold.js";
import {coloured} from "./highlight.js";
import {lineOf} from "./history.js";
import {showInstructions} from "./instructions.js";
import {methodKey} from "./names.js";
import {show, view, whenDrawn, whenShown} from "./view.js";
import {nextThread} from "./waits.js";

const MOST_LINES = 5000, MOST_UNITS = 400;      // of a source, and of a line of it

let rows = [];                                  // of the source that is shown: {line, gutter}
let shownFile = -2, marked = [], focus = null;

function sourceRow(text, number, language, within) {
  const gutter = el("span", {class: "g"}), long = text.length > MOST_UNITS ? " \u2026" : "";
  const parts = coloured(text.slice(0, MOST_UNITS), language, within);
  const line = el("div", {class: "ln"}, el("span", {class: "n"}, String(number)), gutter, el("span", {class: "tx"}, parts, long));
  return {line, gutter};
}

// Draws the source of view.file, unless it is drawn.
function drawSource() {
  if (shownFile === view.file) return;
  shownFile = view.file;
  marked = [];
  rows = [];
  const tabs = byId("tabs"), box = byId("lines"), {sources} = run.data, source = sources[view.file];
  fill(byId("file"), source ? source.name : "Source");
  fill(tabs, sources.length > 1 ? sources.map((x, i) => fileButton(x.name, i)) : "");
  if (!source) {
    fill(box, el("p", {}, "No source was given. The instructions are below."));
    return;
  }
  const all = source.text.replace(/\r?\n$/, "").split(/\r?\n/), within = {comment: false};
  rows = all.slice(0, MOST_LINES).map((text, i) => sourceRow(text, i + 1, source.lang, within));
  const more = all.length - rows.length, says = more > 0 ? more + " more lines" : source.cut ? "the source is longer" : "";
  fill(box, rows.map(r => r.line), says ? el("p", {class: "more"}, "\u2026 " + says) : "");
}

function fileButton(name, i) {
  const choose = () => { view.file = i; drawSource(); show(); };
  return el("button", {type: "button", "aria-pressed": i === view.file, title: name, onclick: choose}, clip(name, 24));
}

// Returns where the frames of all threads are: the topmost with a line, and the calls beneath it.
function marksAt(p) {
  const marks = [];
  for (let t = 0; t < run.count; t++) {
    const frames = (state(p).threads[t] || NO_THREAD).frames;
    let top = true;
    for (let i = frames.length - 1; i >= 0; i--) {
      const line = lineOf(frames[i]);
      if (!line) continue;
      marks.push({t, line, file: run.data.methods[frames[i].m].s, call: !top, m: frames[i].m});
      top = false;
    }
  }
  return marks;
}

// Returns the marks of a line, one for each thread, those that are in a call last.
function chipsOf(list, next) {
  const done = new Set(), chips = [];
  for (const m of [...list.filter(x => !x.call), ...list.filter(x => x.call)]) {
    if (done.has(m.t)) continue;
    done.add(m.t);
    const mark = chip(m.t, m.call ? "call" : m.t === next ? "next" : ""), where = ", in " + methodKey(m.m);
    setTitle(mark, "thread " + m.t + (m.call ? " is in a call that this line made" + where
      : " is here" + where + (m.t === next ? "; it takes the next turn" : "")));
    chips.push(mark);
  }
  return chips;
}

function markLine(row, list, next) {
  const tops = list.filter(m => !m.call), {line} = row;
  marked.push(row);
  fill(row.gutter, chipsOf(list, next));
  if (!tops.length) return;
  const lead = (tops.find(m => m.t === next) || tops[0]).t, other = tops.find(m => m.t !== lead);
  line.classList.add("here");
  line.setAttribute("aria-current", "true");
  paint(line, lead);
  if (!other) return;
  line.classList.add("two");
  line.style.setProperty("--wb", wash(other.t));
}

function unmark() {
  for (const {line, gutter} of marked) {
    line.classList.remove("here", "two");
    line.removeAttribute("aria-current");
    gutter.replaceChildren();
  }
  marked = [];
}

// Returns the mark that the source scrolls to: that of the next turn, else of the last one, else any.
function focusOf(marks, p) {
  const tops = marks.filter(m => !m.call), last = p > run.from ? chooser(p) : 0;
  return tops.find(m => m.t === nextThread(p)) || tops.find(m => m.t === last) || tops[0];
}

function showSource(p) {
  const marks = marksAt(p), byLine = new Map();
  focus = focusOf(marks, p);
  unmark();
  if (focus && focus.file >= 0 && focus.file !== view.file) {
    view.file = focus.file;
    drawSource();
  }
  for (const m of marks) {
    if (m.file !== view.file) continue;
    if (!byLine.has(m.line)) byLine.set(m.line, []);
    byLine.get(m.line).push(m);
  }
  for (const [number, list] of byLine) if (rows[number - 1]) markLine(rows[number - 1], list, nextThread(p));
  byId("lines").style.setProperty("--gut", Math.min(run.count, 3) * 1.62 + .9 + "em");
}

// Scrolls to the line that matters. Called when the instructions have taken their space.
function scrollSource() {
  if (focus && rows[focus.line - 1]) scrollInto(byId("srcscroll"), rows[focus.line - 1].line, 3);
}

export function prepareSource() {
  view.file = run.data.sources.length ? 0 : -1;
  whenDrawn(drawSource);
  whenShown(showSource);
  whenShown(showInstructions);
  whenShown(scrollSource);
}

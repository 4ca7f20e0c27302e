// Shows the instructions of each thread's line, the next one filled. source.js calls it.

import {run, state} from "./data.js";
import {byId, chip, clip, el, fill} from "./elements.js";
import {NO_THREAD} from "./fold.js";
import {lineOf} from "./history.js";
import {shortCode, shortMethod} from "./names.js";
import {view} from "./view.js";
import {nextThread} from "./waits.js";
import {statusOf} from "./words.js";

const MOST_INSTRUCTIONS = 8;        // instructions that are shown of a line

// Returns the first and the last instruction that belong to the frame's line, or some about it if it has none.
function sameLine(f, m) {
  const line = lineOf(f);
  let a = f.pc, b = f.pc;
  if (!line) return [Math.max(0, a - 2), Math.min(m.c.length - 1, b + 3)];
  while (a > 0 && m.l[a - 1] === line) a--;
  while (b + 1 < m.c.length && m.l[b + 1] === line) b++;
  return [a, b];
}

function instructionsOf(f, m) {
  const [a, b] = sameLine(f, m), low = Math.max(a, Math.min(f.pc - 2, b - 4)), high = Math.min(b, low + MOST_INSTRUCTIONS - 1);
  const ops = el("span", {class: "m"}, low > a ? el("span", {class: "op"}, "\u2026") : "");
  for (let k = low; k <= high; k++) {
    const style = k === f.pc ? " cur" : k > f.pc ? " todo" : "";
    ops.append(el("span", {class: "op" + style, title: "@" + k + " " + m.c[k]}, shortCode(m.c[k])));
  }
  if (high < b) ops.append(el("span", {class: "op"}, "\u2026"));
  return ops;
}

function rowOf(p, t, next) {
  const frames = (state(p).threads[t] || NO_THREAD).frames, row = el("div", {class: "row", c: t}, chip(t, t === next ? "next" : ""));
  const f = frames.filter(x => typeof x.m === "number").pop();
  if (!f) {
    row.append(el("span", {class: "at"}, statusOf(p, t).say));
    return row;
  }
  const m = run.data.methods[f.m], line = lineOf(f);
  row.append(el("span", {class: "at", title: m.k}, clip(shortMethod(m.k), 16) + (line ? " : " + line : "")), instructionsOf(f, m));
  return row;
}

// Scrolls each row so that its next instruction is seen.
function scrollRows(box) {
  for (const ops of box.querySelectorAll(".row > .m")) {
    const next = ops.querySelector(".cur"), left = next ? next.offsetLeft - ops.offsetLeft : 0;
    const right = next ? left + next.offsetWidth : 0;
    if (right > ops.clientWidth) ops.scrollLeft = Math.min(left, right - ops.clientWidth + 4);
  }
}

// Shows the instructions of all threads at position p. A source in Jasmin has them already.
export function showInstructions(p) {
  const box = byId("now"), source = run.data.sources[view.file];
  box.hidden = Boolean(source) && source.lang === "jasmin";
  if (box.hidden) return;
  const rows = Array.from({length: run.count}, (_, t) => rowOf(p, t, nextThread(p)));
  fill(box, el("h3", {}, "Instructions of the current lines (the filled one is next)"), rows);
  scrollRows(box);
}

// Shows the threads of the state: status, frames, local variables, operands.

import {run, state} from "./data.js";
import {chip, el} from "./elements.js";
import {lineOf} from "./history.js";
import {isCompilers, localName} from "./locals.js";
import {fullObject, methodKey, shortMethod} from "./names.js";
import {isReference, referenceOf, valueText} from "./values.js";
import {view} from "./view.js";
import {inCircle, nextThread} from "./waits.js";
import {statusOf} from "./words.js";

const MOST_FRAMES = 20, MOST_VALUES = 200;      // shown of a thread, and of a frame

// Makes the box of a value. `look` is {name, style, changed}.
export function valueBox(v, d, p, look) {
  const style = "v " + look.style + (look.changed ? " changed" : ""), title = isReference(v) ? fullObject(referenceOf(v), p) : undefined;
  return el("span", {class: style, title}, look.name ? el("span", {class: "nm2"}, look.name + "=") : "", valueText(v, d, p));
}

// Returns the boxes of the local variables. A compiler's own are left out unless the reader asks for them.
function localBoxes(f, before, p) {
  const boxes = [];
  f.locals.forEach((v, slot) => {
    if (v === "+" || v === "-" || boxes.length >= MOST_VALUES) return;
    if (!view.unnamed && isCompilers(f, slot)) return;
    const [name, d] = localName(f, slot), changed = before && before.locals[slot] !== v;
    boxes.push(valueBox(v, d, p, {name: name || "local " + slot, style: "loc", changed}));
  });
  return boxes;
}

function operandBoxes(f, before, p) {
  const boxes = [];
  f.stack.forEach((v, i) => {
    if (v === "+" || boxes.length >= MOST_VALUES) return;
    const changed = before && (i >= before.stack.length || before.stack[i] !== v);
    boxes.push(valueBox(v, "", p, {style: "stk", changed}));
  });
  return boxes;
}

function frameView(f, was, p, under) {
  const key = methodKey(f.m), line = lineOf(f), before = was && was.m === f.m ? was : null;
  const place = key + (typeof f.m === "number" ? " @" + f.pc : ""), operands = operandBoxes(f, before, p);
  const values = el("div", {class: "vals"}, localBoxes(f, before, p),
    operands.length ? [el("span", {class: "lab"}, "stack"), operands] : "");
  return el("div", {class: "fr" + (under ? " under" : "")},
    el("span", {class: "w m", title: place}, shortMethod(key), line ? el("span", {class: "ln2"}, " :" + line) : ""), values);
}

// Returns the frames of a thread, the topmost first. Of a deep stack the middle is left out.
function frameViews(thread, was, p) {
  const views = [], {frames} = thread, hidden = frames.length - MOST_FRAMES;
  for (let i = frames.length - 1; i >= 0; i--) {
    if (hidden > 0 && i >= 1 && i <= hidden) {
      if (i === hidden) views.push(el("div", {class: "more"}, "\u2026 " + hidden + " more calls \u2026"));
      continue;
    }
    views.push(frameView(frames[i], was && was.frames[i], p, i < frames.length - 1));
  }
  return views;
}

function threadCard(t, p, before) {
  const thread = state(p).threads[t], {say, style, sign} = statusOf(p, t);
  const styles = ["th", t === nextThread(p) ? "next" : "", style === "gone" ? "gone" : "", p === run.to && inCircle(t) ? "stuck" : ""];
  return el("div", {class: styles.filter(Boolean).join(" "), c: t, "data-thread": t},
    el("div", {class: "top"}, chip(t), el("span", {class: "st " + style, title: thread.status}, sign + " " + say)),
    frameViews(thread, before.threads[t], p));
}

// Returns the cards of all threads that were started.
export function threadCards(p, before) {
  const cards = [];
  for (let t = 0; t < run.count; t++) if (state(p).threads[t]) cards.push(threadCard(t, p, before));
  return cards;
}

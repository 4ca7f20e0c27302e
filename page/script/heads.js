// Shows the heads of the timeline's columns: the thread, its method, its status.

import {run} from "./data.js";
import {byId, chip, el, fill, setTitle} from "./elements.js";
import {chooseThread} from "./moves.js";
import {methodKey, parts, shortClass, shortMethod} from "./names.js";
import {view} from "./view.js";
import {shortStatus, statusOf} from "./words.js";

const SCROLLBAR = 20;        // pixels that a vertical scrollbar takes at most

let heads = [];        // by thread: its head and the line of its status

// Returns the method that a thread began with, or "".
function firstMethod(t) {
  for (const s of run.states) {
    const f = s.threads[t] && s.threads[t].frames[0];
    if (f && typeof f.m === "number" && parts(methodKey(f.m))[1] !== "<clinit>") return methodKey(f.m);
  }
  return "";
}

// Returns the name of a column: the method with its class if there is space, else the part that differs.
function headName(m, several, space) {
  if (!m) return "";
  const full = shortMethod(m, true);
  return full.length + 3 < space ? full : several ? shortClass(parts(m)[0]) : shortMethod(m);
}

function head(t, m, several, g) {
  const name = el("div", {class: "nm", title: m}, chip(t), " " + headName(m, several, g.widths[t] / (g.u * .6)));
  const status = el("div", {class: "st"}), choose = () => chooseThread(t);
  const enter = event => {
    if (event.key !== "Enter" && event.key !== " ") return;
    choose();
    event.preventDefault();
  };
  const box = el("div", {c: t, role: "button", tabindex: 0, onclick: choose, onkeydown: enter}, name, status);
  box.style.width = g.widths[t] + "px";
  return {box, status};
}

// Draws the heads of a layout.
export function drawHeads(g) {
  const methods = Array.from({length: run.count}, (_, t) => firstMethod(t)), several = new Set(methods.slice(1).filter(Boolean)).size > 1;
  const gutter = el("div", {class: "gut"}, "turn");
  gutter.style.width = g.gut + "px";
  heads = methods.map((m, t) => head(t, m, several, g));
  byId("heads").style.width = g.width + SCROLLBAR + "px";
  fill(byId("heads"), gutter, heads.map(h => h.box));
}

// Shows the status of each thread at position p.
export function showHeads(p) {
  heads.forEach(({box, status}, t) => {
    const {say, style} = shortStatus(p, t);
    fill(status, say);
    status.className = "st " + style;
    setTitle(status, statusOf(p, t).say);
    box.classList.toggle("sel", view.chosen === t);
    box.setAttribute("aria-pressed", String(view.chosen === t));
  });
}

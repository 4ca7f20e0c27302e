// Lays out the timeline: a row for each turn, a column for each thread, and each turn's label.

import {ENTER, chooser, run, state} from "./data.js";
import {byId, clip} from "./elements.js";
import {codeAt, depthOf, eventsOf, itemsOf, rank, topFrame} from "./history.js";
import {lockName, objectName, shortClass, shortCode, shortMethod} from "./names.js";
import {bytesText} from "./values.js";
import {typeSize, view} from "./view.js";
import {blocked} from "./waits.js";
import {label, outputOf} from "./words.js";

const CHARACTER = .86 * .602;       // the width of a label's character, by the size of the type
const MOST_NEEDED = 24;             // characters of an event for which a column is made wide enough
const MOST_BLOCKED = 34;            // characters of a blocked stretch, which are smaller

// Returns the labels that a call of notify may have.
function notifyLabels(n) {
  const name = n.all ? "notifyAll" : "notify";
  if (!n.woken.length) return [name + ": nobody waits", name + ": nobody"];
  const woken = n.woken.map(t => "T" + t).join(",");
  return [name + ": wakes " + woken, name + " " + woken];
}

function eventLabels(p) {
  const enter = itemsOf(p).find(e => e.kind === ENTER), events = eventsOf(p), call = enter ? shortMethod(enter.what) + " " : "";
  const long = events.map(e => label(e, true)).join(", "), terse = events.map(e => label(e, false)).join(", ");
  return call ? [call + long, long, call + terse, terse] : [long, terse];
}

// Returns the labels that turn p may have, the longest first, and their style.
export function labelsOf(p) {
  const enter = itemsOf(p).find(e => e.kind === ENTER), n = run.notifies.get(p), x = run.throws.get(p), printed = outputOf(p);
  if (eventsOf(p).length) return {texts: eventLabels(p), style: ""};
  if (n) return {texts: notifyLabels(n), style: ""};
  if (x) return {texts: ["\u26A1 throws " + objectName(x.r, p), "\u26A1 throws"], style: ""};
  if (enter) return {texts: ["\u25B8 " + shortMethod(enter.what, run.data.classes.length > 1), "\u25B8 " + shortMethod(enter.what)], style: "dimt"};
  if (printed) return {texts: ["prints " + JSON.stringify(bytesText(printed))], style: "dimt"};
  return {texts: view.everyTurn ? [shortCode(codeAt(topFrame(p - 1, chooser(p))))] : [], style: "faint"};
}

// Returns the labels that a blocked stretch may have.
export function blockedLabels(b) {
  if (b.how === "monitor") return ["blocked: " + lockName(b.r) + " (T" + b.by + ")", "blocked: " + lockName(b.r)];
  if (b.how === "join") return ["joins T" + b.by + "\u2026"];
  return b.how === "wait" ? ["waiting on " + lockName(b.r) + "\u2026", "waiting\u2026"] : ["init " + shortClass(b.what) + "\u2026"];
}

// Returns the first of the labels that has space, else the last one cut.
export const fitting = (texts, space) => texts.find(x => x.length <= space) || clip(texts[texts.length - 1] || "", space);

const shortest = (texts, most) => texts.length ? Math.min(most, texts[texts.length - 1].length) : 0;

// Returns the width that each thread's labels need.
function neededWidths(u) {
  const needed = Array.from({length: run.count}, () => 6.5 * u);
  const widen = (t, width) => { needed[t] = Math.max(needed[t], width); };
  for (let p = run.from + 1; p <= run.to; p++) {
    widen(chooser(p), shortest(labelsOf(p).texts, MOST_NEEDED) * CHARACTER * u + 2.4 * u);
  }
  for (let t = 0; t < run.count; t++) {
    for (const {b} of stretches(t)) if (b) widen(t, shortest(blockedLabels(b), MOST_BLOCKED) * .46 * u + 2.6 * u);
  }
  return needed;
}

// Returns the left border and the width of each column. They share what space is left.
function columns(gut, width, u) {
  const needed = neededWidths(u), sum = needed.reduce((a, b) => a + b, 0);
  const equal = (width - gut) / run.count, fits = needed.every(w => w <= equal), more = Math.max(0, width - gut - sum) / run.count;
  const widths = needed.map(w => fits ? equal : w + more), lefts = [];
  let x = gut;
  for (const w of widths) {
    lefts.push(x);
    x += w;
  }
  return {widths, lefts, width: x};
}

// Returns the layout of the timeline: `y(p)` is where turn p ends, `lane(t)` where a thread's line is.
export function layout() {
  const u = typeSize(), digits = String(run.to).length, gut = Math.max(3, .5 * digits + 1.2) * u;
  const c = columns(gut, byId("timescroll").clientWidth || 600, u);
  const heights = [view.everyTurn ? 1.25 * u : .5 * u, 1.25 * u, 1.6 * u], ys = [.5 * u];
  for (let p = run.from + 1; p <= run.to; p++) ys.push(ys[ys.length - 1] + heights[rank(p)]);
  const y = p => ys[p - run.from], height = y(run.to) + 3 * u;
  const lane = t => c.lefts[t] + 1.05 * u, wide = t => c.widths[t] > 12.5 * u;
  return {...c, u, gut, y, height, lane, wide, event: heights[2], anchors: new Map(), stuck: new Map(), blockedTexts: []};
}

// Decides a turn's label, its place, and where arrows reach it: left of its dot and right of its label.
export function place(g, p) {
  const t = chooser(p), {u} = g, x = g.lane(t), mid = (g.y(p - 1) + g.y(p)) / 2, {texts, style} = labelsOf(p);
  const deep = g.wide(t) ? Math.min(3, Math.max(0, depthOf(p - 1, t) - 1)) * .4 * u : 0, left = x + .85 * u;
  const space = g.lefts[t] + g.widths[t] - left - .45 * u, least = texts.length ? texts[texts.length - 1].length * CHARACTER * u : 0;
  const indent = Math.max(0, Math.min(deep, space - least)), at = left + indent;
  const text = texts.length ? fitting(texts, Math.floor((space - indent) / (CHARACTER * u) + .01)) : "";
  const right = text ? at + text.length * CHARACTER * u + .45 * u : x + .45 * u;
  g.anchors.set(p, {left: x - .45 * u, right, y: mid});
  return {t, x, mid, text, style, at, width: text.length * CHARACTER * u, hot: run.hot.has(p)};
}

// Returns the stretches in which a thread lives: from, to (past the end if it never ends), and what it waits for.
export function stretches(t) {
  const out = [];
  const at = p => {
    const thread = state(p).threads[t];
    if (!thread || !thread.frames.length && thread.status === "Ended") return "";
    return blocked(p, t) ? thread.status : "runs";
  };
  for (let p = run.from; p <= run.to;) {
    const what = at(p), from = p;
    while (p <= run.to && at(p) === what) p++;
    if (what) out.push({from, to: p, b: blocked(from, t)});
  }
  return out;
}

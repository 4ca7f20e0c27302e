// Shows the static fields and the objects of the state: values, who locks, wants and waits, what refers to them.

import {WR, run, state} from "./data.js";
import {chip, clip, el} from "./elements.js";
import {itemsOf, namesVariable} from "./history.js";
import {fullObject, objectName, parts, shortClass} from "./names.js";
import {reachable, referrers} from "./reach.js";
import {valueBox} from "./threads.js";
import {isReference, referenceOf, valueText} from "./values.js";
import {blocked} from "./waits.js";

const MOST_OBJECTS = 200, MOST_ELEMENTS = 64;

const TARGET = "java/lang/Thread.target.Ljava/lang/Runnable;";

// Returns by variable the event of the last turn. A write of the same value is shown too.
function touched(p) {
  const map = new Map();
  for (const e of itemsOf(p)) if (namesVariable(e)) map.set(e.what, e);
  return map;
}

// Makes the row of a field: {label, key, value, was, d, e}, `was` its value before the turn and `e` the turn's event.
function fieldRow(f, p) {
  const changed = f.was !== undefined && f.was !== f.value || f.e && f.e.kind === WR;
  const title = isReference(f.value) ? fullObject(referenceOf(f.value), p) : undefined;
  const by = f.e ? el("span", {class: "was"}, f.e.kind === WR ? "written by " : "read by ", chip(f.e.t)) : "";
  return el("div", {class: "f" + (changed ? " changed" : f.e ? " read" : ""), title: f.key},
    el("span", {}, f.label + " = "), el("span", {title}, valueText(f.value, f.d, p)),
    changed && f.was !== undefined ? el("span", {class: "was"}, wasText(f, p)) : "", by ? [" ", by] : "");
}

// Says what a field had before turn p.
const wasText = (f, p) => "was " + valueText(f.was, f.d, p - 1) + (f.was === f.value ? " before, too" : "");

// Returns the rows of all static fields, and of classes that are being initialised.
export function staticRows(p, before) {
  const rows = [], events = touched(p);
  run.data.classes.forEach((c, i) => {
    const now = state(p).classes[i], was = before.classes[i];
    if (now.init !== "done" && now.init !== "new") {
      rows.push(el("div", {class: "f"}, shortClass(c) + ": " + now.init.replace("init by ", "initialised by T")));
    }
    (now.values.length ? run.data.statics[i] : []).forEach((key, j) => {
      const [, n, d] = parts(key), label = shortClass(c) + "." + clip(n, 40);
      rows.push(fieldRow({label, key, value: now.values[j], was: was.values[j], d, e: events.get(key)}, p));
    });
  });
  return rows;
}

const chips = ts => ts.map(t => [chip(t), " "]);

// Returns the lines on an object's monitor: its owner, who wants it, who waits for a notification.
function lockLines(o, was, r, p) {
  const lines = [], line = (changed, ...kids) => lines.push(el("div", {class: "lock" + (changed ? " f changed" : "")}, kids));
  const other = was && (was.owner !== o.owner || was.count !== o.count);
  if (o.owner >= 0) line(other, "locked by ", chip(o.owner), o.count > 1 ? " \u00D7" + o.count : "");
  else if (was && was.owner >= 0) line(true, "unlocked", el("span", {class: "was"}, "was T" + was.owner));
  const wanting = [];
  for (let t = 0; t < run.count; t++) {
    const b = blocked(p, t);
    if (b && b.how === "monitor" && b.r === r) wanting.push(t);
  }
  if (wanting.length) line(false, "wanted by ", chips(wanting));
  if (o.waiting.length) line(was && was.waiting.join() !== o.waiting.join(), "waiting: ", chips(o.waiting));
  return lines;
}

function fieldRows(o, was, r, p, events) {
  const rows = [];
  o.values.forEach((value, i) => {
    const key = o.layout[i], [, n, d] = parts(key);
    if (key === TARGET && value === null) return;
    rows.push(fieldRow({label: clip(n, 40), key, value, was: was ? was.values[i] : undefined, d, e: events.get(r + "." + key)}, p));
  });
  return rows;
}

function elementBoxes(o, was, p) {
  const shown = o.values.slice(0, MOST_ELEMENTS), more = (o.n || o.values.length) - shown.length, d = o.name.slice(1);
  const boxes = shown.map((v, i) => valueBox(v, d, p, {style: "stk", changed: was && was.values[i] !== v}));
  return el("div", {class: "vals"}, boxes, more > 0 ? "\u2026 " + more + " more" : "");
}

// Says whether an object is left out: texts show as themselves, and the stream and the words of main tell nothing.
function isPlain(o) {
  return o.kind === "t" || o.name === "java/io/PrintStream" ||
    o.kind === "a" && !o.values.length && o.name === "[Ljava/lang/String;";
}

// Makes an object's card. `context` has the events of the turn and the names of what refers to it.
function objectCard(r, p, before, context) {
  const o = state(p).objects[r], was = before.objects[r], t = run.threadOfObject.get(r), names = context.names.get(r);
  const head = el("div", {class: "hd", title: fullObject(r, p)}, objectName(r, p),
    t !== undefined && state(p).threads[t] ? [" ", chip(t)] : "");
  const inside = lockLines(o, was, r, p);
  if (o.kind === "i") inside.push(...fieldRows(o, was, r, p, context.events));
  if (o.kind === "a") inside.push(elementBoxes(o, was, p));
  if (names) {
    const list = [...names].join(", ");
    inside.push(el("div", {class: "refs", title: "what refers to it: " + clip(list, 1000)}, "\u2190 " + clip(list, 120)));
  }
  if (!inside.length && o.kind === "c") return null;
  const style = "ob" + (was ? "" : " fresh") + (o.owner >= 0 ? " held" : "");
  return el("div", {class: style, "data-object": r, c: Math.max(o.owner, 0)}, head, inside);
}

// Returns the cards of the objects that can be reached.
export function objectCards(p, before) {
  const s = state(p), reached = reachable(s).filter(r => s.objects[r]), shown = reached.filter(r => !isPlain(s.objects[r]));
  const context = {names: referrers(s, reached), events: touched(p)};
  const cards = shown.slice(0, MOST_OBJECTS).map(r => objectCard(r, p, before, context)).filter(Boolean);
  if (shown.length > MOST_OBJECTS) cards.push(el("div", {class: "more"}, "\u2026 " + (shown.length - MOST_OBJECTS) + " more objects"));
  return cards;
}

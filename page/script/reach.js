// Finds the objects that can be reached at a position, and what refers to each.

import {run} from "./data.js";
import {parts, shortClass} from "./names.js";
import {localName} from "./locals.js";
import {isReference, referenceOf} from "./values.js";

const hasElements = o => o.kind === "i" || o.kind === "a";

// Returns the numbers of the objects that frames, exceptions, static fields, monitors and threads lead to.
export function reachable(s) {
  const found = new Set(), todo = [];
  const addObject = r => { if (!found.has(r)) { found.add(r); todo.push(r); } };
  const add = v => { if (isReference(v)) addObject(referenceOf(v)); };
  for (const thread of s.threads) {
    for (const f of thread ? thread.frames : []) [...f.locals, ...f.stack].forEach(add);
    if (thread && thread.pending) addObject(thread.pending);
  }
  for (const c of s.classes) c.values.forEach(add);
  s.objects.forEach((o, r) => { if (o.owner >= 0 || o.waiting.length) addObject(r); });
  for (const [r, t] of run.threadOfObject) if (s.threads[t] && s.threads[t].frames.length) addObject(r);
  while (todo.length) {
    const o = s.objects[todo.pop()];
    if (o && hasElements(o)) o.values.forEach(add);
  }
  return [...found].sort((a, b) => a - b);
}

// Returns by object the names of what refers to it: static fields, named local variables, fields of others.
export function referrers(s, reached) {
  const names = new Map();
  const add = (v, name) => {
    if (!isReference(v)) return;
    const r = referenceOf(v);
    if (!names.has(r)) names.set(r, new Set());
    names.get(r).add(name);
  };
  s.classes.forEach((c, i) => c.values.forEach((v, j) =>
    add(v, shortClass(run.data.classes[i]) + "." + parts(run.data.statics[i][j])[1])));
  for (const thread of s.threads) for (const f of thread ? thread.frames : []) addLocals(f, add);
  for (const r of reached) {
    const o = s.objects[r];
    if (o.kind === "i") o.values.forEach((v, i) => add(v, "#" + r + "." + parts(o.layout[i])[1]));
    if (o.kind === "a") o.values.forEach((v, i) => add(v, "#" + r + "[" + i + "]"));
  }
  return names;
}

function addLocals(f, add) {
  f.locals.forEach((v, slot) => {
    const [name] = localName(f, slot);
    if (name && name !== "this") add(v, name);
  });
}

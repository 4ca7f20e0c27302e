// Folds the operations of the data into one state for each position.
//
// A state shares what didn't change with the state before it, so "changed" is "not the same object".

import {run} from "./data.js";

export const NO_THREAD = {status: "", pending: 0, frames: []};

const NEW_CLASS = {init: "new", values: []};

const framesOf = (next, t) => (next.threads[t] || NO_THREAD).frames;

// Changes parts of a thread, an object or a class of a state that isn't shared yet.
function change(list, at, none, part) {
  list[at] = {...(list[at] || none), ...part};
}

// Returns the values with one of them replaced.
function replaced(values, i, value) {
  const copy = values.slice();
  copy[i] = value;
  return copy;
}

function foldFrames(next, [, t, drop, ...pushed]) {
  const frames = framesOf(next, t), kept = frames.slice(0, frames.length - drop);
  const added = pushed.map(([m, pc, locals, stack]) => ({m, pc, locals, stack}));
  change(next.threads, t, NO_THREAD, {frames: kept.concat(added)});
}

function foldTop(next, [, t, pc, drop = 0, push = [], written = []]) {
  const frames = framesOf(next, t), top = frames[frames.length - 1], locals = top.locals.slice();
  for (let i = 0; i < written.length; i += 2) locals[written[i]] = written[i + 1];
  const stack = top.stack.slice(0, top.stack.length - drop).concat(push);
  change(next.threads, t, NO_THREAD, {frames: frames.slice(0, -1).concat({m: top.m, pc, locals, stack})});
}

function foldObject(next, [, r, kind, name, values, n = 0]) {
  const {strings, layouts} = run.data;
  next.objects[r] = {kind, name: strings[name], layout: layouts[name], values, n, owner: -1, count: 0, waiting: []};
}

const OPERATIONS = new Map([
  ["s", (next, [, t, status]) => change(next.threads, t, NO_THREAD, {status})],
  ["p", (next, [, t, pending]) => change(next.threads, t, NO_THREAD, {pending})],
  ["f", foldFrames],
  ["u", foldTop],
  ["o", foldObject],
  ["v", (next, [, r, i, value]) =>
    change(next.objects, r, null, {values: replaced(next.objects[r].values, i, value)})],
  ["m", (next, [, r, owner = -1, count = 0]) => change(next.objects, r, null, {owner, count})],
  ["w", (next, [, r, ...waiting]) => change(next.objects, r, null, {waiting})],
  ["i", (next, [, c, init]) => change(next.classes, c, NEW_CLASS, {init})],
  ["g", (next, [, c, i, value]) =>
    change(next.classes, c, NEW_CLASS, {values: replaced((next.classes[c] || NEW_CLASS).values, i, value)})],
  ["x", (next, [, hex]) => { next.output += hex; }],
]);

// Returns the state after the operations.
function applied(before, operations) {
  if (!operations.length) return before;
  const next = {threads: before.threads.slice(), objects: before.objects.slice(),
    classes: before.classes.slice(), output: before.output};
  for (const o of operations) OPERATIONS.get(o[0])(next, o);
  return next;
}

// Returns the states of all positions of the page.
export function foldStates() {
  const nothing = {threads: [], objects: [], classes: run.data.classes.map(() => NEW_CLASS), output: ""};
  const states = [applied(nothing, run.data.base)];
  for (const operations of run.data.deltas) states.push(applied(states[states.length - 1], operations));
  return states;
}

// Derives from the data what the turns did: events, notifications, throws, transactions.

import {ACQ, ENTER, EXIT, FORK, REL, RD, WR, chooser, run, state} from "./data.js";
import {NO_THREAD} from "./fold.js";
import {methodKey} from "./names.js";
import {referenceOf} from "./values.js";

// Returns the topmost frame of thread t at position p, or null.
export function topFrame(p, t) {
  const thread = state(p).threads[t];
  return thread && thread.frames.length ? thread.frames[thread.frames.length - 1] : null;
}

export const depthOf = (p, t) => (state(p).threads[t] || NO_THREAD).frames.length;

// Returns the instruction that a frame is before, or "".
export const codeAt = f => f && typeof f.m === "number" ? run.data.methods[f.m].c[f.pc] || "" : "";

// Returns the line that a frame is in, or 0.
export function lineOf(f) {
  const lines = f && typeof f.m === "number" ? run.data.methods[f.m].l : null;
  return lines ? lines[f.pc] || 0 : 0;
}

export const itemsOf = p => run.byTurn.get(p) || [];
export const eventsOf = p => itemsOf(p).filter(e => e.n);
export const namesVariable = e => e.kind === RD || e.kind === WR;

// Says whether an event is the part of a `wait` that frees the lock, or the part that takes it again.
function markWaits(e) {
  if (e.kind === REL) e.wait = (state(e.turn).objects[e.what] || {waiting: []}).waiting.includes(e.t);
  if (e.kind !== ACQ) return;
  const waits = / ?[^ ]*\/wait\(\)V$/.test(codeAt(topFrame(e.turn - 1, e.t)));
  e.woken = waits && !itemsOf(e.turn).some(x => x.kind === ENTER);
}

// Reads the trace: each item knows its turn, its thread, and its number if it is an event.
export function prepareItems() {
  run.items = [];
  run.byTurn = new Map();
  run.events = new Map();
  let number = run.data.events_before;
  for (const [turn, kind, what] of run.data.items) {
    const isName = kind <= WR || kind >= ENTER;
    const e = {turn, kind, t: chooser(turn), what: isName ? run.data.things[what] : what, n: kind < ENTER ? ++number : 0};
    run.items.push(e);
    if (e.n) run.events.set(e.n, e);
    if (!run.byTurn.has(turn)) run.byTurn.set(turn, []);
    run.byTurn.get(turn).push(e);
    markWaits(e);
  }
}

// Returns the call of notify or notifyAll that turn p was, or null. The trace has no line for it.
function notifyAt(p) {
  const t = chooser(p), before = topFrame(p - 1, t), after = topFrame(p, t);
  const m = /^invoke\w+ [^ ]*\/notify(All)?\(\)V$/.exec(codeAt(before));
  if (!m || !after || after.m !== before.m || after.pc !== before.pc + 1) return null;
  const r = referenceOf(before.stack[before.stack.length - 1]), a = state(p - 1).objects[r], b = state(p).objects[r];
  return {turn: p, t, r, all: Boolean(m[1]), woken: a && b ? a.waiting.filter(x => !b.waiting.includes(x)) : []};
}

// Returns the throw that turn p was, or null: an exception is pending that wasn't.
function throwAt(p) {
  const t = chooser(p), before = state(p - 1).threads[t], after = state(p).threads[t];
  if (!after || !after.pending || before && before.pending) return null;
  return {turn: p, t, r: after.pending, f: topFrame(p - 1, t)};
}

export function prepareTurns() {
  run.notifies = new Map();
  run.throws = new Map();
  for (let p = run.from + 1; p <= run.to; p++) {
    const n = notifyAt(p), x = throwAt(p);
    if (n) run.notifies.set(p, n);
    if (x) run.throws.set(p, x);
  }
  run.threadOfObject = new Map();
  for (const e of run.items) {
    const f = e.kind === FORK ? topFrame(e.turn - 1, e.t) : null;
    if (f) run.threadOfObject.set(referenceOf(f.stack[f.stack.length - 1]), e.what);
  }
}

// Returns the transactions that are open at the first position, by thread.
function openAtStart(atomic) {
  const open = [], numbers = new Map(run.data.tx_open);
  for (let t = 0; t < run.count; t++) {
    const frames = (run.states[0].threads[t] || NO_THREAD).frames, i = frames.findIndex(f => atomic.has(methodKey(f.m)));
    if (i < 0) continue;
    const depth = frames.slice(i).filter(f => typeof f.m === "number").length;
    open[t] = {t, m: methodKey(frames[i].m), from: run.from + 1, to: 0, events: [], depth, id: numbers.get(t) || 0};
    run.transactions.push(open[t]);
  }
  return open;
}

// Adds an event to the transaction x, or to one of its own. A transaction has the number of its first event's rank.
function addEvent(e, x, next) {
  const y = x || {t: e.t, m: "", from: e.turn, to: e.turn, events: [], single: true, id: 0};
  y.events.push(e);
  if (!y.id) y.id = next();
  if (!run.byId.has(y.id)) run.byId.set(y.id, y);
}

// Finds the transactions: calls of atomic methods. Any other event is one alone.
export function prepareTransactions() {
  const atomic = new Set(run.data.methods.filter(m => m.atomic).map(m => m.k));
  let number = run.data.tx_before;
  run.transactions = [];
  run.byId = new Map();
  const open = openAtStart(atomic);
  for (const e of run.items) {
    const x = open[e.t];
    if (e.kind === ENTER && x) x.depth++;
    else if (e.kind === ENTER && atomic.has(e.what)) {
      open[e.t] = {t: e.t, m: e.what, from: e.turn, to: 0, events: [], depth: 1, id: 0};
      run.transactions.push(open[e.t]);
    } else if (e.kind === EXIT && x && --x.depth === 0) {
      x.to = e.turn;
      open[e.t] = null;
    } else if (e.n) addEvent(e, x, () => ++number);
  }
}

// Returns how much turn p shows: 2 an event, 1 a call or output, 0 nothing but an instruction.
export function rank(p) {
  const items = itemsOf(p);
  if (items.some(e => e.n) || run.notifies.has(p) || run.throws.has(p)) return 2;
  return items.some(e => e.kind === ENTER) || state(p).output.length > state(p - 1).output.length ? 1 : 0;
}

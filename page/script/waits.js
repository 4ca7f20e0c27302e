// Finds who waits for whom, the circle of a deadlock, and the turns of the verdict.

import {RD, REL, WR, chooser, hasEnd, run, state} from "./data.js";

// Returns what a blocked thread waits for: how, the object, and the thread that it needs, or -1.
export function blocked(p, t) {
  const thread = state(p).threads[t];
  const m = thread && /^Blocked (monitor|init|join|wait) (\S+)(?: by (\d+))?$/.exec(thread.status);
  if (!m) return null;
  if (m[1] === "join") return {how: "join", r: 0, by: Number(m[2]), what: ""};
  if (m[1] === "wait") return {how: "wait", r: Number(m[2]), by: -1, what: ""};
  return {how: m[1], r: m[1] === "monitor" ? Number(m[2]) : 0, by: Number(m[3]), what: m[2]};
}

const sameWait = (a, b) => Boolean(a && b) && a.how === b.how && a.r === b.r && a.by === b.by && a.what === b.what;

// Returns the first position from which thread t waits for what it waits for at the end.
export function waitsSince(t) {
  const last = blocked(run.to, t);
  let p = run.to;
  while (p > run.from && sameWait(blocked(p - 1, t), last)) p--;
  return p;
}

// Returns the threads that wait for each other in a circle at the end, from thread t on, or none.
function circleFrom(t) {
  const path = [];
  let u = t;
  while (u >= 0 && !path.includes(u)) {
    path.push(u);
    const b = blocked(run.to, u);
    u = b ? b.by : -1;
  }
  return u >= 0 ? path.slice(path.indexOf(u)) : [];
}

export const inCircle = t => run.circle.includes(t);

export const allThreads = () => Array.from({length: run.count}, (_, t) => t);

// Returns the threads that wait for a notification at the end.
export function waitersAtEnd() {
  return allThreads().filter(t => (blocked(run.to, t) || {how: ""}).how === "wait");
}

// Returns a read of thread t, and another thread's later write of the same, both before a turn: it waited on old news.
function staleRead(t, turn) {
  let found = null;
  for (const r of run.items) {
    if (r.t !== t || r.kind !== RD || r.turn >= turn) continue;
    const w = run.items.find(x => x.kind === WR && x.t !== t && x.what === r.what && x.turn > r.turn && x.turn < turn);
    if (w) found = [r, w];
  }
  return found;
}

// Returns how thread t came to wait for ever: the object r, the turn by which the wait began, the notification n before it,
// and, if that woke nobody, the read and the write between which the thread's knowledge went stale.
export function waitHistory(t) {
  const {r} = blocked(run.to, t);
  const turns = run.items.filter(e => e.t === t && e.kind === REL && e.wait && e.what === r).map(e => e.turn);
  const began = Math.max(run.from, ...turns), n = [...run.notifies.values()].filter(x => x.r === r && x.turn < began).pop();
  return {r, began, n, stale: n && !n.woken.length ? staleRead(t, began) : null};
}

// Returns the turns that led to waits for ever.
function waitTurns() {
  const turns = [];
  for (const t of run.data.verdict.status === "Deadlocked" && hasEnd() && !run.circle.length ? waitersAtEnd() : []) {
    const {began, n, stale} = waitHistory(t);
    turns.push(began, ...(n ? [n.turn] : []), ...(stale || []).map(e => e.turn));
    if (n && !n.woken.length) run.hot.add(n.turn);
  }
  return turns;
}

function prepareCircle() {
  run.circle = [];
  for (let t = 0; hasEnd() && t < run.count && !run.circle.length; t++) run.circle = circleFrom(t);
  run.closed = run.circle.length ? Math.max(...run.circle.map(waitsSince)) : 0;
}

// Prepares the verdict: the cycle's edges with their events, the race, and the turns that `v` goes through.
export function prepareVerdict() {
  const verdict = run.data.verdict;
  prepareCircle();
  run.cycle = new Set(verdict.cycle || []);
  run.edges = (verdict.edges || []).map(([a, b, e, f], i) =>
    ({a, b, e: run.events.get(e), f: run.events.get(f), number: i + 1}));
  run.race = (verdict.race || []).filter(p => p > run.from && p <= run.to);
  run.hot = new Set(run.race);
  for (const g of run.edges) for (const e of [g.e, g.f]) if (e) run.hot.add(e.turn);
  for (const p of run.throws.keys()) run.hot.add(p);
  const stops = new Set([...waitTurns(), ...run.hot, ...run.circle.map(waitsSince), run.to]);
  run.stops = [...stops].sort((a, b) => a - b);
}

// Says whether the verdict finds nothing wrong.
export function isFine() {
  const {status, atomic, race, uncaught} = run.data.verdict;
  return status === "Finished" && atomic !== false && !race && !uncaught.length;
}

// Returns the thread of the next turn, or -1 at the end.
export const nextThread = p => p < run.to ? chooser(p + 1) : -1;

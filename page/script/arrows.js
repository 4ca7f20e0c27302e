// Draws the arrows of the timeline: the cycle's edges, the circle of a deadlock, a race, all conflicts.

import {ACQ, FORK, REL, WR, run} from "./data.js";
import {sv} from "./elements.js";
import {namesVariable} from "./history.js";
import {blocked} from "./waits.js";

const isLock = e => e.kind === ACQ || e.kind === REL;

// Says whether two events of different threads conflict.
function clash(a, b) {
  if (namesVariable(a) && namesVariable(b)) return a.what === b.what && (a.kind === WR || b.kind === WR);
  if (isLock(a) && isLock(b)) return a.what === b.what;
  return a.kind >= FORK && a.what === b.t || b.kind >= FORK && b.what === a.t;
}

// Returns the conflicts to draw: to an event from the last one of each other thread that conflicts with it, unless
// one leads from there to an earlier event of its thread.
function conflicts() {
  const events = run.items.filter(e => e.n), reached = new Map(), pairs = [];
  events.forEach((e, i) => {
    const done = new Set([e.t]);
    for (let j = i - 1; j >= 0 && done.size < run.count; j--) {
      const a = events[j], key = a.t + ">" + e.t;
      if (done.has(a.t) || !clash(a, e)) continue;
      done.add(a.t);
      if ((reached.get(key) ?? -1) >= j) continue;
      reached.set(key, j);
      pairs.push([a, e]);
    }
  });
  return pairs;
}

// Returns the path between two anchors, and its middle.
function route(from, to, u) {
  const right = from.left < to.left - 1, same = Math.abs(from.left - to.left) <= 1, k = right ? 1 : -1;
  const x1 = right ? from.right : from.left, x2 = right ? to.left : same ? to.left : to.right;
  if (same) {
    const pull = 1.3 * u;
    return {d: `M${x1} ${from.y}C${x1 - pull} ${from.y} ${x2 - pull} ${to.y} ${x2} ${to.y}`, x: x1 - pull * .75, y: (from.y + to.y) / 2};
  }
  const pull = Math.min(Math.abs(x2 - x1) * .6 + .5 * u, 5 * u);
  const d = `M${x1} ${from.y}C${x1 + k * pull} ${from.y} ${x2 - k * pull} ${to.y} ${x2} ${to.y}`;
  return {d, x: (x1 + x2) / 2, y: (from.y + to.y) / 2};
}

export function conflictArrows(g) {
  return conflicts().map(([a, e]) => sv("path", {d: route(g.anchors.get(a.turn), g.anchors.get(e.turn), g.u).d, fill: "none",
    stroke: "var(--dim)", "stroke-width": 1.2, "marker-end": "url(#ag)"}));
}

// Draws a red arrow and its number. The number is drawn later, over labels.
function redArrow(g, from, to, number, dash) {
  const {d, x, y} = route(from, to, g.u), {u} = g, r = number.length > 2 ? .3 * number.length * u : .62 * u;
  const lines = [sv("path", {d, fill: "none", stroke: "var(--pane)", "stroke-width": 5.5, opacity: .8}),
    sv("path", {d, fill: "none", stroke: "var(--bad)", "stroke-width": 2.6, "stroke-dasharray": dash ? "6 3" : undefined,
      "marker-end": "url(#ab)", "marker-start": dash ? "url(#as)" : undefined})];
  const mark = sv("g", {}, sv("rect", {x: x - r, y: y - .62 * u, width: 2 * r, height: 1.24 * u, rx: .62 * u, fill: "var(--pane)",
    stroke: "var(--bad)", "stroke-width": 1.6}),
  sv("text", {x, y: y + .3 * u, "font-size": .84 * u, "text-anchor": "middle", class: "sans badt"}, number));
  return {lines, mark};
}

// Returns where the owner of the lock that thread t wants took it, or where the owner is stuck.
function ownerAnchor(g, t) {
  const b = blocked(run.to, t), e = run.items.filter(x => x.t === b.by && x.kind === ACQ && x.what === b.r).pop();
  return e ? g.anchors.get(e.turn) : g.stuck.get(b.by);
}

// Returns the arrows of the verdict: {lines, mark}.
export function verdictArrows(g) {
  const arrows = [];
  const add = (from, to, number, dash) => { if (from && to) arrows.push(redArrow(g, from, to, number, dash)); };
  const [p, q] = run.race, both = run.edges.find(({e, f}) => q && e && f && e.turn === p && f.turn === q);
  for (const edge of run.edges) {
    const {e, f, number} = edge;
    if (e && f) add(g.anchors.get(e.turn), g.anchors.get(f.turn), number + (edge === both ? " race" : ""));
  }
  run.circle.forEach((t, i) => add(g.stuck.get(t), ownerAnchor(g, t), String(i + 1)));
  if (q && !both) add(g.anchors.get(p), g.anchors.get(q), "race", true);
  return arrows;
}

// Draws the threads' lines: solid where one can take a turn, a dashed band where it is blocked; starts and joins.

import {FORK, JOIN, hasEnd, run, state} from "./data.js";
import {colour, sv, wash} from "./elements.js";
import {blockedLabels, fitting, stretches} from "./columns.js";
import {transaction} from "./edges.js";
import {inCircle} from "./waits.js";

// Returns the boxes of the transactions, those of the cycle thick and red.
export function transactionBoxes(g) {
  const boxes = run.transactions.concat([...run.cycle].map(transaction).filter(x => x && x.single)), drawn = [];
  for (const x of boxes) {
    const bad = run.cycle.has(x.id), top = g.y(x.from - 1) + 1, end = x.to ? g.y(x.to) - 1 : g.y(run.to) + g.u;
    const left = g.lefts[x.t] + 3, w = g.widths[x.t] - 7;
    drawn.push(sv("rect", {x: left, y: top, width: w, height: Math.max(4, end - top), rx: 7, fill: wash(x.t),
      "fill-opacity": bad ? 1 : .55, stroke: bad ? "var(--bad)" : colour(x.t), "stroke-width": bad ? 2.6 : 1.2}));
    if (!bad) continue;
    drawn.push(sv("rect", {x: left + 3, y: top + 3, width: w - 6, height: Math.max(1, end - top - 6), rx: 5, fill: "none",
      stroke: "var(--bad)", "stroke-width": .8}));
  }
  return drawn;
}

// Returns the number of each transaction: beside the label of its first turn, or at its end, where there is space.
export function transactionNames(g) {
  const names = [], size = .72;
  for (const x of run.transactions) {
    const bad = run.cycle.has(x.id), right = g.lefts[x.t] + g.widths[x.t] - 4, first = g.anchors.get(x.from), last = g.anchors.get(x.to);
    if (!x.id || !bad && !g.wide(x.t)) continue;
    const fits = (text, anchor) => !anchor || anchor.right + text.length * size * g.u * .6 + .3 * g.u < right;
    const text = bad && fits("transaction " + x.id, first) ? "transaction " + x.id : "tx " + x.id, up = fits(text, first);
    if (!up && (!fits(text, last) || run.hot.has(x.to))) continue;
    const y = up ? g.y(x.from - 1) + 1.05 * g.u : g.y(x.to) - .5 * g.u;
    names.push(sv("text", {x: right - .45 * g.u, y, "text-anchor": "end", "font-size": size * g.u,
      class: "sans " + (bad ? "badt" : "dimt")}, text));
  }
  return names;
}

function solid(g, t, s) {
  const end = s.to > run.to ? g.y(run.to) : g.y(s.to);
  return [sv("path", {d: `M${g.lane(t)} ${g.y(s.from)}V${end}`, stroke: colour(t), "stroke-width": .2 * g.u})];
}

// Draws a blocked stretch. Keeps its label, which is drawn over arrows, and where it is if it lasts for ever: the
// circle's arrows begin there.
function dashed(g, t, s) {
  const {u} = g, forever = s.to > run.to && hasEnd(), bad = forever && (inCircle(t) || s.b.how === "wait");
  const top = g.y(s.from), end = s.to > run.to ? g.y(run.to) + 1.6 * u : g.y(s.to), d = `M${g.lane(t)} ${top}V${end}`;
  const stroke = bad ? "var(--bad)" : colour(t), size = .78 * u;
  const text = fitting(blockedLabels(s.b), Math.floor((g.widths[t] - 2.1 * u) / (size * .58)));
  if (forever) g.stuck.set(t, {left: g.lane(t) - .5 * u, right: g.lane(t) + .95 * u + text.length * size * .6, y: top + .72 * u});
  if (end - top > 1.15 * u) {
    g.blockedTexts.push(sv("text", {x: g.lane(t) + .75 * u, y: top + .98 * u, "font-size": size, "font-style": "italic",
      class: "sans halo " + (bad ? "badt" : "dimt")}, text));
  }
  return [sv("path", {d, stroke, "stroke-width": .55 * u, opacity: bad ? .28 : .2}),
    sv("path", {d, stroke, "stroke-width": bad ? 2.2 : 1.6, "stroke-dasharray": "4 4"})];
}

// Returns the lines of all threads.
export function lives(g) {
  const lines = [];
  for (let t = 0; t < run.count; t++) {
    for (const s of stretches(t)) lines.push(...(s.b ? dashed(g, t, s) : solid(g, t, s)));
  }
  return lines;
}

// Returns the position from which thread t has ended, as seen from turn p.
function endOf(t, p) {
  let q = p;
  while (q > run.from && state(q - 1).threads[t] && !state(q - 1).threads[t].frames.length) q--;
  return q;
}

// Returns the dotted lines of starts and joins.
export function links(g) {
  const lines = [], {u} = g;
  for (const e of run.items) {
    if (e.kind !== FORK && e.kind !== JOIN) continue;
    const y = g.y(e.turn) - g.event / 2, a = g.lane(e.t), b = g.lane(e.what), q = e.kind === JOIN ? endOf(e.what, e.turn) : 0;
    const d = e.kind === FORK ? `M${a} ${y + 5}C${a} ${y + .9 * u} ${b} ${y} ${b} ${y + 1.2 * u}`
      : `M${b} ${g.y(q)}C${b} ${g.y(q) + u} ${a} ${y - u} ${a} ${y - 5}`;
    lines.push(sv("path", {d, fill: "none", stroke: "var(--faint)", "marker-end": "url(#ag)", "stroke-dasharray": "2 2"}));
  }
  return lines;
}

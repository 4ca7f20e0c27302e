// Draws the timeline and moves its playhead. Time goes down; each thread has a column.

import {chooser, hasEnd, run} from "./data.js";
import {conflictArrows, verdictArrows} from "./arrows.js";
import {layout, place} from "./columns.js";
import {byId, colour, fill, sv, wash} from "./elements.js";
import {arrowHead} from "./graph.js";
import {drawHeads, showHeads} from "./heads.js";
import {codeAt, itemsOf, lineOf, rank, topFrame} from "./history.js";
import {lives, links, transactionBoxes, transactionNames} from "./lanes.js";
import {methodKey} from "./names.js";
import {go, view, whenDrawn, whenShown} from "./view.js";
import {itemText} from "./words.js";

// The layout that was drawn last, and the parts that move.
export let drawn = null;

// Returns what is shown of a turn on hover.
function turnTitle(p) {
  const t = chooser(p), f = topFrame(p - 1, t), code = codeAt(f), line = lineOf(f);
  const lines = ["turn " + p + ", thread " + t + (code ? ": " + code : "")];
  if (f) lines.push(methodKey(f.m) + " @" + f.pc + (line ? " (line " + line + ")" : ""));
  return lines.concat(itemsOf(p).map(itemText)).join("\n");
}

function hitArea(g, p) {
  const hit = sv("rect", {x: 0, y: g.y(p - 1), width: g.width, height: g.y(p) - g.y(p - 1), class: "hit"}, sv("title", {}, turnTitle(p)));
  hit.addEventListener("click", () => go(p));
  return hit;
}

// Returns the numbers of the turns that have a row of their own. They stay at the left when the columns scroll.
function turnNumbers(g) {
  const {u} = g, numbers = [sv("rect", {x: 0, y: 0, width: g.gut - 1, height: g.height, fill: "var(--pane)"})];
  for (let p = run.from + 1; p <= run.to; p++) {
    if (rank(p) < 2 && !view.everyTurn) continue;
    const y = (g.y(p - 1) + g.y(p)) / 2 + .3 * u;
    numbers.push(sv("text", {x: g.gut - .5 * u, y, "font-size": .78 * u, "text-anchor": "end", class: "faint"}, String(p)));
  }
  return sv("g", {class: "stays", "pointer-events": "none"}, numbers);
}

// Returns the dot and the label of turn p.
function turnMarks(g, p, inside) {
  const {u} = g, x = place(g, p), marks = [], r = rank(p);
  if (r) {
    marks.push(sv("circle", {cx: x.x, cy: x.mid, r: (r === 2 ? .36 : .24) * u, fill: x.hot ? "var(--bad)" : colour(x.t),
      stroke: "var(--pane)", "stroke-width": r === 2 ? 1.5 : 1}));
  }
  if (!x.text) return marks;
  if (x.hot) {
    marks.push(sv("rect", {x: x.at - .25 * u, y: x.mid - .62 * u, width: x.width + .55 * u, height: 1.24 * u, rx: 4,
      fill: "var(--pane)", stroke: "var(--bad)", "stroke-width": 1}));
  }
  const label = sv("text", {x: x.at, y: x.mid + .3 * u, "font-size": .86 * u, class: x.hot ? "badt" : "halo " + x.style}, x.text);
  if (inside.has(p)) label.style.setProperty("--halo", wash(x.t));
  return marks.concat(label);
}

// Returns a short line across the lane for each turn that shows nothing else.
function ticks(g) {
  const paths = Array.from({length: run.count}, () => "");
  for (let p = run.from + 1; p <= run.to; p++) {
    const t = chooser(p);
    if (!rank(p)) paths[t] += `M${g.lane(t) - .3 * g.u} ${(g.y(p - 1) + g.y(p)) / 2}h${.6 * g.u}`;
  }
  return paths.map((d, t) => d ? sv("path", {d, stroke: colour(t), "stroke-width": 1.6}) : "");
}

// Returns the turns that are inside of a transaction's box.
function turnsInside() {
  const inside = new Set();
  for (const x of run.transactions) {
    for (let p = x.from; p <= (x.to || run.to); p++) if (chooser(p) === x.t) inside.add(p);
  }
  return inside;
}

function endLabel(g) {
  const {status} = run.data.verdict, {u} = g;
  const text = !hasEnd() ? "the page ends here, at turn " + run.to + " of " + run.of
    : status === "Deadlocked" ? "no thread can take a turn" : status === "Finished" ? "all threads have ended" : "the run ends here";
  const bad = hasEnd() && status === "Deadlocked";
  return sv("text", {x: g.gut + .4 * u, y: g.y(run.to) + 2.4 * u, "font-size": .82 * u, class: "sans " + (bad ? "badt" : "dimt")}, text);
}

function playhead(g) {
  const {u} = g, number = sv("text", {x: g.gut * .46, y: .3 * u, "text-anchor": "middle", "font-size": .86 * u,
    "font-weight": 700, class: "on"});
  const box = sv("rect", {x: 0, y: -.62 * u, width: g.gut * .92, height: 1.24 * u, rx: 4, fill: "var(--accent)"});
  const head = sv("g", {id: "playhead", "pointer-events": "none"},
    sv("path", {d: `M0 0H${g.width}`, stroke: "var(--accent)", "stroke-width": 2.4}), sv("g", {class: "stays"}, box, number));
  const future = sv("rect", {id: "future", x: 0, y: 0, width: g.width, height: g.height, fill: "var(--pane)", "fill-opacity": .55,
    "pointer-events": "none"});
  return {head, future, number};
}

function drawTimeline() {
  const g = layout(), inside = turnsInside(), turns = [], marks = [], hits = [];
  for (let p = run.from + 1; p <= run.to; p++) turns.push(p);
  for (const p of turns) {
    marks.push(...turnMarks(g, p, inside));
    hits.push(hitArea(g, p));
  }
  const life = lives(g), arrows = verdictArrows(g), moving = playhead(g);
  const drawing = sv("g", {id: "drawing"},
    sv("defs", {}, arrowHead("ab", "var(--bad)"), arrowHead("ag", "var(--faint)"), startHead()),
    g.lefts.map(x => sv("path", {d: `M${x} 0V${g.height}`, stroke: "var(--line)"})),
    transactionBoxes(g), life, links(g), ticks(g), view.conflicts ? conflictArrows(g) : "",
    arrows.map(a => a.lines), g.blockedTexts, marks, transactionNames(g), arrows.map(a => a.mark), endLabel(g), hits,
    turnNumbers(g), moving.future, moving.head);
  fill(byId("timescroll"), sv("svg", {width: g.width, height: g.height, viewBox: `0 0 ${g.width} ${g.height}`, role: "img",
    "aria-label": "Timeline: a column for each thread, time goes down. The sentence below says what the last turn did."}, drawing));
  drawn = {...g, ...moving};
  drawHeads(g);
  scrollHeads();
}

// Moves the heads with the columns, and keeps the numbers of the turns in place.
export function scrollHeads() {
  const x = byId("timescroll").scrollLeft;
  byId("headwrap").scrollLeft = x;
  for (const part of byId("timescroll").querySelectorAll(".stays")) part.setAttribute("transform", "translate(" + x + " 0)");
}

function startHead() {
  const head = arrowHead("as", "var(--bad)");
  head.setAttribute("orient", "auto-start-reverse");
  return head;
}

// Scrolls so that the playhead and the column of the last turn are seen.
function follow(p, y) {
  const box = byId("timescroll"), h = box.clientHeight;
  if (y < box.scrollTop + h * .2 || y > box.scrollTop + h * .75) box.scrollTop = Math.max(0, y - h * .5);
  if (p === run.to) box.scrollTop = box.scrollHeight;
  if (p === run.from || drawn.width <= box.clientWidth) return;
  const t = chooser(p), left = drawn.lefts[t], right = left + drawn.widths[t];
  if (left - drawn.gut < box.scrollLeft) box.scrollLeft = left - drawn.gut;
  else if (right > box.scrollLeft + box.clientWidth) box.scrollLeft = right - box.clientWidth;
}

function showTimeline(p) {
  const y = drawn.y(p);
  drawn.head.setAttribute("transform", "translate(0 " + y + ")");
  fill(drawn.number, String(p));
  drawn.future.setAttribute("y", String(y));
  drawn.future.setAttribute("height", String(p === run.to ? 0 : Math.max(0, drawn.height - y)));
  showHeads(p);
  follow(p, y);
}

export function prepareTimeline() {
  byId("timescroll").addEventListener("scroll", scrollHeads);
  byId("headwrap").addEventListener("scroll", () => { byId("timescroll").scrollLeft = byId("headwrap").scrollLeft; });
  whenDrawn(drawTimeline);
  whenShown(showTimeline);
}

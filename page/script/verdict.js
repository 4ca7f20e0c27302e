// Shows the verdict: in one sentence, then its steps with links to turns, and a small graph.

import {hasEnd, run} from "./data.js";
import {byId, clip, el, fill, numberMark, setPressed, stepList, turnLink} from "./elements.js";
import {callWord, cycleSentence, edgeSentence, raceSentence, raceSides, transaction} from "./edges.js";
import {deadlockParts} from "./deadlock.js";
import {graph} from "./graph.js";
import {lineOf} from "./history.js";
import {methodKey, shortClass, shortMethod} from "./names.js";
import {isLargest} from "./options.js";
import {valueText} from "./values.js";
import {typeSize, view, whenDrawn} from "./view.js";

const MOST_HEIGHT = .28;        // of the window, unless the reader unfolds it

const why = (...parts) => el("p", {class: "why"}, parts);

// A part of the verdict is {kind, badge, says, more, graph}: `says` a sentence, `more` elements after it.

function cycleGraph() {
  const ids = run.data.verdict.cycle, two = ids.length === 2, places = new Map(ids.map((id, i) => [id, i]));
  const nodes = ids.map(id => {
    const x = transaction(id), name = x && x.m ? clip(shortMethod(x.m), two ? 13 : 10) : "event";
    return {label: "T" + (x ? x.t : "?") + "  " + name, sub: "transaction " + id, t: x ? x.t : 0, bad: true, title: x ? x.m : ""};
  });
  const edges = run.edges.map(g =>
    ({a: places.get(g.a), b: places.get(g.b), bad: true, label: g.number + (two ? "  before" : "")}));
  return graph(nodes, edges, typeSize(),
    "Graph of the cycle: each transaction has to come before the next, and the last before the first.");
}

function cycleParts() {
  const {cycle, at, events} = run.data.verdict, badge = "\u2717 Not atomic", kind = "bad";
  if (!cycle) return [];
  if (!run.edges.length || !run.edges.every(g => g.e && g.f)) {
    return [{kind, badge, says: ["The run has a cycle of " + cycle.length +
      " transactions, and its events aren't all in the turns of this page."],
    more: [why("Event " + at + " of " + events + " is the first with a cycle. Make a page of other turns with --turns.")]}];
  }
  const so = cycle.length === 2 ? ["So " + callWord(cycle[0]) + " has to come before " + callWord(cycle[1]) + " ", numberMark(1),
    ", and also after it ", numberMark(2), ": no order of whole calls has the effect of this run."]
    : ["No order of whole calls has the effect of this run."];
  return [{kind, badge, says: cycleSentence(), graph: cycleGraph(),
    more: [stepList(run.edges.map(g => edgeSentence(g, true))), why(so)]}];
}

function raceParts() {
  const {race} = run.data.verdict;
  if (!race) return [];
  if (run.race.length < 2) {
    return [{kind: "bad", badge: "\u2717 Race", says: ["Turns " + race.join(" and ") + " race, and aren't both in this page."], more: []}];
  }
  return [{kind: "bad", badge: "\u2717 Race", says: raceSentence(run.race), more: [stepList(raceSides(run.race)),
    why("No lock, start or join is between them that would order them.")]}];
}

// Returns the message of an exception, or "".
function messageOf(t) {
  const thread = run.last.threads[t], o = thread && run.last.objects[thread.pending];
  const i = o && o.kind === "i" ? o.layout.indexOf("java/lang/Throwable.message.Ljava/lang/String;") : -1;
  return i >= 0 && o.values[i] ? " " + valueText(o.values[i], "", run.to) : "";
}

function uncaughtPart(x) {
  const thrown = run.throws.get(x.turn), f = thrown && thrown.f, line = lineOf(f);
  const where = f ? " in " + shortMethod(methodKey(f.m), true) + (line ? ", line " + line : "") : "";
  return {kind: "bad", badge: "\u2717 Uncaught",
    says: ["Thread " + x.t + " died of " + shortClass(x.class) + (hasEnd() ? messageOf(x.t) : "") + "."],
    more: [why("Thrown at ", x.turn ? turnLink(x.turn) : "an unknown turn", where, ". No method on its stack has a handler for it.")]};
}

function statusParts() {
  const {status, turns} = run.data.verdict;
  if (status === "Deadlocked") return deadlockParts(why);
  if (status === "Stalled") {
    return [{kind: "bad", badge: "\u2717 Stalled", says: ["No thread can continue: an instruction doesn't run here."], more: []}];
  }
  if (status !== "Running") return [];
  return [{kind: "plain", badge: "\u2026 Cut off", says: ["The run was cut off after " + turns + " turns. A thread could continue."], more: []}];
}

function atomicParts(bad) {
  const {atomic, events, transactions, status, turns} = run.data.verdict;
  const counts = events + " events in " + transactions + " transactions";
  if (atomic && bad) {
    return [{kind: "bad", badge: "", says: null, more: [why("By its specification the run is atomic (" + counts +
      "): what went wrong is no cycle.")]}];
  }
  if (atomic) {
    const methods = new Set(run.data.methods.filter(m => m.atomic).map(m => shortMethod(m.k)));
    const calls = methods.size ? "Each call of " + [...methods].join(", ") : "Each event";
    return [{kind: "good", badge: "\u2713 Atomic", says: [calls + " had the effect of running alone."],
      more: [why(counts + ", without a cycle. This run, and no other, was judged.")]}];
  }
  if (atomic === undefined && !bad && status === "Finished") {
    return [{kind: "plain", badge: "Finished", says: ["All threads ended after " + turns + " turns."], more: []}];
  }
  return [];
}

// Returns all parts of the verdict, the worst first.
function verdictParts() {
  const parts = [...cycleParts(), ...raceParts(), ...statusParts(), ...run.data.verdict.uncaught.map(uncaughtPart)];
  return parts.concat(atomicParts(parts.some(x => x.kind === "bad")));
}

function sentence(part, more) {
  const line = el("p", {class: "say"}, el("span", {class: "badge"}, part.badge), part.says,
    more ? el("span", {class: "also"}, " (and " + more + " more)") : "");
  line.title = line.textContent;
  return line;
}

// Draws the parts: in one line, without the graph, or all.
function drawParts(parts, how) {
  const box = byId("verdict"), said = parts.filter(x => x.says), drawn = parts.find(x => x.graph), folded = how === "line";
  const kind = ["bad", "good", "plain"].find(k => parts.some(x => x.kind === k)) || "plain", text = el("div", {class: "text"});
  if (folded) text.append(sentence(said[0], said.length - 1));
  else for (const x of parts) text.append(...(x.says ? [sentence(x, 0)] : []), ...x.more);
  box.className = kind + (folded ? " folded" : "");
  box.style.setProperty("--vbg", kind === "plain" ? "var(--pane)" : "var(--" + kind + "bg)");
  fill(box, text, how === "all" && drawn ? drawn.graph : "");
  setPressed("b-verdict", !folded);
}

const isTooHigh = () => byId("verdict").offsetHeight > MOST_HEIGHT * window.innerHeight;

// Draws the verdict. If the reader didn't choose, it loses its graph, and then all but its sentence, where it is too high.
function drawVerdict() {
  const parts = verdictParts(), auto = view.fold === "auto";
  drawParts(parts, view.fold === "yes" || auto && isLargest() ? "line" : "all");
  if (auto && isTooHigh()) drawParts(parts, "text");
  if (auto && isTooHigh()) drawParts(parts, "line");
}

export const prepareVerdictView = () => whenDrawn(drawVerdict);

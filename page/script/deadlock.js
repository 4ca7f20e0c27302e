// Says how a deadlock came about: the circle of threads, or a notification that nobody got.

import {run} from "./data.js";
import {chip, stepList, turnLink} from "./elements.js";
import {graph} from "./graph.js";
import {lineOf, topFrame} from "./history.js";
import {lockName, methodKey, objectName, shortMethod} from "./names.js";
import {variableText} from "./values.js";
import {typeSize} from "./view.js";
import {variableWord} from "./edges.js";
import {allThreads, blocked, inCircle, waitHistory, waitersAtEnd, waitsSince} from "./waits.js";
import {threadWord, threadsWord, waitsFor} from "./words.js";

const atEnd = t => blocked(run.to, t);

// Returns the graph of who waits for whom, the circle first so that it is drawn as one.
function waitGraph() {
  const waiting = allThreads().filter(atEnd), order = t => inCircle(t) ? run.circle.indexOf(t) : run.count + t;
  const shown = new Set(waiting.concat(waiting.map(t => atEnd(t).by).filter(t => t >= 0)));
  const sorted = [...shown].sort((a, b) => order(a) - order(b)), places = new Map(sorted.map((t, i) => [t, i]));
  const edges = waiting.filter(t => atEnd(t).by >= 0).map(t => {
    const b = atEnd(t), label = b.how === "monitor" ? lockName(b.r) : b.how;
    return {a: places.get(t), b: places.get(b.by), label, bad: inCircle(t), dash: b.how === "join"};
  });
  const says = "Graph of which thread waits for which: " + waiting.map(t => threadWord(t) + " " + waitsFor(t, run.to)).join("; ");
  return graph(sorted.map(t => ({label: "T" + t, t, bad: inCircle(t)})), edges, typeSize(), says);
}

function circlePart(why) {
  const steps = run.circle.map(t => [chip(t), " " + waitsFor(t, run.to) + " (since ", turnLink(waitsSince(t)), ")"]);
  const rest = allThreads().filter(t => !inCircle(t) && atEnd(t)).map(t => " Thread " + t + " " + waitsFor(t, run.to) + ".");
  return {kind: "bad", badge: "\u2717 Deadlock", graph: waitGraph(),
    says: ["Threads " + run.circle.join(", ") + " wait for each other in a circle, for ever."],
    more: [stepList(steps), why("The circle closed at ", turnLink(run.closed), ". No thread of it can take a turn again." + rest.join(""))]};
}

// Adds the steps that led thread t to its wait, by turn.
function addSteps(steps, t) {
  const {r, began, n, stale} = waitHistory(t), at = p => [" (", turnLink(p), ")"], f = topFrame(run.to, t), line = lineOf(f);
  if (stale) {
    const [x, w] = stale;
    steps.set(x.turn, [chip(t), " read ", variableWord(x), " = " + variableText(x.what, x.turn), ...at(x.turn)]);
    steps.set(w.turn, [chip(w.t), " wrote " + variableText(w.what, w.turn), ...at(w.turn)]);
  }
  if (n) {
    const effect = n.woken.length ? ": it woke " + n.woken.map(threadWord).join(", ") : ": no thread waited, so it had no effect";
    steps.set(n.turn, [chip(n.t), " called " + (n.all ? "notifyAll" : "notify") + " on " + objectName(r, run.to), ...at(n.turn), effect]);
  }
  const where = f ? ", in " + shortMethod(methodKey(f.m)) + (line ? ", line " + line : "") : "";
  steps.set(began, [chip(t), " began to wait on " + objectName(r, run.to), ...at(began), where]);
}

function waitHeadline(waiters) {
  const t = waiters[0], {n} = waitHistory(t);
  if (waiters.length === 1 && n && !n.woken.length) {
    return ["\u2717 Lost notification", "Thread " + n.t + " notified before thread " + t + " waited: thread " + t + " waits for ever."];
  }
  return ["\u2717 Deadlock", threadsWord(waiters, "waits", "wait") + " for a notification, and no thread is left to notify."];
}

function waitPart(waiters, why) {
  const steps = new Map(), [badge, says] = waitHeadline(waiters);
  for (const t of waiters) addSteps(steps, t);
  const ended = allThreads().filter(t => run.last.threads[t].status === "Ended");
  const joins = allThreads().filter(t => atEnd(t) && atEnd(t).how === "join").map(t => " Thread " + t + " " + waitsFor(t, run.to) + ".");
  const inOrder = [...steps.entries()].sort((a, b) => a[0] - b[0]).map(([, step]) => step);
  return {kind: "bad", badge, says: [says], more: [stepList(inOrder),
    why((ended.length ? threadsWord(ended, "has", "have") + " ended." : "") + joins.join("") + " Nobody is left to call notify.")]};
}

// Returns the parts of the verdict on a deadlock.
export function deadlockParts(why) {
  if (run.to !== run.of) {
    return [{kind: "bad", badge: "\u2717 Deadlock", says: ["The run ends in a deadlock, after the turns of this page."], more: []}];
  }
  const waiters = waitersAtEnd();
  if (run.circle.length) return [circlePart(why)];
  if (waiters.length) return [waitPart(waiters, why)];
  return [{kind: "bad", badge: "\u2717 Deadlock", says: ["No thread can take a turn."], more: []}];
}

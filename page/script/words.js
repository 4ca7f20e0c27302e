// Says in words what an event is, what a thread does, and what the last turn did.

import {ACQ, ENTER, EXIT, FORK, KINDS, RD, REL, chooser, hasEnd, run, state} from "./data.js";
import {chip} from "./elements.js";
import {codeAt, eventsOf, itemsOf, lineOf, namesVariable, topFrame} from "./history.js";
import {lockName, methodKey, objectName, parts, shortClass, shortCode, shortMethod, shortVariable} from "./names.js";
import {localName} from "./locals.js";
import {bytesText, valueText, variableText} from "./values.js";
import {blocked, nextThread} from "./waits.js";

export const threadWord = t => "thread " + t;

// Returns "Thread 1 has", "Threads 1, 2 have".
export const threadsWord = (ts, one, more) =>
  (ts.length > 1 ? "Threads " + ts.join(", ") + " " + more : "Thread " + ts[0] + " " + one);

// Says what an event did, after the name of its thread.
export function did(e) {
  if (namesVariable(e)) {
    const value = variableText(e.what, e.turn) || "?";
    return (e.kind === RD ? "reads " : "writes ") + shortVariable(e.what, "sentence") + " = " + value;
  }
  if (e.kind === ACQ) return (e.woken ? "continues after wait: locks " : "locks ") + lockName(e.what);
  if (e.kind === REL) return (e.wait ? "waits: unlocks " : "unlocks ") + lockName(e.what);
  return e.kind === FORK ? "starts thread " + e.what : "sees that thread " + e.what + " ended";
}

const LONG = ["reads ", "writes ", "locks ", "unlocks ", "starts T", "joins T"];
const TERSE = ["rd ", "wr ", "acq ", "rel ", "fork T", "join T"];

// Returns an object in the timeline: its number alone.
const numberAlone = s => s.replace(/^(#\d+) [^"]*$/, "$1");

// Returns an event's label in the timeline.
export function label(e, wide) {
  if (namesVariable(e)) {
    const value = numberAlone(variableText(e.what, e.turn) || "?");
    return (wide ? LONG : TERSE)[e.kind] + shortVariable(e.what, wide ? "wide" : "narrow") + (wide ? " = " : "=") + value;
  }
  if (e.kind === REL && e.wait) return (wide ? "wait: unlocks " : "wait ") + lockName(e.what);
  if (e.kind === ACQ && e.woken) return (wide ? "woken: locks " : "woken ") + lockName(e.what);
  return (wide ? LONG : TERSE)[e.kind] + (e.kind <= REL ? lockName(e.what) : e.what);
}

// Returns an item as `check` prints it.
export const itemText = e => (e.n ? "event " + e.n + ": " : "") + KINDS[e.kind] + " " + e.t + " " + e.what;

// Returns the name of a static field or of a local variable that refers to an object, or "".
function knownAs(r, p) {
  const s = state(p), v = "R" + r;
  for (let c = 0; c < s.classes.length; c++) {
    const i = s.classes[c].values.indexOf(v);
    if (i >= 0) return shortClass(run.data.classes[c]) + "." + parts(run.data.statics[c][i])[1];
  }
  for (const thread of s.threads) {
    const f = thread && thread.frames[0], slot = f ? f.locals.indexOf(v) : -1, [name] = slot < 0 ? [""] : localName(f, slot);
    if (name && name !== "this") return name;
  }
  return "";
}

function lockWord(r, p) {
  const name = knownAs(r, p);
  return "the lock of " + objectName(r, p) + (name ? " (" + name + ")" : "");
}

// Says what a blocked thread waits for, after its name.
export function waitsFor(t, p) {
  const b = blocked(p, t);
  if (!b) return "";
  if (b.how === "monitor") return "waits for " + lockWord(b.r, p) + ", which thread " + b.by + " owns";
  if (b.how === "init") return "waits until thread " + b.by + " has initialised " + shortClass(b.what);
  if (b.how === "join") return "waits for the end of thread " + b.by;
  return "waits for a notification on " + objectName(b.r, p);
}

function blockedText(b, p) {
  if (b.how === "monitor") return "blocked: wants the lock of " + objectName(b.r, p) + ", owned by T" + b.by;
  if (b.how === "init") return "blocked: class " + shortClass(b.what) + " is being initialised by T" + b.by;
  if (b.how === "join") return "blocked: joins T" + b.by + " (waits for its end)";
  return "waits for a notification on " + objectName(b.r, p);
}

// Returns a thread's status: what it says, the class of its style, its sign.
export function statusOf(p, t) {
  const thread = state(p).threads[t];
  if (!thread) return {say: "not started", style: "none", sign: "\u25CB"};
  const b = blocked(p, t), next = nextThread(p) === t;
  if (b) return {say: blockedText(b, p), style: p === run.to && hasEnd() ? "stuck" : "blocked", sign: "\u2016"};
  if (!thread.frames.length && thread.status === "Ended") {
    return {say: thread.pending ? "ended by " + objectName(thread.pending, p) : "ended", style: "gone", sign: "\u25A0"};
  }
  if (!thread.frames.length) {
    return {say: "started: its first turn calls " + (t ? "run()" : "main()"), style: "runs", sign: "\u25CF"};
  }
  if (thread.pending) return {say: "throws " + objectName(thread.pending, p), style: "blocked", sign: "\u26A1"};
  if (thread.status.startsWith("Bad")) return {say: "stopped: " + thread.status, style: "blocked", sign: "\u2715"};
  return {say: next ? "runs: takes the next turn" : "runs: can take a turn", style: "runs", sign: next ? "\u25B6" : "\u25CF"};
}

// Returns a thread's status above its column.
export function shortStatus(p, t) {
  const b = blocked(p, t), {style, sign} = statusOf(p, t);
  if (b && b.how === "monitor") return {say: sign + " wants " + lockName(b.r) + " of T" + b.by, style};
  if (b && b.how === "join") return {say: sign + " joins T" + b.by, style};
  if (b) return {say: sign + (b.how === "wait" ? " waits on " + lockName(b.r) : " init by T" + b.by), style};
  const words = new Map([["gone", " ended"], ["none", " not started"], ["blocked", " stopped"]]);
  return {say: sign + (words.get(style) || (sign === "\u25B6" ? " next turn" : " can run")), style};
}

// Returns the output of turn p, in hex digits.
export const outputOf = p => state(p).output.slice(state(p - 1).output.length);

// Says which threads a call of notify woke.
export function notifyText(n) {
  const woke = n.woken.length ? " wakes " + n.woken.map(threadWord).join(" and ") : ": no thread waits";
  return (n.all ? "notifyAll on " : "notify on ") + objectName(n.r, n.turn) + woke;
}

// Returns what turn p did that has a name: events, calls, returns, throws, output, new objects.
function deeds(p, t) {
  const items = itemsOf(p), n = run.notifies.get(p), x = run.throws.get(p), after = state(p), printed = outputOf(p);
  const many = run.data.classes.length > 1, made = after.objects.length > state(p - 1).objects.length;
  const leaves = after.threads[t].pending ? "leaves " : "returns from ";
  const out = items.filter(e => e.kind === ENTER).reverse().map(e => "calls " + shortMethod(e.what, many));
  out.push(...eventsOf(p).map(did));
  out.push(...items.filter(e => e.kind === EXIT).map(e => leaves + shortMethod(e.what, many)));
  if (n) out.push(notifyText(n));
  if (x) out.push("throws " + objectName(x.r, p));
  if (printed) out.push("prints " + JSON.stringify(bytesText(printed)));
  if (made && !x) out.push("makes " + objectName(after.objects.length - 1, p));
  if (!after.threads[t].frames.length && after.threads[t].status === "Ended") out.push("and ends");
  return out;
}

const PUSHES = /^(iconst|bipush|sipush|ldc|iload|aload|lload|iadd|isub|imul|dup|irem|idiv)/;

// Says which instruction turn p was.
function instructionText(p, f, after) {
  const code = codeAt(f);
  if (!f) return "begins";
  if (!code && String(f.m).startsWith("init ")) return "initialises " + shortClass(f.m.slice(5));
  if (!code) return "runs " + shortMethod(methodKey(f.m), true);
  const pushed = after && after.m === f.m && PUSHES.test(code) ? after.stack[after.stack.length - 1] : undefined;
  return "runs " + shortCode(code) + (pushed === undefined ? "" : ": " + valueText(pushed, "", p) + " is on the stack");
}

function endText(p) {
  if (p !== run.of) return "";
  const status = run.data.verdict.status;
  return status === "Deadlocked" ? ". Now no thread can take a turn" : status === "Finished" ? ". All threads have ended" : "";
}

// Says what the last turn did, as parts of a sentence.
export function narrate(p) {
  if (p === run.from) return [p ? "Before turn " + (p + 1) + ": the page begins here" : "Before the first turn"];
  const t = chooser(p), f = topFrame(p - 1, t), said = deeds(p, t), line = lineOf(f);
  if (!said.length) said.push(instructionText(p, f, topFrame(p, t)));
  return [chip(t), " ", said.join(", "), line ? " \u2014 line " + line : "", endText(p)];
}

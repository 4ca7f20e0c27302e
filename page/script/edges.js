// Says in words why one transaction has to come before another, and what a cycle or a race is.

import {ACQ, KINDS, REL, RD, WR, chooser, run} from "./data.js";
import {named, turnLink} from "./elements.js";
import {codeAt, eventsOf, lineOf, namesVariable, topFrame} from "./history.js";
import {fullObject, objectName, shortCode, shortMethod, shortVariable} from "./names.js";
import {variableText} from "./values.js";
import {did, threadWord} from "./words.js";

const valueAt = e => variableText(e.what, e.turn) || "?";
export const variableWord = e => named(shortVariable(e.what, "sentence"), e.what);
const objectWord = e => named(objectName(e.what, e.turn), fullObject(e.what, e.turn));

// Returns the sentence of an edge, as parts. `link` adds the turns.
export function edgeSentence({e, f}, link) {
  const turn = x => link ? [" (", turnLink(x.turn), ")"] : [];
  const a = threadWord(e.t), b = threadWord(f.t), first = turn(e), then = turn(f);
  switch (KINDS[e.kind] + " " + KINDS[f.kind]) {
    case "rd wr":
      return [a, " read ", variableWord(e), " = ", valueAt(e), first, " before ", b, " wrote ", valueAt(f), then];
    case "wr rd":
      return [a, " wrote ", variableWord(e), " = ", valueAt(e), first, " before ", b, " read it", then];
    case "wr wr":
      return [a, " wrote ", variableWord(e), " = ", valueAt(e), first, " before ", b, " wrote ", valueAt(f), " over it", then];
    case "rel acq":
      return [a, " unlocked ", objectWord(e), first, " before ", b, " locked it", then];
    case "acq acq":
      return [a, " locked ", objectWord(e), first, " before ", b, " did", then];
    default:
      return [a, " ", did(e), first, " before ", b, " ", did(f), then];
  }
}

export const transaction = id => run.byId.get(id) || null;

// Returns what a transaction is called in a sentence.
export function callWord(id) {
  const x = transaction(id);
  if (!x) return "transaction " + id;
  return (x.m ? shortMethod(x.m) : "the event") + " of thread " + x.t;
}

// Says a lost update: a read, another's write, and a write over it.
function lostUpdate(x, y) {
  const same = x.e.kind === RD && x.f.kind === WR && y.f.kind === WR && y.f.t === x.e.t && y.e.t === x.f.t &&
    y.f.what === x.e.what && y.e.what === x.e.what;
  return same ? ["Thread " + x.e.t + " read ", variableWord(x.e), " = " + valueAt(x.e) + " before thread " + x.f.t +
    " wrote " + valueAt(x.f) + ", then wrote " + valueAt(y.f) + " over it."] : null;
}

// Says a lock that is freed and taken again inside of a call, with another call between.
function dividedLock(x, y) {
  const outer = transaction(x.a), inner = transaction(x.b);
  const same = [x, y].every(g => g.e.kind === REL && g.f.kind === ACQ) && x.e.what === y.e.what && outer && inner;
  if (!same || x.f.turn >= y.e.turn || y.f.turn <= x.e.turn) return null;
  return ["Thread " + outer.t + " unlocked " + objectName(x.e.what, x.e.turn) + (x.e.wait ? " by wait()" : "") + " inside " +
    (outer.m ? shortMethod(outer.m) : "its call") + ", and thread " + inner.t + " locked it before thread " + outer.t +
    " locked it again."];
}

const capital = parts => [parts[0][0].toUpperCase() + parts[0].slice(1), ...parts.slice(1)];

// Returns the sentence of the cycle.
export function cycleSentence() {
  const [g, h] = run.edges, ids = run.data.verdict.cycle;
  if (run.edges.length === 2) {
    const known = lostUpdate(g, h) || lostUpdate(h, g) || dividedLock(g, h);
    return known || [...capital(edgeSentence(g)), ", and ", ...edgeSentence(h), ": neither call can be first."];
  }
  return [ids.map(callWord).join(", ") + ": each has to come before the next, and the last before the first."];
}

// Returns an event's words for a race: what the turn did to the variable.
function raceSide(p) {
  const e = eventsOf(p).find(namesVariable), t = chooser(p), f = topFrame(p - 1, t);
  const what = e ? [did(e)] : ["runs " + shortCode(codeAt(f))];
  return [threadWord(t) + " ", ...what, lineOf(f) ? ", line " + lineOf(f) : "", " (", turnLink(p), ")"];
}

// Returns the sentence of a race, as parts.
export function raceSentence([p, q]) {
  const e = eventsOf(p).find(namesVariable);
  const what = e ? [" use ", variableWord(e)] : [" use one variable"];
  return ["Threads " + chooser(p) + " and " + chooser(q), ...what, ", at least one writes it, and nothing orders the two."];
}

export const raceSides = race => race.map(raceSide);

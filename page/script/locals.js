// Names local variables by the tables of the class files.

import {run} from "./data.js";

// Returns the name and the descriptor of a local variable where the frame is, or two empty texts.
export function localName(f, slot) {
  if (typeof f.m !== "number") return ["", ""];
  const m = run.data.methods[f.m];
  const found = (m.v || []).find(([s, from, to]) => s === slot && from <= f.pc && f.pc < to);
  if (found) return [found[3], found[4]];
  return [slot === 0 && !m.static ? "this" : "", ""];
}

// Says whether a variable has no name though others of its method have one: a compiler's own.
export function isCompilers(f, slot) {
  return typeof f.m === "number" && Boolean(run.data.methods[f.m].v) && !localName(f, slot)[0];
}

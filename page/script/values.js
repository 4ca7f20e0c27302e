// Writes values as texts.

import {run, state} from "./data.js";
import {objectName, parts, variable} from "./names.js";

// Returns the text of a number of the descriptor d.
function numberText(v, d) {
  if (d === "Z") return v ? "true" : "false";
  if (d === "C") return v > 32 && v < 127 ? "'" + String.fromCharCode(v) + "'" : "char " + v;
  return String(v);
}

// Returns the text of a value at position p. d is its descriptor, or "".
export function valueText(v, d, p) {
  if (v === null) return "null";
  if (v === undefined) return "?";
  if (typeof v === "number") return numberText(v, d);
  if (v[0] === "R") return objectName(Number(v.slice(1)), p);
  if (v[0] === "J") return v.slice(1) + "L";
  return v === "-" ? "\u2013" : v;
}

export const isReference = v => typeof v === "string" && v[0] === "R";
export const referenceOf = v => Number(String(v).slice(1));

// Returns the text of what a variable of the trace has at position p, or undefined.
export function variableText(v, p) {
  const x = variable(v), s = state(p);
  if (x.object) {
    const o = s.objects[x.object];
    if (!o) return undefined;
    if (x.index !== undefined) return valueText(o.values[x.index], o.name.slice(1), p);
    const i = o.layout.indexOf(x.key);
    return i < 0 ? undefined : valueText(o.values[i], parts(x.key)[2], p);
  }
  const c = run.data.classes.indexOf(parts(x.key)[0]), i = c < 0 ? -1 : run.data.statics[c].indexOf(x.key);
  return i < 0 ? undefined : valueText(s.classes[c].values[i], parts(x.key)[2], p);
}

// Returns the text of output in hex digits.
export function bytesText(hex) {
  const bytes = new Uint8Array(hex.length / 2);
  for (let i = 0; i < bytes.length; i++) bytes[i] = parseInt(hex.slice(2 * i, 2 * i + 2), 16);
  return new TextDecoder().decode(bytes);
}

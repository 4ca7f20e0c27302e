// Shortens names of classes, methods and variables. The full ones are shown on hover, or by the key n.

import {run, state} from "./data.js";
import {clip} from "./elements.js";
import {view} from "./view.js";

const MOST_NAME = 40;                 // units of a name that is shown
const MOST_FULL_NAME = 120;           // units of a name in full

const PRIMITIVES = new Map([["B", "byte"], ["C", "char"], ["D", "double"], ["F", "float"], ["I", "int"], ["J", "long"],
  ["S", "short"], ["Z", "boolean"], ["V", "void"]]);

const shortOf = new Map();       // of a class
const overloads = new Map();     // how many methods have a class and a name

// Returns the text that jvmx escaped.
export const unescaped = s => s.replace(/\\u([0-9a-f]{4})/g, (_, hex) => String.fromCharCode(parseInt(hex, 16)));

// Returns the last part of a class's name: of an inner class its own name, unless that is a number.
function tail(c) {
  const last = c.slice(c.lastIndexOf("/") + 1), k = last.lastIndexOf("$");
  return k > 0 && !/^\d*$/.test(last.slice(k + 1)) ? last.slice(k + 1) : last;
}

const countIn = (map, key) => map.set(key, (map.get(key) || 0) + 1);

// Decides the short names once. Classes with the same last part keep their packages.
export function prepareNames() {
  const all = new Set(run.data.classes.concat(run.data.strings)), tails = new Map();
  for (const c of all) countIn(tails, tail(c));
  for (const c of all) shortOf.set(c, tails.get(tail(c)) > 1 ? c.replaceAll("/", ".") : tail(c));
  for (const m of run.data.methods) {
    const [c, n] = parts(m.k);
    countIn(overloads, c + "." + n);
  }
}

export function shortClass(c) {
  if (c[0] === "[") return typeName(c);
  return view.fullNames ? clip(c.replaceAll("/", "."), MOST_FULL_NAME) : clip(shortOf.get(c) || tail(c), MOST_NAME);
}

// Returns a descriptor as Java writes the type.
export function typeName(d) {
  let n = 0;
  while (d[n] === "[") n++;
  const b = d.slice(n);
  return (b[0] === "L" ? shortClass(b.slice(1, -1)) : PRIMITIVES.get(b) || b) + "[]".repeat(n);
}

// Divides C.m.D or C.x.D. Neither a class nor a member has a dot in its name.
export function parts(key) {
  const a = key.indexOf("."), b = key.indexOf(".", a + 1);
  return [key.slice(0, a), key.slice(a + 1, b), key.slice(b + 1)];
}

function parameters(d) {
  const types = d.slice(1, d.indexOf(")")).match(/\[*(L[^;]*;|.)/g) || [];
  return types.map(typeName).join(", ");
}

export function shortMethod(key, withClass) {
  if (key.startsWith("init ")) return "initialise " + shortClass(key.slice(5));
  const [c, n, d] = parts(key);
  if (n === "<init>") return "new " + shortClass(c) + "()";
  if (n === "<clinit>") return "static { } of " + shortClass(c);
  const inside = view.fullNames || overloads.get(c + "." + n) > 1 ? parameters(d) : "";
  const name = clip(n, view.fullNames ? MOST_FULL_NAME : MOST_NAME) + "(" + inside + ")";
  return (withClass || view.fullNames ? shortClass(c) + "." : "") + name;
}

// Returns the full name of a frame's method. Methods that aren't the program's have a text in place of a number.
export const methodKey = m => typeof m === "number" ? run.data.methods[m].k : m;

// Divides a variable of the trace: C.x.D, R.C.x.D or R[i].
export function variable(v) {
  let m = /^(\d+)\[(\d+)\]$/.exec(v);
  if (m) return {object: Number(m[1]), index: Number(m[2]), key: v};
  m = /^(\d+)\.(.*)$/s.exec(v);
  return m ? {object: Number(m[1]), key: m[2]} : {object: 0, key: v};
}

// Returns a variable's name in a narrow column, in a wide one, or in a sentence.
export function shortVariable(v, where) {
  const x = variable(v);
  if (x.index !== undefined) {
    const known = where === "sentence" && run.last.objects[x.object];
    return known ? "element " + x.index + " of " + objectName(x.object, run.to) : "#" + x.object + "[" + x.index + "]";
  }
  const [c, full] = parts(x.key), n = clip(full, MOST_NAME);
  if (where === "sentence") return shortClass(c) + "." + n + (x.object ? " of #" + x.object : "");
  if (where === "narrow") return n;
  return x.object ? "#" + x.object + "." + n : (run.data.classes.length > 1 ? shortClass(c) + "." : "") + n;
}

export const objectAt = (r, p) => state(p).objects[r] || run.last.objects[r];

// Returns how an object is shown: a text as itself, a class by its name, others by their number and class.
export function objectName(r, p) {
  const o = objectAt(r, p);
  if (!o) return "#" + r;
  if (o.kind === "t") return "\"" + clip(unescaped(o.values[0]), 24) + "\"";
  if (o.kind === "c") return shortClass(o.values[0]) + ".class";
  if (o.kind === "a") return "#" + r + " " + typeName(o.name.slice(1)) + "[" + (o.n || o.values.length) + "]";
  return "#" + r + " " + shortClass(o.name);
}

// Returns an object's name beside an event of its lock.
export function lockName(r) {
  const o = run.last.objects[r];
  return o && o.kind === "c" ? shortClass(o.values[0]) + ".class" : "#" + r;
}

// Returns what is shown of an object on hover.
export function fullObject(r, p) {
  const o = objectAt(r, p);
  if (!o) return "object " + r;
  const more = o.kind === "c" ? ": the class " + o.values[0] : o.kind === "t" ? ": " + clip(unescaped(o.values[0]), 1000) : "";
  return "object " + r + ", of class " + o.name + more;
}

// Shortens the names in an instruction.
export function shortCode(code) {
  const [op, what] = code.split(" ");
  if (what === undefined) return code;
  if (/^(get|put)(static|field)$/.test(op)) {
    const k = what.lastIndexOf("/"), c = what.slice(0, k);
    return op + " " + (run.data.classes.includes(c) ? "" : shortClass(c) + ".") + clip(what.slice(k + 1), MOST_NAME);
  }
  if (op.startsWith("invoke")) {
    const m = what.slice(0, what.indexOf("("));
    return op + " " + clip(m.slice(m.lastIndexOf("/") + 1), MOST_NAME) + "()";
  }
  return /^(new|checkcast|instanceof|anewarray)$/.test(op) ? op + " " + shortClass(what) : clip(code, 60);
}

// Makes elements. Each text goes into a text node by way of `visible`, so no name becomes markup or hides another.

import {go} from "./view.js";

const SVG = "http://www.w3.org/2000/svg";

// Controls, marks of direction and other formats, halves of pairs, private characters, separators of lines.
const HIDDEN = /[\p{Cc}\p{Cf}\p{Cs}\p{Co}\p{Zl}\p{Zp}]/gu;

const unitEscape = unit => "\\u" + unit.charCodeAt(0).toString(16).padStart(4, "0");

// Returns the text with characters that can't be seen as escapes. Line feeds and tabs stay.
export function visible(text) {
  return text.replace(HIDDEN, c => c === "\n" || c === "\t" ? c : c.split("").map(unitEscape).join(""));
}

// Cuts a text to n units.
export const clip = (text, n) => text.length > n ? text.slice(0, Math.max(0, n - 1)) + "\u2026" : text;

export const colour = t => "var(--t" + t % 8 + ")";
export const wash = t => "var(--w" + t % 8 + ")";

// Gives an element the colours of a thread.
export function paint(element, t) {
  element.style.setProperty("--c", colour(t));
  element.style.setProperty("--w", wash(t));
}

// Adds elements and texts. Lists are flattened; null and "" are left out.
function addTo(element, kids) {
  for (const kid of kids.flat(Infinity)) {
    if (kid === null || kid === undefined || kid === "") continue;
    element.append(typeof kid === "string" ? document.createTextNode(visible(kid)) : kid);
  }
  return element;
}

// Makes an element. `c` is the thread that gives it its colour, `onX` a listener; the rest are attributes.
export function el(tag, attributes, ...kids) {
  const element = document.createElement(tag);
  for (const [name, value] of Object.entries(attributes || {})) {
    if (value === undefined) continue;
    if (name === "c") paint(element, value);
    else if (name.startsWith("on")) element.addEventListener(name.slice(2), value);
    else element.setAttribute(name, visible(String(value)));
  }
  return addTo(element, kids);
}

// Makes an element of a drawing.
export function sv(tag, attributes, ...kids) {
  const element = document.createElementNS(SVG, tag);
  for (const [name, value] of Object.entries(attributes || {})) {
    if (value !== undefined) element.setAttribute(name, String(value));
  }
  return addTo(element, kids);
}

// Replaces what a box has.
export function fill(box, ...kids) {
  box.replaceChildren();
  return addTo(box, kids);
}

// Sets what is shown of an element on hover.
export const setTitle = (element, text) => element.setAttribute("title", visible(text));

export const byId = id => document.getElementById(id);

// Makes the mark of a thread.
export const chip = (t, more) =>
  el("span", {class: "chip" + (more ? " " + more : ""), c: t, title: "thread " + t}, "T" + t);

// Makes a link to a turn.
export function turnLink(p, label) {
  const follow = event => { event.preventDefault(); go(p); };
  return el("a", {class: "turn", href: "#turn=" + p, title: "go to turn " + p, onclick: follow}, label || "turn " + p);
}

// Makes a text with its long form on hover.
export const named = (short, full) => el("span", {title: full}, short);

// Makes the number of a step of the verdict.
export const numberMark = n => el("span", {class: "no"}, String(n));

// Makes a list of numbered steps.
export const stepList = steps => el("ul", {}, steps.map((s, i) => el("li", {}, numberMark(i + 1), s)));

// Makes a button. `pressed` is given for one that switches something.
export function button(label, title, press, id, pressed) {
  return el("button", {type: "button", title, onclick: press, id, "aria-pressed": pressed}, label);
}

// Says whether a button is pressed.
export const setPressed = (id, pressed) => byId(id).setAttribute("aria-pressed", String(pressed));

// Scrolls a box so that the element is inside, with `around` of its heights about it.
export function scrollInto(box, element, around) {
  const y = element.offsetTop, h = element.offsetHeight, pad = around * h;
  if (y - pad < box.scrollTop) box.scrollTop = Math.max(0, y - pad);
  else if (y + h + pad > box.scrollTop + box.clientHeight) box.scrollTop = y + h + pad - box.clientHeight;
}

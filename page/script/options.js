// Changes what is shown and how: panes, type, dark or light, details.

import {run} from "./data.js";
import {byId, fill, setPressed} from "./elements.js";
import {redraw, view, whenDrawn} from "./view.js";

const SIZES = [1, 1.3, 1.6];
const PANES = ["src", "time", "state"];

const root = document.documentElement;

export const isDark = () => root.dataset.theme === "dark";

export function setTheme(theme) {
  root.dataset.theme = theme === "dark" ? "dark" : "light";
}

export function otherTheme() {
  setTheme(isDark() ? "light" : "dark");
  redraw();
}

// Sets the size of the type: 0, 1 or 2. The verdict is folded again if it takes too much space.
export function setSize(size) {
  view.size = Math.max(0, Math.min(SIZES.length - 1, Math.trunc(size) || 0));
  root.style.setProperty("--s", String(SIZES[view.size]));
  view.fold = "auto";
}

export function nextSize() {
  setSize((view.size + 1) % SIZES.length);
  redraw();
}

// Switches an option of the view, and its button if it has one.
export function flip(option, id) {
  view[option] = !view[option];
  if (id) setPressed(id, view[option]);
  redraw();
}

// Says whether the type is the largest.
export const isLargest = () => view.size === SIZES.length - 1;

// Folds the verdict, or unfolds it.
export function flipVerdict() {
  view.fold = byId("verdict").classList.contains("folded") ? "no" : "yes";
  redraw();
}

// Shows or hides a pane. The last one stays.
export function flipPane(id) {
  const pane = byId(id), open = PANES.filter(x => !byId(x).hidden);
  if (!pane.hidden && open.length === 1) return;
  pane.hidden = !pane.hidden;
  setPressed("b-" + id, !pane.hidden);
  arrange();
  redraw();
}

// Gives the panes their widths: more for the timeline if there are many threads.
export function arrange() {
  const hidden = PANES.filter(x => byId(x).hidden), many = run.count > 4 ? "many" : "";
  document.querySelector("main").className = hidden.length === 2 ? "one" : hidden.length ? "no-" + hidden[0] : many;
}

export function prepareOptions() {
  setTheme(matchMedia("(prefers-color-scheme: dark)").matches ? "dark" : "light");
  whenDrawn(() => { fill(byId("b-theme"), isDark() ? "Light" : "Dark"); });
}

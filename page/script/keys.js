// Does what keys ask for. help.js lists them for the reader.

import {run} from "./data.js";
import {chooseThread, goToEvent, goToOwn, goToVerdict, play} from "./moves.js";
import {flip, flipPane, flipVerdict, nextSize, otherTheme} from "./options.js";
import {openHelp} from "./help.js";
import {go, view} from "./view.js";

const KEYS = new Map([
  ["ArrowRight", () => go(view.at + 1)],
  ["ArrowLeft", () => go(view.at - 1)],
  ["Shift ArrowRight", () => goToEvent(1)],
  ["Shift ArrowLeft", () => goToEvent(-1)],
  ["ArrowDown", () => goToOwn(1)],
  ["ArrowUp", () => goToOwn(-1)],
  ["Home", () => go(run.from)],
  ["End", () => go(run.to)],
  ["PageDown", () => go(view.at + 10)],
  ["PageUp", () => go(view.at - 10)],
  [" ", play],
  ["v", () => goToVerdict(1)],
  ["Shift V", () => goToVerdict(-1)],
  ["f", nextSize],
  ["d", otherTheme],
  ["e", flipVerdict],
  ["s", () => flipPane("src")],
  ["t", () => flipPane("time")],
  ["m", () => flipPane("state")],
  ["a", () => flip("everyTurn", "b-all")],
  ["c", () => flip("conflicts", "b-grey")],
  ["l", () => flip("unnamed", "b-unnamed")],
  ["n", () => flip("fullNames", "b-names")],
  ["Escape", () => { if (view.chosen >= 0) chooseThread(view.chosen); }],
  ["Shift ?", openHelp],
  ["?", openHelp],
]);

// Returns what a key does, or undefined.
function actionOf(event) {
  const {key} = event, t = /^[0-9]$/.test(key) ? Number(key) : -1;
  if (t >= 0 && t < run.count) return () => chooseThread(t);
  return KEYS.get((event.shiftKey ? "Shift " : "") + key);
}

// Says whether the element that has the focus uses the key itself.
function isTaken(event) {
  const {key, target} = event;
  if (key === " ") return ["BUTTON", "A"].includes(target.tagName) || target.getAttribute("role") === "button";
  return key.startsWith("Page") && target.classList.contains("scroll");
}

export function prepareKeys() {
  document.addEventListener("keydown", event => {
    if (event.ctrlKey || event.metaKey || event.altKey || document.querySelector("dialog[open]") || isTaken(event)) return;
    const action = actionOf(event);
    if (!action) return;
    action();
    event.preventDefault();
  });
}

// Lists the keys and the words of the page, in a dialog.

import {run} from "./data.js";
import {button, byId, el} from "./elements.js";

const KEY_HELP = [
  ["\u2190  \u2192", "a turn back, a turn forward"],
  ["Shift \u2190  \u2192", "the event before, the next event"],
  ["\u2191  \u2193", "the turn before, the next turn of the chosen thread, or of the last turn's thread"],
  ["0 .. 9", "chooses a thread; Esc chooses none"],
  ["v, Shift v", "through the turns of the verdict"],
  ["Home, End", "the start, the end"],
  ["PageUp, PageDown", "ten turns; in a pane that has the focus, scrolls it"],
  ["Space", "plays, pauses"],
  ["e", "folds or unfolds the verdict"],
  ["s, t, m", "shows or hides the source, the timeline, the state (memory)"],
  ["a, c", "a row for each turn in the timeline; arrows for all conflicts"],
  ["l, n", "local variables without a name; names in full"],
  ["f, d", "size of the type; dark or light"],
  ["Ctrl p", "prints the page, at this turn"],
];

const WORD_HELP = [
  ["turn", "one step of one thread, as a rule one instruction"],
  ["event", "a read or write of a variable, a lock taken or freed, a thread started or joined"],
  ["transaction", "the events of one call of a method that is to be atomic; any other event is one alone"],
  ["cycle", "transactions each of which has to come before the next, and the last before the first"],
  ["T1, #5", "thread 1, object 5; objects are numbered in the order in which they were made"],
  ["not proved", "lines, names of local variables, the source's text, and what this page draws"],
];

const list = rows => el("dl", {}, rows.map(([a, b]) => [el("dt", {}, a), el("dd", {}, b)]));

export function openHelp() {
  const dialog = byId("help");
  dialog.showModal();
  dialog.scrollTop = 0;
}

export function helpDialog() {
  const {command, version, spec} = run.data, close = button("Close", "closes (Esc)", () => byId("help").close());
  return el("dialog", {id: "help", "aria-labelledby": "helph"},
    el("h2", {id: "helph"}, "Keys"), list(KEY_HELP), el("h2", {}, "Words"), list(WORD_HELP),
    el("h2", {}, "Run"), el("p", {class: "m"}, command), el("p", {class: "m"}, version),
    spec ? el("pre", {}, spec) : "", close);
}

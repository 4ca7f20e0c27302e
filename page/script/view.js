// Keeps what the reader chose: the position, and options. Calls those who draw when one of them changes.

import {run} from "./data.js";

export const view = {
  at: 0,              // the position: the turns up to this one were taken
  chosen: -1,         // the thread of which up and down show the turns, or -1
  file: -1,           // the source that is shown
  everyTurn: false,   // a row for each turn in the timeline
  conflicts: false,   // arrows for all conflicts
  unnamed: false,     // local variables without a name
  fullNames: false,   // names of classes and methods in full
  fold: "auto",       // the verdict in one line: "yes", "no", or where it would take too much space
  size: 0,            // of the type
};

const showers = [], drawers = [];

// Has f called with each position that is shown.
export const whenShown = f => { showers.push(f); };

// Has f called when all is drawn again: at the start, and after a change of an option or of the window.
export const whenDrawn = f => { drawers.push(f); };

// Shows the position.
export function show() {
  for (const f of showers) f(view.at);
}

// Draws all, and shows the position.
export function redraw() {
  for (const f of drawers) f();
  show();
}

// Goes to the position nearest to p.
export function go(p) {
  view.at = Math.max(run.from, Math.min(run.to, p));
  show();
}

// Returns the size of the type in pixels.
export const typeSize = () => parseFloat(getComputedStyle(document.documentElement).fontSize);

// Reads the position from the page's address, and writes it there: #turn=33.

import {run} from "./data.js";
import {setSize, setTheme} from "./options.js";
import {redraw, view, whenShown} from "./view.js";
import {isFine} from "./waits.js";

const DELAY = 250;        // milliseconds: browsers limit how often the address may change

let writing = 0;

function writeAddress(p) {
  clearTimeout(writing);
  writing = setTimeout(() => {
    try {
      history.replaceState(null, "", "#turn=" + p);
    } catch (error) {
      // A file inside of a frame has no address of its own.
    }
  }, DELAY);
}

// Reads the address. Without a turn the page begins where the verdict does.
function readAddress(first) {
  const words = new URLSearchParams(location.hash.slice(1));
  if (words.has("theme")) setTheme(words.get("theme"));
  if (words.has("size") || first) setSize(Number(words.get("size")));
  const turn = words.has("turn") ? Number(words.get("turn")) : NaN;
  if (Number.isFinite(turn)) view.at = Math.max(run.from, Math.min(run.to, Math.trunc(turn)));
  else if (first) view.at = isFine() ? run.from : run.stops[0];
}

export function prepareAddress() {
  readAddress(true);
  whenShown(writeAddress);
  addEventListener("hashchange", () => {
    readAddress(false);
    redraw();
  });
}

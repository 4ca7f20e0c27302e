// Prepares the page for paper: light colours, and the timeline cut into sheets, each with the heads of its columns.

import {run} from "./data.js";
import {byId, el, fill, sv} from "./elements.js";
import {isDark, setTheme} from "./options.js";
import {drawn, scrollHeads} from "./timeline.js";
import {redraw, view} from "./view.js";

const WIDTH = 1040, HEIGHT = 610;        // of a sheet, in pixels of paper
const BESIDE = 260;                      // pixels that the steps need beside a sheet

// Returns the heads of the columns, as wide as on the sheet.
function headsOf(scale) {
  const heads = byId("heads").cloneNode(true);
  heads.removeAttribute("id");
  [...heads.children].forEach((head, i) => {
    head.style.width = scale * (i ? drawn.widths[i - 1] : drawn.gut) + "px";
  });
  return heads;
}

const PARTS = ":scope > :not(defs, .hit, .stays, #future), :scope > .stays > *";

// Returns the elements of the drawing, and where they begin and end.
function drawnParts() {
  return [...byId("drawing").querySelectorAll(PARTS)].map(element => {
    const {y, height} = element.getBBox(), top = y + (element.id === "playhead" ? drawn.y(view.at) : 0);
    return {element, top, bottom: top + height};
  });
}

// Copies an element. The copy has no name of its own.
function copyOf(element) {
  const copy = element.cloneNode(true);
  copy.removeAttribute("id");
  return copy;
}

// Returns a sheet with copies of the parts that are on it, and not of others: a long run has many sheets.
function sheet(from, to, scale, steps, parts) {
  const {width} = drawn, box = `0 ${from} ${width} ${to - from}`, shown = parts.filter(x => x.bottom >= from && x.top <= to);
  return el("div", {class: "sheet"}, steps, headsOf(scale),
    sv("svg", {width: scale * width, height: scale * (to - from), viewBox: box}, shown.map(x => copyOf(x.element))));
}

// Returns where the timeline is cut: between turns, each part at most `space` high.
function cuts(space) {
  const {y, height, u} = drawn, at = [0];
  let p = run.from;
  while (at[at.length - 1] < height) {
    const start = at[at.length - 1];
    while (p < run.to && y(p + 1) <= start + space) p++;
    if (p >= run.to && height <= start + space + 2 * u) at.push(height);
    else at.push(y(p) > start ? y(p) : start + space);
  }
  return at;
}

// Returns a copy of the verdict's steps, or "".
function stepsOf() {
  const lists = [...byId("verdict").querySelectorAll("ul")].map(list => list.cloneNode(true));
  return lists.length ? el("div", {class: "steps"}, lists) : "";
}

// Draws the sheets. The verdict's steps are beside the first one if it leaves enough of the paper, else above it.
function drawSheets() {
  const {width, height} = drawn, steps = stepsOf(), tall = HEIGHT - (steps ? 50 : 0);
  const scale = Math.min(1.35, WIDTH / width, Math.max(.8, (tall + 20) / height)), at = cuts(tall / scale);
  if (steps && WIDTH - scale * width > BESIDE) {
    steps.className = "steps beside";
    steps.style.setProperty("--left", scale * width + 24 + "px");
  }
  const parts = drawnParts();
  fill(byId("sheets"), at.slice(1).map((to, i) => sheet(at[i], to, scale, i ? "" : steps, parts)));
}

export function preparePrint() {
  let dark = false, fold = "auto";
  addEventListener("beforeprint", () => {
    dark = isDark();
    ({fold} = view);
    view.fold = "no";
    setTheme("light");
    redraw();
    byId("timescroll").scrollLeft = 0;
    scrollHeads();
    drawSheets();
  });
  addEventListener("afterprint", () => {
    view.fold = fold;
    setTheme(dark ? "dark" : "light");
    byId("sheets").replaceChildren();
    redraw();
  });
}

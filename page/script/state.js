// Shows the state at the position, with what the last turn changed, and the output so far.

import {run, state} from "./data.js";
import {byId, el, fill} from "./elements.js";
import {objectCards, staticRows} from "./objects.js";
import {threadCards} from "./threads.js";
import {bytesText} from "./values.js";
import {whenShown} from "./view.js";

const MOST_OUTPUT = 20000;        // characters of output that are shown: the last ones

function showOutput(now, before, p) {
  const all = bytesText(now.output), old = p > run.from ? bytesText(before.output).length : 0;
  const cut = Math.max(0, all.length - MOST_OUTPUT), fresh = Math.max(cut, Math.min(old, all.length));
  const missing = run.data.output_of && p === run.to && run.to === run.of ? run.data.output_of - now.output.length / 2 : 0;
  fill(byId("outtext"), cut ? el("span", {class: "lab"}, "\u2026 " + cut + " characters before \u2026\n") : "",
    all.slice(cut, fresh), all.length > fresh ? el("span", {class: "new"}, all.slice(fresh)) : "",
    missing > 0 ? el("span", {class: "lab"}, "\n\u2026 " + missing + " bytes that the page doesn't have") : "");
}

function showState(p) {
  const now = state(p), before = p > run.from ? state(p - 1) : now;
  const rows = staticRows(p, before), cards = objectCards(p, before);
  fill(byId("statebox"), el("h3", {}, "Threads"), threadCards(p, before),
    rows.length ? [el("h3", {}, "Static fields"), rows] : "",
    cards.length ? [el("h3", {}, "Objects that can be reached"), el("div", {class: "objs"}, cards)] : "");
  fill(byId("stateh"), p > run.from ? "State after turn " + p : "State at the start");
  showOutput(now, before, p);
}

export const prepareState = () => whenShown(showState);

// Makes the page's frame: head, verdict, three panes, and the row of buttons with the slider.

import {run} from "./data.js";
import {button, el} from "./elements.js";
import {helpDialog, openHelp} from "./help.js";
import {goToEvent, goToVerdict, play} from "./moves.js";
import {flip, flipPane, flipVerdict, nextSize, otherTheme} from "./options.js";
import {go, view} from "./view.js";

// What the code of a window means.
const WINDOWS = new Map([["asked", "as asked for"], ["cycle", "around the cycle"], ["race", "around the race"],
  ["end", "the last ones"], ["start", "the first ones"]]);

function windowText() {
  const {from, to, of, why} = run.data.window;
  return why ? "   turns " + from + " to " + to + " of " + of + ", " + (WINDOWS.get(why) || "cut") : "";
}

function header() {
  const {program, schedule, command, spec, version} = run.data;
  return el("header", {}, el("h1", {title: program}, program),
    el("span", {class: "run m", title: command + "\n" + (spec || "") + "\n" + version}, "--sched " + schedule + windowText()),
    el("div", {class: "group", role: "group", "aria-label": "Panes"},
      button("Verdict", "folds or unfolds the verdict (e)", flipVerdict, "b-verdict", true),
      button("Source", "shows or hides the source (s)", () => flipPane("src"), "b-src", true),
      button("Timeline", "shows or hides the timeline (t)", () => flipPane("time"), "b-time", true),
      button("State", "shows or hides the state (m)", () => flipPane("state"), "b-state", true)),
    el("div", {class: "group", role: "group", "aria-label": "Look"},
      button("A+", "type: normal, large, very large (f)", nextSize, "b-font"),
      button("Dark", "dark or light (d)", otherTheme, "b-theme"),
      button("Print", "prints this page", () => print()), button("Keys ?", "keys and words (?)", openHelp)));
}

const scrollBox = (id, says, ...kids) => el("div", {class: "scroll", id, tabindex: 0, role: "group", "aria-label": says}, kids);

function sourcePane() {
  return el("section", {id: "src", "aria-label": "Source"},
    el("div", {class: "bar"}, el("h2", {id: "file"}), el("span", {id: "tabs"})),
    scrollBox("srcscroll", "Source text", el("div", {class: "lines", id: "lines"})),
    el("div", {id: "now"}));
}

function timePane() {
  return el("section", {id: "time", "aria-label": "Timeline"},
    el("div", {class: "bar"}, el("h2", {}, "Timeline"),
      button("Conflicts", "an arrow for each two events that conflict (c)", () => flip("conflicts", "b-grey"), "b-grey", false),
      button("Every turn", "a row for each turn (a)", () => flip("everyTurn", "b-all"), "b-all", false)),
    el("div", {id: "headwrap"}, el("div", {class: "heads", id: "heads"})),
    scrollBox("timescroll", "Timeline of the threads"), el("div", {id: "sheets", "aria-hidden": "true"}));
}

function statePane() {
  const hasUnnamed = run.data.methods.some(m => m.v);
  return el("section", {id: "state", "aria-label": "State"},
    el("div", {class: "bar"}, el("h2", {id: "stateh"}, "State"),
      hasUnnamed ? button("Unnamed", "local variables without a name, that the compiler made (l)", () => flip("unnamed", "b-unnamed"), "b-unnamed", false) : "",
      button("Full names", "names of classes and methods in full (n)", () => flip("fullNames", "b-names"), "b-names", false)),
    scrollBox("statebox", "Threads, fields and objects"),
    el("div", {id: "out"}, el("h3", {}, "Output so far"), el("pre", {id: "outtext", tabindex: 0, "aria-label": "Output so far"})));
}

function buttons() {
  return [button("|\u25C0", "to the start (Home)", () => go(run.from)),
    button("\u25C0\u25C0", "to the event before (Shift left)", () => goToEvent(-1)),
    button("\u25C0", "a turn back (left)", () => go(view.at - 1)),
    button("\u25B6", "a turn forward (right)", () => go(view.at + 1)),
    button("\u25B6\u25B6", "to the next event (Shift right)", () => goToEvent(1)),
    button("\u25B6|", "to the end (End)", () => go(run.to)),
    button("Play", "plays or pauses (Space)", play, "play", false),
    button("Verdict \u25B8", "through the turns of the verdict (v)", () => goToVerdict(1), "b-next")];
}

function footer() {
  const slide = event => go(Number(event.target.value));
  return el("footer", {}, el("div", {class: "row", role: "group", "aria-label": "Time"}, buttons(),
    el("div", {id: "say", role: "status", "aria-live": "polite"}), el("span", {id: "pos"})),
  el("canvas", {id: "strip", role: "img", "aria-label": "The turns of each thread, over time",
    title: "the turns of each thread over time; tall ones are events, red ones are of the verdict"}),
  el("input", {type: "range", id: "range", min: run.from, max: run.to, step: 1, "aria-label": "Turn", oninput: slide}));
}

// Makes all that the page has.
export function makeFrame() {
  document.body.append(header(), el("div", {id: "verdict", role: "region", "aria-label": "Verdict"}),
    el("main", {}, sourcePane(), timePane(), statePane()), footer(), helpDialog());
  document.documentElement.style.setProperty("--lanes", String(Math.max(2, run.count)));
}

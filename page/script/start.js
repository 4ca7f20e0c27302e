// Starts the page: reads the data, derives what it shows, and draws.

import {prepareAddress} from "./address.js";
import {readData, run} from "./data.js";
import {byId, el, fill} from "./elements.js";
import {foldStates} from "./fold.js";
import {makeFrame} from "./frame.js";
import {prepareItems, prepareTransactions, prepareTurns} from "./history.js";
import {prepareKeys} from "./keys.js";
import {prepareNames} from "./names.js";
import {arrange, prepareOptions} from "./options.js";
import {preparePrint} from "./print.js";
import {prepareSource} from "./source.js";
import {prepareState} from "./state.js";
import {drawStrip, prepareStrip} from "./strip.js";
import {prepareTimeline} from "./timeline.js";
import {prepareVerdictView} from "./verdict.js";
import {redraw, whenShown} from "./view.js";
import {prepareVerdict} from "./waits.js";
import {narrate} from "./words.js";

// Derives all that the page knows of the run.
function prepareRun(data) {
  const {from, to, of} = data.window;
  Object.assign(run, {data, from, to, of});
  run.states = foldStates();
  run.last = run.states[run.states.length - 1];
  run.count = run.last.threads.length;
  prepareNames();
  prepareItems();
  prepareTurns();
  prepareTransactions();
  prepareVerdict();
}

// Shows the position on the slider, and what the last turn did as a sentence.
function showPosition(p) {
  const range = byId("range"), say = byId("say");
  range.value = String(p);
  fill(byId("pos"), "Turn " + p + " of " + (run.from || run.to !== run.of ? run.to + " (" + run.of + ")" : run.to));
  fill(say, narrate(p));
  say.title = say.textContent;
  range.setAttribute("aria-valuetext", "turn " + p + ": " + say.textContent);
}

// Draws again when the timeline has another width.
function watchWidth() {
  const box = byId("timescroll");
  let width = box.clientWidth, timer = 0;
  const changed = () => {
    if (box.clientWidth && box.clientWidth !== width) {
      width = box.clientWidth;
      redraw();
    } else drawStrip();
  };
  new ResizeObserver(() => {
    clearTimeout(timer);
    timer = setTimeout(changed, 60);
  }).observe(box);
}

function start() {
  const {data, refusal} = readData(byId("data").textContent);
  if (refusal) {
    document.body.append(el("p", {class: "refusal", role: "alert"}, refusal));
    return;
  }
  prepareRun(data);
  makeFrame();
  arrange();
  for (const prepare of [prepareOptions, prepareVerdictView, prepareSource, prepareTimeline, prepareState,
    prepareStrip, prepareKeys, preparePrint, prepareAddress]) prepare();
  whenShown(showPosition);
  redraw();
  watchWidth();
}

start();

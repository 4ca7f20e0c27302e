// Moves the position: by events, by the turns of one thread, through the verdict, and by itself.

import {chooser, run} from "./data.js";
import {byId, fill, setPressed} from "./elements.js";
import {rank} from "./history.js";
import {go, show, view} from "./view.js";

const PAUSE = 600;        // milliseconds between two turns that are played

// Goes to the next event, or the one before.
export function goToEvent(step) {
  let p = view.at + step;
  while (p > run.from && p < run.to && rank(p) !== 2) p += step;
  go(p);
}

// Goes to the next turn of the chosen thread, or the one before. If none is chosen, the last turn's thread is.
export function goToOwn(step) {
  const t = view.chosen >= 0 ? view.chosen : chooser(Math.max(view.at, run.from + 1));
  let p = view.at + step;
  while (p > run.from && p <= run.to && chooser(p) !== t) p += step;
  if (p <= run.from || p > run.to) return;
  view.chosen = t;
  go(p);
}

// Goes to the next turn of the verdict, or the one before, round and round.
export function goToVerdict(step) {
  const stops = run.stops, next = stops.find(p => p > view.at), before = stops.filter(p => p < view.at).pop();
  go(step > 0 ? next ?? stops[0] : before ?? stops[stops.length - 1]);
}

// Chooses a thread, or none if it is chosen.
export function chooseThread(t) {
  view.chosen = view.chosen === t ? -1 : t;
  show();
}

let playing = 0;

function stop() {
  clearInterval(playing);
  playing = 0;
}

function playTurn() {
  if (view.at >= run.to) play();
  else go(view.at + 1);
}

// Plays, or pauses. At the end it plays from the start.
export function play() {
  if (playing) stop();
  else {
    if (view.at >= run.to) go(run.from);
    playing = setInterval(playTurn, PAUSE);
  }
  setPressed("play", Boolean(playing));
  fill(byId("play"), playing ? "Pause" : "Play");
}

// Draws the strip above the slider: the turns of each thread over time, events tall, turns of the verdict red.

import {chooser, run} from "./data.js";
import {byId} from "./elements.js";
import {rank} from "./history.js";
import {go, whenDrawn} from "./view.js";

function drawLanes(pen, colourOf, width, lane) {
  for (let t = 0; t < run.count; t++) {
    pen.fillStyle = colourOf("--w" + t % 8);
    pen.fillRect(0, 2 + t * lane + lane * .4, width, Math.max(1, lane * .2));
  }
}

function drawTurns(pen, colourOf, each, lane) {
  for (let p = run.from + 1; p <= run.to; p++) {
    const t = chooser(p), tall = rank(p) === 2, y = 2 + t * lane + (tall ? .5 : lane * .22);
    pen.globalAlpha = tall ? 1 : .42;
    pen.fillStyle = colourOf("--t" + t % 8);
    pen.fillRect((p - run.from - 1) * each, y, Math.max(1, each - (each > 4 ? 1 : 0)), tall ? lane - 1 : lane * .56);
  }
  pen.globalAlpha = 1;
}

function drawHot(pen, each, width, height) {
  for (const p of run.hot) pen.fillRect((p - run.from - .5) * each - 1, 0, 2.4, height);
  if (!run.closed) return;
  const x = (run.closed - run.from) * each - 2;
  pen.globalAlpha = .3;
  pen.fillRect(x, 0, Math.max(4, width - x), height);
  pen.globalAlpha = 1;
}

export function drawStrip() {
  const strip = byId("strip"), width = strip.clientWidth, height = strip.clientHeight, ratio = window.devicePixelRatio || 1;
  const style = getComputedStyle(document.documentElement), colourOf = name => style.getPropertyValue(name).trim();
  strip.width = width * ratio;
  strip.height = height * ratio;
  const pen = strip.getContext("2d"), lane = (height - 4) / Math.max(1, run.count), each = width / Math.max(1, run.to - run.from);
  pen.scale(ratio, ratio);
  drawLanes(pen, colourOf, width, lane);
  drawTurns(pen, colourOf, each, lane);
  pen.fillStyle = colourOf("--bad");
  drawHot(pen, each, width, height);
}

export function prepareStrip() {
  byId("strip").addEventListener("click", event => {
    const share = event.offsetX / event.target.clientWidth;
    go(run.from + Math.ceil(share * (run.to - run.from)));
  });
  whenDrawn(drawStrip);
}

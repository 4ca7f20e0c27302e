// Draws the small graph of the verdict: who has to come before whom, or who waits for whom.

import {colour, sv, visible, wash} from "./elements.js";

// Makes the head of an arrow.
export function arrowHead(id, fillColour) {
  return sv("marker", {id, viewBox: "0 0 8 8", refX: 7, refY: 4, markerWidth: 9, markerHeight: 9,
    markerUnits: "userSpaceOnUse", orient: "auto"}, sv("path", {d: "M0 0.6L8 4L0 7.4z", fill: fillColour}));
}

// Returns the sizes of a graph, and the place of each node. Two nodes lie side by side, more in a circle.
function graphLayout(nodes, u) {
  const n = nodes.length, two = n === 2, big = nodes.some(x => x.sub);
  const w = two ? 11.6 * u : big ? 9.2 * u : 3.3 * u, h = big ? 2.5 * u : 1.8 * u;
  const rx = two ? 0 : Math.max(big ? 5.2 : 4.4, n * (big ? 2.2 : 1.55)) * u, ry = two ? 0 : Math.max(2.5, n * .72) * u;
  const width = two ? 2 * w + 7 * u : 2 * rx + w + 4, height = two ? 6.4 * u : 2 * ry + h + 4;
  const at = nodes.map((_, i) => {
    if (two) return [i ? width - w / 2 - 2 : w / 2 + 2, height / 2];
    const angle = 2 * Math.PI * i / n, x = width / 2 + rx * Math.sin(angle);
    if (n === 3) return [x, i ? height - h / 2 - 2 : h / 2 + 2];
    return [x, height / 2 - ry * Math.cos(angle)];
  });
  return {two, w, h, width, height, at, u};
}

// Returns the path of an edge between two nodes that lie side by side, and the place of its label.
function curve({w, u}, [x1, y1], [x2], forward) {
  const s = forward ? -1 : 1, a = x1 - s * w / 2, b = x2 + s * w / 2, y = y1 + s * .5 * u, m = (a + b) / 2;
  return {d: `M${a} ${y}C${m} ${y + s * 1.9 * u} ${m} ${y + s * 1.9 * u} ${b} ${y}`, x: m, y: y + s * 1.95 * u};
}

// Returns the path of an edge in a circle of nodes, from border to border.
function line({w, h}, [x1, y1], [x2, y2]) {
  const dx = x2 - x1, dy = y2 - y1;
  const inside = Math.min(w / 2 / Math.max(Math.abs(dx), .01), h / 2 / Math.max(Math.abs(dy), .01));
  const k = Math.min(.45, inside), l = Math.min(.45, inside + 2 / Math.hypot(dx, dy));
  return {d: `M${x1 + dx * k} ${y1 + dy * k}L${x2 - dx * l} ${y2 - dy * l}`, x: (x1 + x2) / 2, y: (y1 + y2) / 2};
}

function drawEdge(g, e) {
  const a = g.at[e.a], b = g.at[e.b], path = g.two ? curve(g, a, b, e.a < e.b) : line(g, a, b);
  const drawn = sv("path", {d: path.d, fill: "none", stroke: e.bad ? "var(--bad)" : "var(--dim)",
    "stroke-width": e.bad ? 2.4 : 1.4, "marker-end": e.bad ? "url(#gb)" : "url(#gn)",
    "stroke-dasharray": e.dash ? "4 3" : undefined});
  const label = sv("text", {x: path.x, y: path.y + .27 * g.u, "text-anchor": "middle", "font-size": .8 * g.u,
    class: "sans " + (e.bad ? "badt" : "dimt"), stroke: "var(--vbg)", "stroke-width": .35 * g.u, "paint-order": "stroke"}, e.label);
  return [drawn, label];
}

function drawNode(g, x, i) {
  const [cx, cy] = g.at[i], {w, h, u} = g;
  const box = sv("rect", {x: cx - w / 2, y: cy - h / 2, width: w, height: h, rx: 6, fill: wash(x.t),
    stroke: x.bad ? "var(--bad)" : colour(x.t), "stroke-width": x.bad ? 2.4 : 1.4});
  const name = sv("text", {x: cx, y: cy + (x.sub ? -.1 : .36) * u, "text-anchor": "middle", "font-size": u,
    "font-weight": 700, class: "sans"}, x.label);
  const sub = x.sub ? sv("text", {x: cx, y: cy + .88 * u, "text-anchor": "middle", "font-size": .78 * u,
    class: "sans dimt"}, x.sub) : "";
  return sv("g", {}, sv("title", {}, x.title || ""), box, name, sub);
}

// Draws nodes {label, sub, t, bad, title} and edges {a, b, label, bad, dash}, a and b being numbers of nodes.
export function graph(nodes, edges, u, says) {
  const g = graphLayout(nodes, u), drawn = edges.map(e => drawEdge(g, e));
  const svg = sv("svg", {id: "graph", width: Math.ceil(g.width), height: Math.ceil(g.height),
    viewBox: "0 0 " + g.width + " " + g.height, role: "img", "aria-label": visible(says)});
  svg.append(sv("defs", {}, arrowHead("gb", "var(--bad)"), arrowHead("gn", "var(--dim)")),
    ...drawn.map(d => d[0]), ...nodes.map((x, i) => drawNode(g, x, i)), ...drawn.map(d => d[1]));
  return svg;
}

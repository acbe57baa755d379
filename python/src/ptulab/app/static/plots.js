// @ts-check
// Draws figures with Plotly: curves that share their axes, and pictures. Plotly reads some HTML in its labels, so every text
// goes to it escaped.
import { make, short, table } from "./dom.js";

/**
 * @typedef {{label: string, x: number[], y: (number | null)[], errors: (number | null)[] | null, shape: string, right?: boolean}} Curve `right`: by the axis on the right
 * @typedef {{kind: "curves", name: string, title: string, summary: string, xlabel: string, xunit: string, ylabel: string, yunit: string,
 *   xlog: boolean, log: boolean | null, level: number | null, start: number | null, names: string[] | null, curves: Curve[], tick?: number, drag?: string,
 *   right?: string | null}} Curves
 * @typedef {{kind: "picture", name: string, title: string, summary: string, rows: number, columns: number, block: number, label: string,
 *   unit: string, micrometres: number | null, photons: any, values: any, threshold: number, most: number, zmin: number, zmax: number, colours: string}} Picture
 * @typedef {{kind: "plane", name: string, title: string, summary: string, rows: number, columns: number, left: number, low: number, cells: number, counts: any,
 *   marks: {label: string, g: number, s: number}[]}} Plane
 */

const Plotly = /** @type {any} */ (window).Plotly;
const dark = window.matchMedia("(prefers-color-scheme: dark)"), narrow = window.matchMedia("(max-width: 45rem)");
const times = /** @type {[number, string][]} */ ([[1, "s"], [1e-3, "ms"], [1e-6, "\u00b5s"], [1e-9, "ns"], [1e-12, "ps"]]);
const KEYS = "With the keys: arrows go from point to point, Home and End to the first and the last.", OTHERS = " Page Up and Page Down go to another curve.";
const ROWS = 100, REGION = "#ff4d3d"; // which stands out of all colours of pictures
const PAINTS = [REGION, "#2f9bff", "#ffb300", "#c26bff"]; // of regions of phasors, and of their pixels
/** @type {Map<HTMLElement, {figure: any, again: () => void}>} plots on the page, and how each is drawn anew */
const drawn = new Map();
/** @param {string} name */
const colour = (name) => getComputedStyle(document.documentElement).getPropertyValue("--" + name).trim();
/** @param {any} text */
const plain = (text) => String(text).replace(/&/g, "&amp;").replace(/</g, "&lt;").replace(/>/g, "&gt;");

/** What is shown over the plots of the page: gates in ticks of the delay, regions of pictures in pixels and of the plane of phasors,
 * and of each pixel the number of the phasor region that has it. */
const over = { gates: /** @type {number[][]} */ ([]), time: /** @type {number[] | null} */ (null), regions: /** @type {Regions} */ ({ picture: [], plane: [] }), paint: /** @type {any} */ (null) };
/** @typedef {{picture: number[][][], plane: number[][][]}} Regions */
/** Draws anew the plots of the figures of which this is so.
 * @param {(figure: any) => boolean} of */
const anew = (of) => { for (const [place, { figure, again }] of drawn) if (!place.isConnected) drawn.delete(place); else if (of(figure)) again(); };
const hasRegions = (/** @type {any} */ figure) => figure.kind !== "curves";
document.addEventListener("gates", (heard) => {
  const gates = /** @type {number[][]} */ (/** @type {CustomEvent} */ (heard).detail).map((ends) => [...ends]), was = String(over.gates);
  over.gates = gates;
  if (String(gates) !== was) anew((figure) => figure.drag === "gate");
});
document.addEventListener("looked", () => Object.assign(over, { gates: [], time: null, regions: { picture: [], plane: [] }, paint: null }));
document.addEventListener("window", (heard) => { over.time = /** @type {CustomEvent} */ (heard).detail; anew((figure) => figure.drag === "time"); });
document.addEventListener("regions", (heard) => { over.regions = /** @type {CustomEvent} */ (heard).detail; anew(hasRegions); });
document.addEventListener("painted", (heard) => { const { detail } = /** @type {CustomEvent} */ (heard); over.paint = detail && unpacked(detail); anew((figure) => figure.kind === "picture"); });

for (const media of [dark, narrow]) media.addEventListener("change", () => anew(() => true));

/** A number with its unit; seconds with the one that makes it short.
 * @param {number | null} value @param {string} unit */
export function measured(value, unit) {
  if (value === null) return "nothing";
  if (unit !== "s" || value === 0) return short(value) + (unit ? " " + unit : "");
  const [factor, name] = times.find(([least]) => Math.abs(value) >= least) || times[times.length - 1];
  return `${short(value / factor)} ${name}`;
}

/** @param {string} label @param {boolean} logarithmic */
const axis = (label, logarithmic) => ({
  title: { text: plain(label), standoff: 8 }, type: logarithmic ? "log" : "linear", color: colour("ink"), gridcolor: colour("line"), zerolinecolor: colour("line"),
  automargin: true, exponentformat: "power", uirevision: logarithmic ? "log" : "linear",
});

/** Labels of a logarithmic axis: each decade of many, of few also 2 and 5 of each.
 * @param {any} axis @param {(number | null)[]} values */
function labelled(axis, values) {
  const some = /** @type {number[]} */ (values.filter((value) => value !== null && value > 0));
  const decades = some.length ? Math.log10(some.reduce((one, other) => Math.max(one, other)) / some.reduce((one, other) => Math.min(one, other))) : 0;
  if (axis.type === "log" && decades > 0.7) axis.dtick = decades > 3 ? 1 : "D2";
}

const layout = () => ({
  paper_bgcolor: colour("paper"), plot_bgcolor: colour("paper"), hovermode: "closest", uirevision: "kept", dragmode: narrow.matches ? false : "zoom",
  font: { color: colour("ink"), size: narrow.matches ? 12 : 14, family: '"DejaVu Sans", system-ui, sans-serif' }, margin: { l: 56, r: 14, t: 14, b: 52 },
  legend: { orientation: "h", y: 1.12, x: 0 }, showlegend: false,
});

/** The section of a figure, drawn once it is on the page; `of` is the question whose result it is.
 * @param {any} figure @param {string} [of] */
export function draw(figure, of = "") {
  const id = `figure-${figure.name}`;
  const plot = make("div", { id: `${id}-plot`, class: `plot ${figure.kind}`, tabindex: "0", role: "application", "aria-label": figure.title, "aria-describedby": `${id}-summary ${id}-keys` });
  if (figure.kind === "curves" && figure.tick) plot.dataset.tick = String(figure.tick);
  if (figure.kind === "picture") plot.dataset.picture = `${figure.rows} ${figure.columns} ${figure.block} ${figure.micrometres}`;
  const said = make("p", { class: "said", role: "status", "aria-live": "polite" }), controls = make("div", { class: "controls" });
  const shape = figure.kind === "picture" ? picture(figure, controls, id) : figure.kind === "plane" ? plane(figure) : curves(figure, controls), flat = figure.kind !== "curves";
  const drags = figure.drag === "time" ? "chooses a time window" : figure.drag === "gate" ? "chooses a gate" : flat && of === "image" ? "draws a region" : "";
  const drag = drags ? /** @type {HTMLSelectElement} */ (make("select", { "aria-label": `What dragging does in ${figure.title}` }, make("option", { value: "zoom", text: "zooms" }), make("option", { value: "choose", text: drags }))) : null;
  const tools = make("p", { class: "controls tools" }, ...(drag ? [make("label", {}, "Dragging ", drag)] : []), ...["png", "svg"].map((format) => make("button", { type: "button", text: `Save as ${format.toUpperCase()}`,
    "aria-label": `Save ${figure.title} as ${format.toUpperCase()}`, on: { click: () => Plotly.downloadImage(plot, { format, filename: figure.name, width: 1000, height: flat ? 800 : 600 }) } })));
  const section = make("figure", { id, "aria-labelledby": `${id}-title` }, make("h3", { id: `${id}-title`, text: figure.title }), make("p", { id: `${id}-summary`, text: figure.summary }),
    controls, tools, plot, said, make("p", { id: `${id}-keys`, class: "faint", text: KEYS + (shape.counts.length > 1 ? OTHERS : "") }));
  section.style.margin = "0";
  section.append(make("details", {}, make("summary", { text: "Values as a table" }), shape.table()));
  const again = () => {
    const [traces, look] = shape.draw();
    if (drag?.value === "choose") Object.assign(look, flat ? { dragmode: "drawclosedpath", newshape: { line: { color: REGION, width: 2 }, drawdirection: "diagonal" } } : { dragmode: "select", selectdirection: "h" });
    return Plotly.react(plot, traces, look, { responsive: true, displaylogo: false, modeBarButtonsToRemove: ["select2d", "lasso2d"], displayModeBar: narrow.matches ? false : "hover" });
  };
  controls.addEventListener("input", again);
  drag?.addEventListener("change", again);
  requestAnimationFrame(async () => {
    if (!plot.isConnected) return;
    drawn.set(plot, { figure, again });
    await again();
    const heard = /** @type {any} */ (plot);
    heard.on("plotly_hover", (/** @type {any} */ event) => { said.ariaLive = event.event instanceof MouseEvent ? "off" : "polite"; said.textContent = shape.told(event.points[0].curveNumber, event.points[0].pointNumber); });
    heard.on("plotly_relayout", (/** @type {any} */ event) => { linked(figure, plot, event); if (event.shapes && flat) outlined(figure, event.shapes); });
    heard.on("plotly_selected", (/** @type {any} */ event) => { if (event?.range) chosen(figure, event.range.x); });
    plot.addEventListener("keydown", (event) => walk(event, plot, shape, said));
    plot.dataset.drawn = "yes";
  });
  return section;
}

/** What was chosen by dragging over a figure: a gate in ns or ticks with what a tick is, or a time in seconds.
 * @param {any} figure @param {number[]} range */
function chosen(figure, range) {
  const tick = figure.tick, unit = figure.drag === "time" ? tick : 1, ends = [Math.min(...range) / unit, Math.max(...range) / unit];
  document.dispatchEvent(new CustomEvent("chosen", { detail: { what: figure.drag, range: ends, tick } }));
  anew((other) => other === figure);
}

/** Regions that were drawn on a picture, in pixels of the file, or on the plane of phasors.
 * @param {Picture | Plane} figure @param {any[]} shapes */
function outlined(figure, shapes) {
  const to = (/** @type {string} */ end) => figure.kind === "plane" ? Number(end) : Number(end) / (figure.micrometres || 1) + 0.5;
  const drawn = shapes.filter((shape) => shape.type === "path").map((shape) => [...shape.path.matchAll(/(-?[\d.]+(?:e-?\d+)?),(-?[\d.]+(?:e-?\d+)?)/g)].map(([, x, y]) => [to(x), to(y)]));
  over.regions[figure.kind] = drawn.map((corners) => { const step = Math.ceil(corners.length / 400); return corners.filter((_, at) => at % step === 0); }).filter((corners) => corners.length > 2);
  document.dispatchEvent(new CustomEvent("drawn", { detail: over.regions }));
  anew(hasRegions);
}

/** The outlines of the regions of a figure, as shapes.
 * @param {Picture | Plane} figure @returns {any[]} */
function outlines(figure) {
  const from = (/** @type {number} */ end) => figure.kind === "plane" ? end : (end - 0.5) * (figure.micrometres || 1);
  return over.regions[figure.kind].map((corners, at) => ({ type: "path", line: { color: figure.kind === "plane" ? PAINTS[at % PAINTS.length] : REGION, width: 2 }, path: `M${corners.map(([x, y]) => `${from(x)},${from(y)}`).join("L")}Z` }));
}

/** A decay and its residuals have one zoom of their delays, the pictures of a scan one of both axes.
 * @param {any} figure @param {HTMLElement} plot @param {any} event */
function linked(figure, plot, event) {
  for (const [other] of drawn) {
    const axes = other !== plot && other.isConnected ? shared(plot, other) : [];
    const changes = /** @type {Record<string, any>} */ ({}), there = /** @type {any} */ (other).layout;
    for (const name of axes) {
      const range = event[`${name}.range[0]`] === undefined ? null : [event[`${name}.range[0]`], event[`${name}.range[1]`]], now = there?.[name]?.range;
      if (range && !(now && now[0] === range[0] && now[1] === range[1])) changes[`${name}.range`] = range;
      else if (event[`${name}.autorange`] && !there?.[name]?.autorange) changes[`${name}.autorange`] = name === "yaxis" ? "reversed" : true;
    }
    if (Object.keys(changes).length) Plotly.relayout(other, changes);
  }
}

/** The axes that two plots share.
 * @param {HTMLElement} one @param {HTMLElement} other @returns {string[]} */
function shared(one, other) {
  if (one.dataset.picture) return one.dataset.picture === other.dataset.picture ? ["xaxis", "yaxis"] : [];
  const stem = (/** @type {HTMLElement} */ plot) => plot.id.replace(/(-rest)?-plot$/, "");
  return !other.dataset.picture && stem(one) === stem(other) ? ["xaxis"] : [];
}

/** @param {KeyboardEvent} event @param {HTMLElement} plot @param {any} shape @param {HTMLElement} said */
function walk(event, plot, shape, said) {
  const steps = /** @type {Record<string, number>} */ ({ ArrowRight: 1, ArrowLeft: -1, ArrowDown: shape.step, ArrowUp: -shape.step, PageDown: shape.step, PageUp: -shape.step });
  const before = Number(plot.dataset.at ?? -1), was = Number(plot.dataset.curve ?? 0), many = shape.counts.length, turn = many > 1 ? { PageDown: 1, PageUp: many - 1 }[event.key] : undefined;
  const curve = turn ? (was + turn) % many : was, last = shape.counts[curve] - 1;
  let at = before;
  if (turn) at = shape.near(was, Math.max(0, before), curve);
  else if (event.key === "Home") at = 0;
  else if (event.key === "End") at = last;
  else if (event.key in steps) at = before < 0 ? 0 : Math.min(last, Math.max(0, before + steps[event.key]));
  else return;
  event.preventDefault();
  Object.assign(plot.dataset, { at: String(at), curve: String(curve) });
  const point = shape.columns ? [Math.floor(at / shape.columns), at % shape.columns] : at;
  said.ariaLive = "polite"; // but "off" for what the pointer hovers over, which changes all the time
  said.textContent = shape.told(curve, point);
  Plotly.Fx.unhover(plot); // and so without waiting, as Plotly would between two hovers
  Plotly.Fx.hover(plot, [{ curveNumber: curve, pointNumber: point }], `x${/** @type {any} */ (plot).data[curve].yaxis ?? "y"}`);
}

/** @param {HTMLElement} controls @param {string} words @param {boolean} checked */
function box(controls, words, checked) {
  const input = /** @type {HTMLInputElement} */ (make("input", { type: "checkbox" }));
  input.checked = checked;
  controls.append(make("label", {}, input, " " + words));
  return input;
}

/** @param {Curves} figure @param {HTMLElement} controls */
function curves(figure, controls) {
  const log = figure.names ? null : box(controls, figure.log === null ? "logarithmic values" : "logarithmic counts", Boolean(figure.log));
  const xlog = figure.names ? null : box(controls, `logarithmic ${figure.xlabel.replace(/ \(.*/, "")}`, figure.xlog);
  const all = figure.start === null ? null : box(controls, "all delays", false);
  const first = figure.curves[0] || { x: [], y: [], errors: null }, lines = figure.curves.filter((one) => one.shape !== "marks" && !one.right), markers = figure.curves.filter((one) => !lines.includes(one));
  /** @param {Curve} one @param {number} at */
  const words = (one, at) => one.shape === "marks" ? `${one.label}: ${measured(one.x[at], figure.xunit)}` : `${figure.curves.length > 1 ? one.label + ", " : ""}${figure.names ? figure.names[at] : measured(one.x[at], figure.xunit)}: ${one.right ? `${short(one.y[at])} ${figure.right}` : measured(one.y[at], figure.yunit)}` +
    (one.errors && one.errors[at] !== null ? ` \u00b1 ${Number(Number(one.errors[at]).toPrecision(2))}` : "");
  return {
    counts: figure.curves.length ? figure.curves.map((one) => one.x.length) : [0], step: Math.max(1, Math.round(first.x.length / 20)), columns: 0,
    /** The point of a curve that comes next at the place of another one's.
     * @param {number} from @param {number} at @param {number} to */
    near(from, at, to) {
      const place = figure.curves[from].x[at], found = figure.curves[to].x.findIndex((x) => x >= place);
      return found < 0 ? figure.curves[to].x.length - 1 : found;
    },
    /** @param {number} curve @param {any} at */
    told: (curve, at) => words(figure.curves[curve], at),
    table() {
      const step = Math.ceil(first.x.length / ROWS) || 1;
      const columns = lines.map((one) => ({ label: one.label, cells: first.x.flatMap((x, at) => at % step ? [] : [valueAt(one, x)]) })).filter((one) => one.cells.some((cell) => cell));
      const rows = first.x.flatMap((x, at) => at % step ? [] : [[figure.names ? figure.names[at] : short(x), ...columns.map((one) => one.cells[at / step])]]);
      return make("div", {}, table(`${figure.title}: ${every(step)}`, [figure.xlabel, ...columns.map((one) => one.label)], rows), ...markers.map((one) => ofMarkers(figure, one)));
    },
    draw() {
      const logarithmic = Boolean(log?.checked), across = Boolean(xlog?.checked), look = /** @type {any} */ (layout());
      const traces = figure.curves.map((one, at) => ({
        type: figure.names ? "bar" : "scatter", name: plain(one.label), x: figure.names ? figure.names.map(plain) : one.x, text: one.y.map((_, place) => plain(words(one, place))),
        y: logarithmic ? one.y.map((y) => (y !== null && y > 0 ? y : null)) : one.y, hovertemplate: "%{text}<extra></extra>", textposition: figure.names ? "none" : undefined,
        mode: dots(one) ? "markers" : one.errors ? "lines+markers" : "lines", yaxis: one.shape === "marks" ? "y2" : one.right ? "y3" : "y",
        marker: one.shape === "marks" ? { color: colour(`curve-${at % 6}`), size: 10, symbol: "line-ns", line: { color: colour(`curve-${at % 6}`), width: 1 } } : { color: colour(`curve-${at % 6}`), size: 5 },
        unselected: one.shape === "marks" ? { marker: { opacity: 1 } } : undefined,
        line: { color: colour(`curve-${at % 6}`), width: 1.6, shape: dots(one) ? "linear" : one.shape },
        error_y: one.errors ? { type: "data", array: one.errors, color: colour("faint"), thickness: 1, width: 0 } : undefined,
      }));
      look.showlegend = traces.length > 1;
      look.xaxis = axis(figure.xlabel, across);
      if (figure.names) look.xaxis.type = "category";
      look.yaxis = axis(figure.ylabel, logarithmic);
      labelled(look.xaxis, figure.curves.flatMap((one) => one.x));
      labelled(look.yaxis, lines.flatMap((one) => one.y));
      below(look, figure.curves.filter((one) => one.shape === "marks"));
      if (figure.right) look.yaxis3 = { ...axis(figure.right, logarithmic), overlaying: "y", side: "right", showgrid: false, rangemode: "tozero", uirevision: look.yaxis.type };
      for (const each of [look.xaxis, look.yaxis]) each.uirevision = `${each.type} ${Boolean(all?.checked)}`;
      if (figure.start !== null && !all?.checked && first.x.length) {
        const ends = [figure.start, first.x[first.x.length - 1]], start = figure.start;
        const seen = figure.curves.flatMap((one) => one.y.filter((y, at) => y !== null && one.x[at] >= start)), least = Math.min(figure.level ?? 0, ...seen.map(Number));
        const most = Math.max(figure.level ?? 0, ...seen.map(Number));
        look.xaxis.range = across ? ends.map(Math.log10) : ends;
        if (!logarithmic) look.yaxis.range = [least - 0.05 * (most - least), most + 0.08 * (most - least)];
      }
      look.shapes = bands(figure);
      if (figure.level !== null && !(logarithmic && figure.level <= 0)) look.shapes.push({ type: "line", xref: "paper", x0: 0, x1: 1, y0: figure.level, y1: figure.level, line: { color: colour("faint"), width: 1, dash: "dot" } });
      return [traces, look];
    },
  };
}

const every = (/** @type {number} */ step) => `every ${step === 1 ? "value" : `${step}th value`}`;

/** The table of a marker bit: its times, or how often it comes when.
 * @param {Curves} figure @param {Curve} one */
function ofMarkers(figure, one) {
  const step = Math.ceil(one.x.length / ROWS) || 1, heads = [figure.xlabel, ...(one.right ? [String(figure.right)] : [])];
  return table(`${one.label}: ${every(step)}`, heads, one.x.flatMap((x, at) => at % step ? [] : [[short(x), ...(one.right ? [short(one.y[at])] : [])]]));
}

/** Whether a curve is drawn as points or ticks, without lines between them.
 * @param {Curve} one */
const dots = (one) => ["points", "marks"].includes(one.shape);

/** Leaves room below a plot for the ticks of markers, a row for each bit.
 * @param {any} look @param {Curve[]} marks */
function below(look, marks) {
  if (!marks.length) return;
  const bits = marks.map((one) => Number(one.y[0])), height = 0.05 * marks.length;
  look.yaxis.domain = [height + 0.02, 1];
  look.yaxis2 = { domain: [0, height], range: [Math.max(...bits) + 0.5, Math.min(...bits) - 0.5], fixedrange: true, visible: false };
  look.xaxis.anchor = "free";
  look.xaxis.position = 0;
}

/** The value of a curve at a place: on a line between two of its points too, and nothing beyond its ends.
 * @param {Curve} one @param {number} x */
function valueAt(one, x) {
  const near = 1e-8 * Math.abs(x), at = one.x.findIndex((other) => other >= x - near);
  if (at < 0) return "";
  if (one.x[at] <= x + near) return short(one.y[at]);
  const [y, before] = [one.y[at], one.y[at - 1] ?? null];
  return one.shape !== "linear" || y === null || before === null ? "" : short(before + (y - before) * (x - one.x[at - 1]) / (one.x[at] - one.x[at - 1]));
}

/** What was chosen by dragging, as bands over a figure.
 * @param {Curves} figure @returns {any[]} */
function bands(figure) {
  const tick = figure.tick || 1, last = Math.max(0, ...figure.curves.map((one) => one.x[one.x.length - 1] || 0)) / tick;
  const those = figure.drag === "gate" ? over.gates : figure.drag === "time" && over.time ? [[over.time[0], over.time[1] || last]] : [];
  return those.map((ends) => ends.map((end) => end * tick)).map(([x0, x1]) => ({ type: "rect", yref: "paper", y0: 0, y1: 1, x0, x1, fillcolor: colour("accent"), opacity: 0.18, line: { width: 0 } }));
}

/** @param {{kind: string, base64: string}} packed */
function unpacked(packed) {
  const bytes = Uint8Array.from(atob(packed.base64), (letter) => letter.charCodeAt(0));
  const kinds = /** @type {Record<string, any>} */ ({ u1: Uint8Array, u2: Uint16Array, u4: Uint32Array, f4: Float32Array, f8: Float64Array });
  return new kinds[packed.kind](bytes.buffer);
}

/** @param {Picture} figure @param {HTMLElement} controls @param {string} id */
function picture(figure, controls, id) {
  const photons = unpacked(figure.photons), values = figure.values ? unpacked(figure.values) : photons, { rows, columns } = figure;
  const slider = /** @type {HTMLInputElement} */ (make("input", { type: "range", id: `${id}-threshold`, min: "0", max: figure.most, value: figure.threshold }));
  const bound = make("output", { for: `${id}-threshold`, "aria-live": "off", text: short(figure.threshold) });
  controls.append(make("label", { for: `${id}-threshold`, text: "pixels with at least" }), slider, make("span", {}, bound, " photons"));
  slider.addEventListener("input", () => { bound.textContent = short(Number(slider.value)); });
  /** @param {any} point */
  const told = ([y, x]) => {
    const at = y * columns + x, [across, down] = [x, y].map((place) => figure.micrometres ? ` (${short(place * figure.block * figure.micrometres)} \u00b5m)` : "");
    const place = figure.block === 1 ? `column ${x}${across}, row ${y}${down}` : `columns from ${x * figure.block}${across}, rows from ${y * figure.block}${down}`;
    if (values === photons) return `${place}: ${short(photons[at])} photons`;
    return `${place}: ${Number.isNaN(values[at]) ? "no mean" : `${Number(values[at].toPrecision(4))} ${figure.unit}`} of ${short(photons[at])} photons`;
  };
  const lines = () => Array.from({ length: rows }, (_, y) => y), places = () => Array.from({ length: columns }, (_, x) => x);
  const words = lines().map((y) => places().map((x) => plain(told([y, x]))));
  return {
    counts: [rows * columns], step: columns, columns,
    /** @param {number} _ @param {any} point */
    told: (_, point) => told(point),
    table() {
      const step = Math.ceil(rows / ROWS);
      return table(`${figure.title}: photons of ${step === 1 ? "each row" : `every ${step}th row`}`, ["row", "photons"],
        lines().filter((y) => y % step === 0).map((y) => [String(y * figure.block), short(places().reduce((sum, x) => sum + Number(photons[y * columns + x]), 0))]));
    },
    draw() {
      const least = Number(slider.value), look = /** @type {any} */ (layout()), pixel = figure.micrometres || 1;
      const cells = lines().map((y) => places().map((x) => { const at = y * columns + x; return photons[at] < least || Number.isNaN(values[at]) ? null : values[at]; }));
      const [across, down] = figure.micrometres ? ["x (\u00b5m)", "y (\u00b5m)"] : ["column (pixels)", "row (pixels)"];
      look.xaxis = Object.assign(axis(across, false), { constrain: "domain", showgrid: false, zeroline: false });
      look.yaxis = Object.assign(axis(down, false), { autorange: "reversed", scaleanchor: "x", constrain: "domain", showgrid: false, zeroline: false });
      look.shapes = outlines(figure);
      const where = { type: "heatmap", x0: pixel * (figure.block - 1) / 2, dx: pixel * figure.block, y0: pixel * (figure.block - 1) / 2, dy: pixel * figure.block };
      const paint = over.paint?.length === rows * columns && over.paint.some(Boolean) ? [{ ...where, opacity: 0.6, showscale: false, hoverinfo: "skip", zmin: 0, zmax: PAINTS.length,
        z: lines().map((y) => places().map((x) => { const region = over.paint[y * columns + x]; return region ? (region - 1) % PAINTS.length + 0.5 : null; })),
        colorscale: PAINTS.flatMap((one, at) => [[at / PAINTS.length, one], [(at + 1) / PAINTS.length, one]]) }] : [];
      return [[{ ...where, z: cells, text: words, hovertemplate: "%{text}<extra></extra>", colorscale: figure.colours, zmin: figure.zmin, zmax: figure.zmax,
        colorbar: { title: { text: plain(figure.label), side: "right" }, thickness: narrow.matches ? 8 : 14, tickfont: { color: colour("ink") } } }, ...paint], look];
    },
  };
}

/** The plane of phasors with the semicircle of single lifetimes.
 * @param {Plane} figure */
function plane(figure) {
  const counts = unpacked(figure.counts), { rows, columns, cells } = figure, circle = Array.from({ length: 181 }, (_, at) => at * Math.PI / 180);
  const middle = (/** @type {number} */ first, /** @type {number} */ at) => Number(((first + at + 0.5) / cells).toFixed(4));
  /** @param {any} point */
  const told = ([y, x]) => `g ${middle(figure.left, x)}, s ${middle(figure.low, y)}: ${short(counts[y * columns + x])} pixels`;
  const z = Array.from({ length: rows }, (_, y) => Array.from({ length: columns }, (_, x) => counts[y * columns + x] || null));
  return {
    counts: [rows * columns], step: columns, columns,
    /** @param {number} _ @param {any} point */
    told: (_, point) => told(point),
    table: () => table(`${figure.title}: pixels in steps of 0.01 of g`, ["g", "pixels"],
      Array.from({ length: columns }, (_, x) => [String(middle(figure.left, x)), z.reduce((sum, row) => sum + Number(row[x]), 0)]).filter(([, many]) => many).map(([g, many]) => [String(g), short(Number(many))])),
    draw() {
      const look = /** @type {any} */ (layout());
      look.xaxis = Object.assign(axis("g", false), { constrain: "domain" });
      look.yaxis = Object.assign(axis("s", false), { scaleanchor: "x", constrain: "domain" });
      look.shapes = outlines(figure);
      const text = z.map((row, y) => row.map((_, x) => plain(told([y, x])))), ends = { x0: middle(figure.left, 0), dx: 1 / cells, y0: middle(figure.low, 0), dy: 1 / cells };
      const line = { x: circle.map((angle) => 0.5 + 0.5 * Math.cos(angle)), y: circle.map((angle) => 0.5 * Math.sin(angle)), mode: "lines", line: { color: colour("faint"), width: 1 } };
      const marks = { x: figure.marks.map((one) => one.g), y: figure.marks.map((one) => one.s), text: figure.marks.map((one) => plain(one.label)), mode: "markers+text", textposition: figure.marks.map((one) => one.g > 0.5 ? "middle right" : "top left"), cliponaxis: false, marker: { color: colour("faint"), size: 6 } };
      return [[{ type: "heatmap", z, text, hovertemplate: "%{text}<extra></extra>", ...ends, colorscale: "Viridis", colorbar: { title: { text: "pixels", side: "right" }, thickness: narrow.matches ? 8 : 14, tickfont: { color: colour("ink") } } },
        ...[line, marks].map((one) => ({ type: "scatter", hoverinfo: "skip", ...one }))], look];
    },
  };
}

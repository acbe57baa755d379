// @ts-check
// What is taken along of a result: its files, more of them for other programs, a session; and the regions of its image.
import { byId, make, renew, say, short, table, trouble } from "./dom.js";
import { alone } from "./files.js";
import { draw } from "./plots.js";
import { ask, bar, beside, work } from "./server.js";
import { did } from "./undo.js";

/** @typedef {{begun: string, figures: any[], numbers: string, script: string, files: string[], fit?: Parameter[], table?: {heads: string[], rows: string[][]}}} Result */
/** @typedef {{name: string, value: number, factor: number, unit: string, held: boolean}} Parameter */
const OTHERS = [["page", "A page of the result", "figures"], ["images", "The image as OME-TIFF", "image"], ["photons", "The photons as Photon-HDF5", ""]];
let leaving = new AbortController();
/** Ends the exports of the result that was shown, which has gone with their buttons. */
const leave = () => { leaving.abort(); leaving = new AbortController(); };
const words = (/** @type {unknown} */ error) => error instanceof Error ? error.message : String(error);

/** @typedef {{regions: number[][][], phasors: number[][][], threshold?: number, thresholds: Record<string, number>}} View how a result is looked at */
/** @typedef {import("./plots.js").Regions} Regions */
/** What a session keeps of it, of the result that is shown.
 * @type {() => View} */
let view = () => ({ regions: [], phasors: [], thresholds: thresholds() });
/** The least photons that are drawn in each picture.
 * @returns {Record<string, number>} */
const thresholds = () => Object.fromEntries([.../** @type {NodeListOf<HTMLInputElement>} */ (document.querySelectorAll("#result input[type=range]"))].map((one) => [one.id.replace(/^figure-|-threshold$/g, ""), Number(one.value)]));

/** @type {{told: Result, asked: any} | null} the result that is shown */
let now = null;
/** The result that is shown, and how it is looked at. */
export const shown = () => now && { told: now.told, asked: { ...now.asked, view: view() } };
/** Puts regions into the result that is shown, which can be taken back.
 * @type {(others: Regions, words: string, focus?: string) => void} */
let put = () => {};

/** Shows no result. */
export function hide() {
  leave();
  now = null;
  byId("result").hidden = true;
}

/** Shows a result; that another one takes the place of it can be taken back.
 * @param {Result} told @param {any} asked what was asked, of a session or of what comes back with its `view` */
export function show(told, asked) {
  const /** @type {View | undefined} */ before = asked.view, was = shown();
  if (was) did("There is another result.", () => {
    show(was.told, was.asked);
    document.dispatchEvent(new CustomEvent("refitted", { detail: { ...was.asked.settings, second: was.asked.second || null } }));
  });
  leave();
  now = { told, asked };
  view = () => ({ regions: [], phasors: [], thresholds: thresholds() });
  byId("result").hidden = false;
  document.dispatchEvent(new CustomEvent("regions", { detail: { picture: [], plane: [] } }));
  document.dispatchEvent(new CustomEvent("painted", { detail: null }));
  const links = make("ul", { id: "result-files" });
  const list = (/** @type {string[]} */ names) => links.replaceChildren(...names.map((name) => make("li", {}, make("a", { href: `/result/${told.begun}/${name}`, download: name, text: name }))));
  list(told.files);
  const has = { figures: told.figures.length > 0, image: told.figures.some((one) => one.kind === "picture"), "": !told.table };
  const others = OTHERS.filter(([, , wanted]) => has[/** @type {keyof typeof has} */ (wanted)]).map(([kind, text]) => {
    const button = make("button", { type: "button", "data-kind": kind, text, on: { click: async () => {
      trouble("");
      await beside(button, text, leaving.signal, async (heard, signal) => {
        try {
          list((await alone(() => work(kind, { result: told.begun }, heard, signal))).files);
        } catch (error) {
          if (!signal.aborted) trouble(words(error));
        }
      });
    } } });
    return button;
  });
  const rows = told.table ? [table("Results of the files", told.table.heads, told.table.rows)] : [];
  const figures = told.figures.map((one) => draw(one.kind === "picture" ? { ...one, threshold: before?.thresholds[one.name] ?? one.threshold } : one, asked.analysis));
  byId("result-told").replaceChildren(
    ...rows, make("h3", { text: "Numbers" }), make("pre", { id: "numbers", tabindex: "0", role: "region", "aria-label": "Numbers", text: told.numbers }), ...(told.fit?.length && !told.table ? [fitted(told.fit, asked.settings.fit || {})] : []), ...figures, ...(has.image && asked.analysis === "image" && !told.table ? [regions(told, list, before)] : []),
    make("h3", { text: "Take it along" }), links, make("p", { class: "controls" }, ...others), keep(told, asked),
    make("details", {}, make("summary", { text: "The Python script that does the same" }), make("pre", { id: "script", tabindex: "0", role: "region", "aria-label": "The script", text: told.script })));
  byId("result-title").focus();
}

/** The parameters of a fit, each to be held or begun at a number; what isn't touched stays free.
 * @param {Parameter[]} parameters @param {Record<string, [number, boolean]>} steering what the fit was told */
function fitted(parameters, steering) {
  const rows = parameters.map((one) => {
    const told = steering[one.name], words = `${one.name}${one.unit ? ` (${one.unit})` : ""}`;
    const value = /** @type {HTMLInputElement} */ (make("input", { type: "number", step: "any", value: told ? Number((told[0] * one.factor).toPrecision(6)) : one.value, id: `fit-${one.name}` }));
    const held = /** @type {HTMLInputElement} */ (make("input", { type: "checkbox", id: `hold-${one.name}` })), was = value.value;
    held.checked = one.held;
    const begun = () => value.value !== was || held.checked || one.held || told ? [[one.name, [Number(value.value) / one.factor, held.checked]]] : [];
    return { begun, row: make("p", {}, make("label", { for: value.id, text: `${words} ` }), value, make("label", {}, " ", held, ` hold ${one.name}`)) };
  });
  const again = (/** @type {object} */ detail) => document.dispatchEvent(new CustomEvent("steered", { detail }));
  const go = make("button", { type: "button", id: "fit-again", text: "Fit again", on: { click: () => again(Object.fromEntries(rows.flatMap((one) => one.begun()))) } });
  const free = make("button", { type: "button", id: "fit-free", text: "Let all go free", disabled: !Object.keys(steering).length, on: { click: () => again({}) } });
  return make("details", { id: "fit", open: Object.keys(steering).length > 0 }, make("summary", { text: "Hold parameters of the fit, or begin it elsewhere" }),
    make("p", { class: "faint", text: "A number that is changed is where the fit begins; one that is held stays. All others are found by the fit." }), ...rows.map((one) => one.row), make("p", { class: "controls" }, go, free));
}

/** A form that keeps a result as a session.
 * @param {Result} told @param {any} asked */
function keep(told, asked) {
  const stem = asked.file.replace(/^.*\//, "").replace(/\.ptu$/i, "").replace(/[^\w .()+-]/g, "_");
  const name = /** @type {HTMLInputElement} */ (make("input", { type: "text", id: "session-name", maxlength: "80", value: `${stem} ${asked.analysis}` }));
  const said = make("p", { role: "status", id: "session-said" });
  const button = make("button", { type: "button", id: "keep", text: "Keep it as a session", on: { click: async () => {
    try {
      said.textContent = `It is in ${(await ask("keep", { result: told.begun, name: name.value, view: view() })).folder}.`;
      document.dispatchEvent(new Event("kept"));
    } catch (error) {
      said.textContent = words(error);
    }
  } } });
  return make("div", {}, make("p", {}, make("label", { for: "session-name", text: "Name of the session " }), name, " ", button), said);
}

/** Regions of the image and of its phasors, drawn with the pointer or given by numbers; their decays and fits appear at once.
 * @param {Result} told @param {(names: string[]) => void} list @param {View} [before] what is there at once */
function regions(told, list, before) {
  const picture = told.figures.find((one) => one.kind === "picture"), plane = told.figures.find((one) => one.kind === "plane");
  /** @type {Regions} */
  let those = { picture: [], plane: [] };
  /** @type {AbortController | null} */
  let asking = null;
  leaving.signal.addEventListener("abort", () => asking?.abort());
  const said = make("p", { role: "status", id: "regions-said" }), place = make("div", { id: "regions-progress" }), results = make("div", { id: "regions-shown" }), buttons = make("p", { class: "controls", id: "regions-list" });
  const least = /** @type {HTMLInputElement} */ (make("input", { type: "number", id: "region-threshold", min: "0", step: "1", max: picture.most, value: before?.threshold ?? picture.threshold, on: { change: () => ask() } }));
  document.addEventListener("change", (heard) => { // of a slider of one of the pictures
    const slider = /** @type {HTMLInputElement} */ (heard.target);
    if (!said.isConnected || !/^figure-.*-threshold$/.test(slider.id)) return;
    least.value = slider.value;
    ask();
  });
  const ask = async () => {
    asking?.abort();
    const mine = asking = new AbortController(), many = those.picture.length + those.plane.length, threshold = Number(least.value);
    results.replaceChildren();
    say(said, many ? "Adds up the pixels .." : "No regions.");
    if (!many) return paint(null);
    const progress = bar(place, "Progress of the sum of the pixels");
    try {
      const found = await alone(() => work("region", { result: told.begun, regions: those.picture, phasors: those.plane, threshold }, progress.heard, mine.signal));
      if (mine.signal.aborted) return;
      say(said, `${short(many)} ${many === 1 ? "region" : "regions"}, of pixels with at least ${short(threshold)} photons`);
      results.replaceChildren(make("pre", { id: "region-numbers", tabindex: "0", role: "region", "aria-label": "Numbers of the regions", text: found.numbers }), ...found.figures.map((/** @type {any} */ one) => draw(one)));
      list(found.files);
      paint(found.paint);
    } catch (error) {
      if (!mine.signal.aborted) say(said, words(error));
    } finally {
      progress.end();
    }
  };
  const paint = (/** @type {object | null} */ detail) => { document.dispatchEvent(new CustomEvent("painted", { detail })); };
  const bring = (/** @type {Regions} */ others, focus = "") => {
    those = others;
    document.dispatchEvent(new CustomEvent("regions", { detail: { ...others } }));
    renew(buttons, removals(those, put), focus);
    ask();
  };
  put = (others, words, focus) => {
    const was = those;
    did(words, () => put(was, words));
    bring(others, focus);
  };
  document.addEventListener("drawn", (heard) => { if (said.isConnected) put({ .../** @type {CustomEvent} */ (heard).detail }, "A region was drawn."); });
  view = () => ({ regions: those.picture, phasors: those.plane, threshold: Number(least.value), thresholds: thresholds() });
  if (before?.regions.length || before?.phasors.length) queueMicrotask(() => bring({ picture: before.regions, plane: before.phasors }));
  const complain = (/** @type {string} */ text) => say(said, text);
  const of_phasors = !plane ? [] : [rectangle("phasor-region", ["g", "s"], [[plane.left, plane.left + plane.columns], [plane.low, plane.low + plane.rows]].map((ends) => ends.map((end) => end / plane.cells)),
    (corners) => put({ ...those, plane: [...those.plane, corners] }, "A region of phasors was added."), complain)]; // an older session has none
  return make("section", { "aria-labelledby": "regions-title", class: "plain" }, make("h3", { id: "regions-title", text: "Regions of the image and of its phasors" }),
    make("p", { text: "Choose that dragging draws a region, above an image or the phasors, and draw one; or give a rectangle by numbers. The decay of its pixels and a fit appear here, and the pixels of a region of phasors are painted in the images." }),
    make("p", {}, make("label", { for: least.id, text: "Only pixels with at least so many photons: " }), least),
    of_image(picture, (corners) => put({ ...those, picture: [...those.picture, corners] }, "A region was added."), complain), ...of_phasors, buttons, said, place, results);
}

/** A rectangle of an image: in micrometres, as its axes are, where the size of its pixels is known.
 * @param {any} picture @param {(corners: number[][]) => void} add @param {(words: string) => void} complain */
function of_image(picture, add, complain) {
  const sides = [picture.columns, picture.rows].map((many) => many * picture.block), { micrometres } = picture;
  if (!micrometres) return rectangle("region", ["columns", "rows"], sides.map((side) => [0, side]), add, complain);
  const ends = sides.map((side) => [0, side].map((pixel) => Number(((pixel - 0.5) * micrometres).toPrecision(6)))); // the middle of the first pixel is at 0
  return rectangle("region", ["x", "y"], ends, (corners) => add(corners.map((corner) => corner.map((end) => Number((end / micrometres + 0.5).toFixed(3))))), complain, "µm");
}

/** Buttons that take regions away, each one and all.
 * @param {Regions} those @param {(fewer: Regions, words: string, focus: string) => void} take */
function removals(those, take) {
  const all = [...those.picture.map((one) => ({ one, of: "region" })), ...those.plane.map((one) => ({ one, of: "phasor region" }))];
  const buttons = all.map(({ one, of }, at) => {
    const number = 1 + (of === "region" ? those.picture : those.plane).indexOf(one), fewer = { picture: those.picture.filter((other) => other !== one), plane: those.plane.filter((other) => other !== one) };
    const next = all.length > 1 ? `remove-region-${Math.min(at + 1, all.length - 1)}` : "region-threshold";
    return make("button", { type: "button", id: `remove-region-${at + 1}`, text: `Remove ${of} ${number}`, on: { click: () => take(fewer, `${of === "region" ? "Region" : "Phasor region"} ${number} was removed.`, next) } });
  });
  const none = make("button", { type: "button", id: "remove-regions", text: "Remove all regions", on: { click: () => take({ picture: [], plane: [] }, "All regions were removed.", "region-threshold") } });
  return all.length > 1 ? [...buttons, none] : buttons;
}

/** Four numbers that are a rectangle, and a button that adds it.
 * @param {string} name @param {string[]} sides @param {number[][]} ends
 * @param {(corners: number[][]) => void} add @param {(words: string) => void} complain @param {string} [unit] */
function rectangle(name, sides, ends, add, complain, unit = "") {
  const inputs = sides.flatMap((side, at) => ["from", "to"].map((word, end) => /** @type {HTMLInputElement} */ (make("input", {
    type: "number", step: "any", min: ends[at][0], max: ends[at][1], value: ends[at][end], "aria-label": `${side} ${word}${unit && ` (${unit})`}` }))));
  const button = make("button", { type: "button", id: `add-${name}`, text: "Add this rectangle", "aria-label": `Add this rectangle of ${sides.join(" and ")}`, on: { click: () => {
    const [left, right, top, bottom] = inputs.map((input) => Number(input.value));
    if (!(left < right && top < bottom)) return complain("A rectangle goes from less to more.");
    add([[left, top], [right, top], [right, bottom], [left, bottom]]);
  } } });
  return make("p", { class: "controls" }, ...inputs.map((input) => make("label", {}, `${input.getAttribute("aria-label")} `, input)), button);
}

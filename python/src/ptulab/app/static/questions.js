// @ts-check
// What can be asked of a file: the questions, the settings of one, its run and its result.
import { byId, make, say, teller, trouble } from "./dom.js";
import { alone, files } from "./files.js";
import * as plans from "./plan.js";
import { measured } from "./plots.js";
import { bar, beside, work } from "./server.js";
import { hide, show, shown } from "./take.js";
import { asTime, scaleOf } from "./times.js";
import { did, some } from "./undo.js";

/** @type {{file: string, inputs: number[], mode: string, asked: any, settings: HTMLInputElement[], second: HTMLSelectElement | null, run: AbortController | null,
 *   fit: Record<string, [number, boolean]>, scale: import("./times.js").Scale, begun: string}} `fit`: where parameters of a fit begin, and whether they are held
 *   there; `begun`: the question as it was opened */
const now = { file: "", inputs: [], mode: "", asked: null, settings: [], second: null, run: null, fit: {}, scale: scaleOf({}), begun: "" };
/** @type {Map<string, [number, number]>} windows of time that were chosen on a trace, by the files */
const windows = new Map();
let leaving = new AbortController(); // ends the check of a plan that is left
const button = (/** @type {string} */ id) => /** @type {HTMLButtonElement} */ (byId(id));

/** Shows what can be asked of a file.
 * @param {string} file @param {any} told what its first look tells */
export function questions(file, told) {
  Object.assign(now, { file, inputs: told.info.inputs.map((/** @type {any} */ one) => one.number), mode: told.info.mode, settings: [], scale: scaleOf(told.info) });
  windowed(file, windows.get(file) || null);
  byId("questions").hidden = false;
  list(told.questions);
}

/** @param {any[]} told */
function list(told) {
  byId("questions-list").replaceChildren(...told.map((one) => make("li", {},
    make("button", { type: "button", "data-name": one.name, disabled: Boolean(one.reason), "aria-pressed": "false", on: { click: () => { leave(`${one.title} was opened.`); open(one).catch((error) => trouble(error.message)); } } },
      make("strong", { text: one.title }), make("span", { class: "faint", text: one.reason ? `Not of this file: ${one.reason}.` : one.means + (one.python ? " Counted by Python." : "") })))));
}

/** What is asked now, as a session tells it, and the result that is shown: what comes back when leaving it is undone. */
function state() {
  if (!now.asked) return { file: now.file };
  return { file: now.file, analysis: now.asked.name, settings: settings(), second: now.second?.value || null, files: boxes().filter((box) => box.checked).map((box) => box.value), plan: plans.plan(), shown: shown() };
}

/** What is asked is left for something else, which can be taken back where something is lost.
 * @param {string} words what was done */
export function leave(words) {
  const was = state(), { shown: told, ...asked } = was;
  if (was.file && (some() || told || now.asked && JSON.stringify(asked) !== now.begun)) did(words, () => { document.dispatchEvent(new CustomEvent("back", { detail: { was, words } })); });
  leaving.abort();
  leaving = new AbortController();
  hide();
  now.asked = null;
  byId("ask").hidden = true;
}

/** Opens a question with its plan and settings.
 * @param {any} one @param {any} [kept] those of a session */
export async function open(one, kept = null) {
  now.asked = one;
  now.fit = kept?.settings?.fit || {};
  for (const each of document.querySelectorAll("#questions-list button")) each.setAttribute("aria-pressed", String(each.getAttribute("data-name") === one.name));
  byId("ask").hidden = false;
  hide();
  byId("ask-title").textContent = one.title;
  byId("ask-means").textContent = one.means + (one.python ? " This is counted by Python, which is tested; not by the proved program." : "");
  const [from_seconds, to_seconds] = windows.get(now.file) || [0, 0], values = { from_seconds, to_seconds, ...kept?.settings };
  now.settings = one.settings.map((/** @type {any} */ each) => /** @type {HTMLInputElement} */ (make("input", {
    type: "number", id: `setting-${each.key}`, "data-key": each.key, min: each.least, max: each.most, step: each.whole ? "1" : "any", value: values[each.key] ?? each.value, required: true })));
  const fields = now.settings.map((input, at) => make("p", {}, make("label", { for: input.id, text: one.settings[at].label }), input, ...lasting(input, one.settings[at])));
  now.second = one.second ? second(one.second, kept?.second) : null;
  const before = now.settings.findIndex((input) => input.dataset.key === "reference"); // what is told of the other file stands behind it
  if (now.second) fields.splice(before < 0 ? fields.length : before, 0, make("p", {}, make("label", { for: "second", text: one.second.label }), now.second));
  byId("settings").replaceChildren(...fields);
  if (kept) windowed(now.file, values.from_seconds || values.to_seconds ? [values.from_seconds, values.to_seconds] : null);
  byId("run-said").textContent = "";
  others(kept?.files || []);
  const following = plans.show(kept?.plan || one.plan, now.inputs, now.scale), { shown: _, ...asked } = state();
  now.begun = kept ? "" : JSON.stringify(asked);
  await following;
  byId("ask-title").focus();
}

/** Beside a number of sync periods, how long they last together.
 * @param {HTMLInputElement} input @param {{key: string, unit: string}} one */
function lasting(input, one) {
  if (one.unit !== "sync periods" || !now.scale.time) return [];
  const said = make("span", { class: "faint", id: `${input.id}-lasts` }), tell = () => { said.textContent = `= ${asTime(Number(input.value), now.scale.time, one.unit)}`; };
  input.setAttribute("aria-describedby", said.id);
  input.addEventListener("input", tell);
  tell();
  return [said];
}

/** Another file that a question takes along.
 * @param {{none: string}} told @param {string | undefined} chosen */
function second(told, chosen) {
  const options = [["", told.none], ...files.filter((file) => !file.wrong && file.name !== now.file).map((file) => [file.name, file.name])];
  const select = /** @type {HTMLSelectElement} */ (make("select", { id: "second" }, ...options.map(([value, text]) => make("option", { value, text }))));
  select.value = chosen || "";
  return select;
}

const settings = () => ({ ...Object.fromEntries(now.settings.map((input) => [input.dataset.key, Number(input.value)])), fit: now.fit });

/** The files over which the same can be done.
 * @param {string[]} ticked */
function others(ticked) {
  const type = files.find((file) => file.name === now.file)?.type;
  const same = files.filter((file) => !file.wrong && file.type === type);
  byId("many-list").replaceChildren(...same.map((file) => {
    const box = /** @type {HTMLInputElement} */ (make("input", { type: "checkbox", value: file.name }));
    box.checked = file.name === now.file || ticked.includes(file.name);
    return make("li", {}, make("label", {}, box, ` ${file.name}`));
  }));
  byId("many-said").textContent = `${same.length} of the files are of the type ${type}.`;
}

const boxes = () => /** @type {HTMLInputElement[]} */ ([...document.querySelectorAll("#many-list input")]);
/** Ticks these files alone, which can be undone.
 * @param {string[]} wanted @param {string} words */
function tick(wanted, words) {
  const was = boxes().filter((box) => box.checked).map((box) => box.value);
  if (was.join("/") === wanted.join("/")) return;
  did(words, () => tick(was, words));
  boxes().forEach((box) => { box.checked = wanted.includes(box.value); });
}

/** Runs the question over the file, or over many.
 * @param {"run" | "many"} kind */
async function run(kind) {
  const wrong = now.settings.find((input) => !input.reportValidity());
  if (wrong) return wrong.focus();
  trouble("");
  const chosen = boxes().filter((box) => box.checked).map((box) => box.value);
  if (kind === "many" && !chosen.length) return trouble("Tick at least one file.");
  const mine = now.run = new AbortController(), more = kind === "many" ? { files: chosen } : {};
  const asked = { file: now.file, plan: plans.plan(), analysis: now.asked.name, settings: settings(), second: now.second?.value || null, ...more };
  for (const id of ["run", "run-many"]) button(id).disabled = true;
  const begun = /** @type {HTMLElement} */ (document.activeElement), tell = teller(byId("run-said"));
  button("stop").disabled = false;
  if (begun.matches(":disabled")) button("stop").focus();
  tell("Runs");
  const progress = bar(byId("run-progress"), "Progress of the run");
  try {
    const told = await alone(() => work(kind, asked, (line) => { progress.heard(line); if (line.words) tell(line.words, line.progress); }, mine.signal));
    say(byId("run-said"), "Done.");
    show(told, asked);
  } catch (error) {
    say(byId("run-said"), mine.signal.aborted ? "Stopped." : `It didn't work: ${error instanceof Error ? error.message : error}`);
  } finally {
    const focused = document.activeElement === byId("stop");
    progress.end();
    for (const id of ["run", "run-many"]) button(id).disabled = false;
    button("stop").disabled = true;
    if (focused) button("run").focus();
    now.run = null;
  }
}

/** The window of time of a file, none where all of it is taken: it is said beside the trace, drawn over it, and stands in the settings.
 * @param {string} file @param {[number, number] | null} range */
function windowed(file, range) {
  if (range) windows.set(file, range);
  else windows.delete(file);
  const all = () => { taken(null); byId("undo").focus(); };
  ["from_seconds", "to_seconds"].forEach((key, at) => { const input = now.settings.find((one) => one.dataset.key === key); if (input) input.value = String((range || [0, 0])[at]); });
  byId("look-window").replaceChildren(...(range ? [`What is run next takes only ${span(range)} of this file. `, make("button", { type: "button", id: "take-all", text: "Take all of it", on: { click: all } })] : []));
  document.dispatchEvent(new CustomEvent("window", { detail: range }));
}

/** Another window of time is taken, which can be undone.
 * @param {[number, number] | null} range */
function taken(range) {
  const was = windows.get(now.file) || null;
  did(range ? `Only ${span(range)} of the file is taken.` : "All of the file is taken.", () => taken(was));
  windowed(now.file, range);
}

/** @param {[number, number]} range */
const span = ([from, to]) => to ? `${measured(from, "s")} to ${measured(to, "s")}` : `what is after ${measured(from, "s")}`;

document.addEventListener("chosen", (heard) => {
  const { what, range } = /** @type {CustomEvent} */ (heard).detail;
  if (what === "time") taken(range.map((/** @type {number} */ end) => Number(Math.max(0, end).toPrecision(6))));
});
document.addEventListener("steered", (heard) => {
  now.fit = /** @type {CustomEvent} */ (heard).detail;
  run("run");
});
document.addEventListener("refitted", (heard) => { // of a result that came back, if the model is still that of it
  const { fit, ...others } = /** @type {CustomEvent} */ (heard).detail, chosen = /** @type {Record<string, any>} */ ({ ...settings(), second: now.second?.value || null });
  now.fit = ["terms", "dimensions", "triplet", "second"].every((key) => others[key] === chosen[key]) && fit || {};
});
byId("settings").addEventListener("change", (event) => {
  const key = /** @type {HTMLElement} */ (event.target).dataset.key || "second", { from_seconds, to_seconds } = /** @type {any} */ (settings());
  if (["terms", "dimensions", "triplet", "second"].includes(key)) now.fit = {}; // of another model
  if (["from_seconds", "to_seconds"].includes(key)) taken(from_seconds || to_seconds ? [from_seconds, to_seconds] : null);
});
byId("run-many").addEventListener("click", () => run("many"));
byId("tick-all").addEventListener("click", () => tick(boxes().map((box) => box.value), "All files were ticked."));
byId("tick-none").addEventListener("click", () => tick([], "All ticks were taken away."));
byId("run").addEventListener("click", () => run("run"));
byId("stop").addEventListener("click", () => now.run?.abort());
byId("settings").addEventListener("submit", (event) => { event.preventDefault(); run("run"); });
byId("check").addEventListener("click", () => {
  const left = leaving.signal;
  const only = (/** @type {string} */ words) => plans.say({ findings: [], more: false }, words);
  only("Checks it ..");
  beside(byId("check"), "Check it for this file", left, async (heard, signal) => {
    try {
      plans.say(await alone(() => work("check", { file: now.file, plan: plans.plan() }, heard, signal)), "It is good for this file.");
    } catch (error) {
      if (!left.aborted) only(signal.aborted ? "Stopped." : error instanceof Error ? error.message : String(error));
    }
  });
});
export const stop = () => now.run?.abort();

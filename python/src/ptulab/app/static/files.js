// @ts-check
// The files of the folder, each with what its header says and then with what a look in the background finds.
import { byId, make, short } from "./dom.js";
import { ask, bar, work } from "./server.js";

/** @type {{name: string, bytes: number, changed: string, type: string, wrong: string, odd?: string, records?: number}[]} */
export let files = [];
/** @type {Map<string, any>} what the first looks told, at files as they are listed */
export const looks = new Map();
/** @type {AbortController | null} */
let background = null;
let underWay = ""; // the file that is looked at in the background
let paused = 0, looking = false, stopped = false;

/** Lists the files, and forgets the looks at those that have changed, also those that are under way; gives how many are new or have changed.
 * @param {(name: string) => void} chosen */
export async function list(chosen) {
  const told = await ask("files"), was = new Map(files.map((file) => [file.name, file.changed]));
  files = told.files;
  const others = files.filter((file) => was.get(file.name) !== file.changed), current = document.querySelector("#files [aria-current=true]")?.getAttribute("data-name");
  for (const file of others) looks.delete(file.name);
  if (others.some((file) => file.name === underWay)) background?.abort();
  byId("files-said").textContent = files.length ? `${files.length} files` : "There is no PTU file in this folder.";
  byId("files").replaceChildren(...files.map((file) => {
    const button = make("button", { type: "button", disabled: Boolean(file.wrong), "data-name": file.name, on: { click: () => chosen(file.name) } },
      make("strong", { text: file.name }), make("span", { class: file.wrong ? "wrong" : "faint", text: said(file) }));
    return make("li", {}, button);
  }));
  if (current) mark(current);
  return others.length;
}

/** @param {typeof files[0]} file */
function said(file) {
  if (file.wrong) return file.wrong;
  const size = file.bytes < 1e5 ? `${short(file.bytes)} bytes` : `${Number((file.bytes / 1e6).toPrecision(3))} MB`, seen = looks.get(file.name);
  const found = seen ? `${short(seen.info.seconds)} s, ${short(seen.info.photons)} photons` : `${short(file.records || 0)} records`;
  return [file.type, size, found, file.odd || (seen ? "whole" : "")].filter((some) => some).join(", ");
}

/** Marks the file that is looked at.
 * @param {string} name */
export function mark(name) {
  for (const button of document.querySelectorAll("#files button")) button.setAttribute("aria-current", String(button.getAttribute("data-name") === name));
}

/** Shows what a look found.
 * @param {string} name */
export function found(name) {
  const button = [...document.querySelectorAll("#files button")].find((one) => one.getAttribute("data-name") === name);
  const file = files.find((one) => one.name === name);
  if (button && file && button.lastChild) button.lastChild.textContent = said(file);
}

/** Looks at one file after another, while nothing else is done, until a click stops it. */
export async function lookAround() {
  if (looking || paused || stopped || files.every((file) => file.wrong || looks.has(file.name))) return;
  looking = true;
  const progress = bar(byId("files-progress"), "Progress of the look in the background"), halt = make("button", { type: "button", id: "files-stop", text: "Stop", "aria-label": "Stop looking at files", on: { click: () => {
    stopped = true;
    background?.abort();
    const on = make("button", { type: "button", id: "files-on", text: "Look at the others", on: { click: () => { stopped = false; byId("files-progress").replaceChildren(); lookAround(); } } });
    byId("files-progress").replaceChildren(on);
    on.focus();
  } } });
  byId("files-progress").append(halt);
  try {
    for (let file; !paused && !stopped && (file = files.find((one) => !one.wrong && !looks.has(one.name)));) await lookAt(file, progress.heard);
    byId("files-said").textContent = files.length ? `${files.length} files` : "There is no PTU file in this folder.";
  } finally {
    looking = false;
    progress.end();
  }
}

/** Looks at a file; what is found is kept if the file was not listed with another time meanwhile.
 * @param {string} name @param {(line: any) => void} heard @param {AbortSignal} signal */
export async function lookInto(name, heard, signal) {
  const listed = () => files.find((file) => file.name === name)?.changed, before = listed(), told = await work("look", { file: name }, heard, signal);
  if (listed() === before) looks.set(name, told);
  return told;
}

/** @param {typeof files[0]} file @param {(line: any) => void} heard */
async function lookAt(file, heard) {
  const mine = background = new AbortController();
  underWay = file.name;
  try {
    await lookInto(file.name, (line) => {
      heard(line);
      byId("files-said").textContent = `${files.length} files; looks at ${file.name}: ${Math.round(100 * (line.progress || 0))} %`;
    }, mine.signal);
  } catch (error) {
    if (mine.signal.aborted) return;
    file.wrong = error instanceof Error ? error.message : String(error);
  }
  found(file.name);
}

/** Does something while no file is looked at in the background.
 * @template T @param {() => Promise<T>} what @returns {Promise<T>} */
export async function alone(what) {
  paused += 1;
  background?.abort();
  try {
    return await what();
  } finally {
    paused -= 1;
    if (!paused) setTimeout(lookAround, 500);
  }
}

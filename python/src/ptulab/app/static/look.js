// @ts-check
// The first look at a file.
import { byId, make, short, table, teller } from "./dom.js";
import { alone, found, looks, lookInto } from "./files.js";
import { draw } from "./plots.js";
import { bar } from "./server.js";

/** Shows the first look of a file, and gives what it tells. A click stops it.
 * @param {string} name @param {AbortController} mine */
export async function look(name, mine) {
  byId("look").hidden = false;
  byId("look-title").textContent = name;
  byId("look-told").replaceChildren();
  byId("look-window").replaceChildren();
  const progress = bar(byId("look-progress"), "Progress of the look"), tell = teller(byId("look-said"));
  const heard = (/** @type {any} */ line) => { progress.heard(line); tell("Looks at the file", line.progress); };
  tell("Looks at the file");
  const halt = make("button", { type: "button", id: "look-stop", text: "Stop", "aria-label": "Stop the look", on: { click: () => {
    mine.abort();
    byId("look-said").textContent = "Stopped. A click on the file begins the look anew.";
    byId("look-title").focus();
  } } });
  byId("look-progress").append(halt);
  try {
    const told = looks.get(name) || await alone(() => lookInto(name, heard, mine.signal));
    found(name);
    if (!mine.signal.aborted) show(told);
    return told;
  } finally {
    progress.end();
  }
}

/** @param {any} told */
function show(told) {
  document.dispatchEvent(new Event("looked"));
  const info = told.info;
  const warned = [info.is_cut ? `The file is ${info.whole}.` : "", info.late ? `${short(info.late)} events are late, and in no count.` : ""].filter((some) => some);
  byId("look-said").textContent = warned.join(" ") || `${short(info.photons)} photons in ${short(info.seconds)} s; the file is ${info.is_cut ? "cut" : info.whole.split(":")[0]}.`;
  byId("look-said").className = warned.length ? "wrong" : "";
  const markers = Object.entries(info.markers).map(([bit, count]) => `bit ${bit}: ${short(/** @type {number} */ (count))}`).join(", ") || "none";
  const sync = [info.sync_hertz === null ? "" : `${short(info.sync_hertz)} Hz`, info.sync_told_hertz === null ? "" : `${short(info.sync_told_hertz)} Hz told when it began`];
  const lines = { type: info.record_type, device: info.device, "written by": info.software, comment: info.comment, begun: info.created, records: info.whole,
    lasts: info.seconds === null ? "" : `${short(info.seconds)} s`, sync: sync.filter((some) => some).join("; "), "late events": short(info.late), markers };
  const list = make("dl", {}, ...Object.entries(lines).filter(([, value]) => value).flatMap(([word, value]) => [make("dt", { text: word }), make("dd", { text: value })]));
  const rows = info.inputs.map((/** @type {any} */ one) => [String(one.number), short(one.photons), short(one.rate_hertz)]);
  byId("look-told").replaceChildren(list, table("Inputs", ["input", "photons", "photons a second"], rows), ...told.figures.map((/** @type {any} */ one) => draw(one)));
}

// @ts-check
// Times as people read and type them, in s, ms, µs, ns or ps; a plan has them in ticks, and each field says which.
import { make, say } from "./dom.js";

const UNITS = /** @type {[string, number][]} */ ([["s", 1], ["ms", 1e-3], ["µs", 1e-6], ["ns", 1e-9], ["ps", 1e-12]]);
const near = (/** @type {number} */ ticks) => 0.005 + 1e-15 * ticks; // a time that is so near to a tick is that tick
const TIME = /^\s*(\d+\.?\d*(?:[eE][-+]?\d{1,2})?|\.\d+)\s*(s|ms|[µμu]s|ns|ps|ticks?|sync periods?)?\s*$/;

/**
 * How a file tells times and lengths: the seconds of a tick of its times and of one of its delays, and the micrometres of a pixel
 * of so many columns; null where its header doesn't tell.
 * @typedef {{mode: string, time: number | null, delay: number | null, pixel: number | null, columns: number | null}} Scale
 */

/** @param {any} value @returns {number | null} */
const known = (value) => typeof value === "number" && value > 0 && Number.isFinite(value) ? value : null;

/** @param {any} info what a first look tells @returns {Scale} */
export const scaleOf = (info) => ({ mode: info.mode, time: known(info.tick_seconds), delay: known(info.dtime_seconds), pixel: known(info.tags?.ImgHdr_PixResol), columns: known(info.tags?.ImgHdr_PixX) });

const counted = (/** @type {number} */ ticks, /** @type {string} */ word) => `${ticks.toLocaleString("en")} ${word}${ticks === 1 ? "" : "s"}`;

/**
 * So many ticks as a time, with as few digits as tell that tick from the next.
 * @param {number} ticks @param {number | null} tick the seconds of one @param {string} [word] what one is called
 */
export function asTime(ticks, tick, word = "tick") {
  if (!tick) return counted(ticks, word);
  const seconds = ticks * tick, [unit, factor] = UNITS.find(([, least]) => Math.abs(seconds) >= 0.9999999 * least) || (seconds ? UNITS[4] : UNITS[3]);
  let digits = 3;
  while (digits < 17 && Math.abs(Number((seconds / factor).toPrecision(digits)) * factor / tick - ticks) > near(ticks)) digits += 1;
  return `${Number((seconds / factor).toPrecision(digits))} ${unit}`;
}

/**
 * The ticks that are nearest to a time that was typed, and whether the time lies between two; null of what is no time.
 * Without a unit it is in the one of `usual`, a time as `asTime` tells it.
 * @param {string} words @param {number | null} tick @param {string} usual @returns {{ticks: number, rounded: boolean} | null}
 */
export function asTicks(words, tick, usual) {
  const found = TIME.exec(words);
  if (!found) return null;
  const unit = (found[2] || usual.replace(/^\S+ /, "")).replace(/^[μu]s$/, "µs"), factor = UNITS.find(([name]) => name === unit)?.[1];
  if (factor && !tick) return null;
  const exact = factor && tick ? Number(found[1]) * factor / tick : Number(found[1]), ticks = Math.round(exact);
  return ticks <= Number.MAX_SAFE_INTEGER ? { ticks, rounded: Math.abs(exact - ticks) > near(ticks) } : null;
}

/**
 * A field in which a time is typed, and beside it how many ticks that is, and whether it was rounded to them; `set` puts other ticks into it.
 * @param {{id: string, label: string, name?: string, ticks: number, tick: number | null, word?: string, heard: (ticks: number) => void}} told `name` is for those who
 *   don't see what is around it
 */
export function timeField({ id, label, name = label, ticks, tick, word = "tick", heard }) {
  const note = make("span", { id: `${id}-ticks`, class: "faint", "aria-live": "polite", text: tick ? `= ${counted(ticks, word)}` : "" });
  const input = /** @type {HTMLInputElement} */ (make("input", { type: "text", id, class: "time", autocomplete: "off", value: asTime(ticks, tick, word), "aria-label": name, "aria-describedby": note.id }));
  input.addEventListener("change", () => {
    const found = asTicks(input.value, tick, asTime(ticks, tick, word));
    input.setAttribute("aria-invalid", String(!found));
    if (!found) return say(note, tick ? "a time is wanted, as 2.5 ns" : "a whole number is wanted");
    ticks = found.ticks;
    input.value = asTime(ticks, tick, word);
    say(note, (found.rounded ? `rounded to ${input.value} ` : "") + (tick || found.rounded ? `= ${counted(ticks, word)}` : ""));
    heard(ticks);
  });
  const set = (/** @type {number} */ other) => {
    if (other === ticks) return;
    ticks = other;
    input.value = asTime(ticks, tick, word);
    note.textContent = tick ? `= ${counted(ticks, word)}` : "";
  };
  return { row: make("span", { class: "field" }, make("label", { for: id, text: `${label} ` }), input, " ", note), set };
}

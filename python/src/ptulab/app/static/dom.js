// @ts-check
// Elements of the page. Texts go in as text alone, whatever they hold.

/** @param {string} id @returns {HTMLElement} */
export const byId = (id) => /** @type {HTMLElement} */ (document.getElementById(id));

/**
 * A new element. Of `told` the keys `text` and `on` are its text and its listeners, all others its attributes.
 * @param {string} tag @param {Record<string, any>} told @param {...(Node | string)} children @returns {HTMLElement}
 */
export function make(tag, told = {}, ...children) {
  const element = document.createElement(tag);
  for (const [key, value] of Object.entries(told)) {
    if (key === "text") element.textContent = String(value);
    else if (key === "on") Object.entries(value).forEach(([name, heard]) => element.addEventListener(name, /** @type {EventListener} */ (heard)));
    else if (typeof value === "boolean") element.toggleAttribute(key, value);
    else element.setAttribute(key, String(value));
  }
  element.append(...children);
  return element;
}

/** A table with a caption, of texts; the first column heads the rows.
 * @param {string} caption @param {string[]} heads @param {string[][]} rows */
export function table(caption, heads, rows) {
  const head = make("tr", {}, ...heads.map((word) => make("th", { scope: "col", text: word })));
  const body = rows.map(([first, ...rest]) => make("tr", {}, make("th", { scope: "row", text: first }), ...rest.map((cell) => make("td", { text: cell }))));
  return make("div", { class: "rows", tabindex: "0", role: "region", "aria-label": caption },
    make("table", {}, make("caption", { text: caption }), make("thead", {}, head), make("tbody", {}, ...body)));
}

const sixDigits = new Intl.NumberFormat("en", { maximumSignificantDigits: 6 }); // made once, which takes longer than to format

/** A number in short.
 * @param {number | null} value */
export const short = (value) => value === null ? "not told" : sixDigits.format(Number(value));

/** Says something at a place, which a screen reader reads only where it is new.
 * @param {HTMLElement} place @param {string} words */
export function say(place, words) {
  if (place.textContent !== words) place.textContent = words;
}

/** Says at a place how far work is: when it begins with something, with each tenth of it, and after five seconds; not each time that it tells.
 * @param {HTMLElement} place @param {() => number} [clock] milliseconds @returns {(words: string, part?: number | null) => void} */
export function teller(place, clock = () => performance.now()) {
  let last = { words: "", tenth: -1, time: 0 };
  return (words, part = null) => {
    const now = { words, tenth: Math.floor(10 * (part || 0)), time: clock() };
    if (now.words === last.words && now.tenth === last.tenth && now.time - last.time < 5000) return;
    last = now;
    say(place, words + (part ? `: ${Math.round(100 * part)} %` : " .."));
  };
}

/** Puts other children into a place; the focus goes to the one with the same id as that which had it, or to `otherwise`.
 * @param {HTMLElement} place @param {(Node | string)[]} children @param {string} [otherwise] an id */
export function renew(place, children, otherwise = "") {
  const held = document.activeElement, had = held && held !== place && place.contains(held) ? held.id : "";
  place.replaceChildren(...children);
  if (had || otherwise) (document.getElementById(otherwise) || document.getElementById(had))?.focus();
}

/** Says what went wrong, till the next thing is done.
 * @param {string} words */
export function trouble(words) {
  const place = byId("trouble");
  place.hidden = !words;
  place.textContent = words;
}

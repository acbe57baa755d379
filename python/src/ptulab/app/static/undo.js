// @ts-check
// What can be taken back: each step that loses something tells how to come back, and coming back is such a step as well.
import { byId, say } from "./dom.js";

/** @typedef {{words: string, back: () => (void | Promise<void>)}} Step */
const MOST = 40;
const done = /** @type {Step[]} */ ([]), undone = /** @type {Step[]} */ ([]);
let going = /** @type {Step[] | null} */ (null); // where a step goes while another is taken back or done again

const button = (/** @type {string} */ id) => /** @type {HTMLButtonElement} */ (byId(id));

/** Whether there is anything that can be taken back or done again. */
export const some = () => done.length + undone.length > 0;

/** Tells what was done, in a sentence, and how to come back from it.
 * @param {string} words @param {() => (void | Promise<void>)} back */
export function did(words, back) {
  (going || done).push({ words, back });
  if (!going) undone.length = 0;
  if (done.length > MOST) done.shift();
  if (!going) shown(words);
}

/** @param {string} words */
function shown(words) {
  byId("undo-bar").classList.toggle("empty", !some());
  for (const [id, steps, word] of /** @type {[string, Step[], string][]} */ ([["undo", done, "Undo"], ["redo", undone, "Redo"]])) {
    const focused = document.activeElement === byId(id), last = steps[steps.length - 1];
    button(id).hidden = !last;
    button(id).setAttribute("aria-label", last ? `${word}: ${last.words}` : word);
    if (focused && !last) button(id === "undo" ? "redo" : "undo").focus();
  }
  say(byId("undo-said"), words);
}

/** Comes back from the last step of some.
 * @param {Step[]} from @param {Step[]} to @param {string} said */
function back(from, to, said) {
  const step = from.pop();
  if (!step) return;
  going = to;
  try {
    step.back();
  } finally {
    going = null;
    shown(`${said}: ${step.words}`);
  }
}

const undo = () => back(done, undone, "Taken back"), redo = () => back(undone, done, "Done again");
byId("undo").addEventListener("click", undo);
byId("redo").addEventListener("click", redo);
document.addEventListener("keydown", (event) => {
  if (!(event.ctrlKey || event.metaKey) || event.key.toLowerCase() !== "z" || /** @type {HTMLElement} */ (event.target).closest?.("input, textarea, select")) return;
  event.preventDefault();
  (event.shiftKey ? redo : undo)();
});

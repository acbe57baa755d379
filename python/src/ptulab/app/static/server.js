// @ts-check
// What is asked of the server. Every answer is JSON, that of work a line of it for each thing that is said.
import { make } from "./dom.js";

/** @param {string} name @param {object} asked @param {AbortSignal} [signal] */
const post = (name, asked, signal) => fetch("/api/" + name, { method: "POST", body: JSON.stringify(asked), signal });

/**
 * An answer. Throws an error with the server's words.
 * @param {string} name @param {object} asked @returns {Promise<any>}
 */
export async function ask(name, asked = {}) {
  const answer = await post(name, asked).catch(() => { throw new Error("The server doesn't answer: was it ended?"); });
  const told = await answer.json().catch(() => ({ error: `The server answers with ${answer.status}.` }));
  if (told.error) throw new Error(told.error);
  return told;
}

/**
 * The result of a piece of work, with the name of its folder as `begun`. Work ends when the signal ends it.
 * @param {string} name @param {object} asked @param {(line: any) => void} heard what is said on the way
 * @param {AbortSignal} signal @returns {Promise<any>}
 */
export async function work(name, asked, heard, signal) {
  const answer = await post(name, asked, signal).catch((error) => {
    throw signal.aborted ? error : new Error("The server doesn't answer: was it ended?");
  });
  if (!answer.ok || !answer.body) throw new Error((await answer.json().catch(() => ({}))).error || `The server answers with ${answer.status}.`);
  const reader = answer.body.pipeThrough(new TextDecoderStream()).getReader();
  let rest = "", begun = "", last = /** @type {any} */ ({ error: "The work ended without a word." });
  for (;;) {
    const { done, value } = await reader.read();
    if (done) break;
    const lines = (rest + value).split("\n");
    rest = /** @type {string} */ (lines.pop());
    for (const line of lines.filter((some) => some)) {
      const told = JSON.parse(line);
      if (told.begun) begun = told.begun;
      if (told.result || told.error) last = told;
      else heard(told);
    }
  }
  if (last.error) throw new Error(last.error);
  return { ...last.result, begun };
}

/** A bar that shows how far work is.
 * @param {HTMLElement} place @param {string} label */
export function bar(place, label) {
  const shown = document.createElement("progress");
  shown.setAttribute("aria-label", label);
  shown.max = 1;
  place.replaceChildren(shown);
  return {
    /** @param {{progress?: number | null}} line */
    heard(line) { if (typeof line.progress === "number") shown.value = line.progress; },
    end() { if (shown.parentNode === place) place.replaceChildren(); },
  };
}

/** Does work with a bar and a Stop beside its button, which can't be clicked meanwhile; `leaving` ends it too.
 * @param {HTMLElement} button @param {string} text @param {AbortSignal} leaving
 * @param {(heard: (line: any) => void, signal: AbortSignal) => Promise<void>} what */
export async function beside(button, text, leaving, what) {
  const mine = new AbortController(), place = make("span"), halt = make("button", { type: "button", class: "halt", text: "Stop", "aria-label": `Stop: ${text}`, on: { click: () => mine.abort() } });
  leaving.addEventListener("abort", () => mine.abort());
  const was = document.activeElement === button;
  button.toggleAttribute("disabled", true);
  button.after(" ", place, halt);
  if (was) halt.focus();
  try {
    await what(bar(place, text).heard, mine.signal);
  } finally {
    button.toggleAttribute("disabled", false);
    if (document.activeElement === halt) button.focus();
    place.remove();
    halt.remove();
  }
}

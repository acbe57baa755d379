// @ts-check
// The window: files and sessions on the left, and the one that was chosen on the right.
import { byId, make, say, trouble } from "./dom.js";
import { list, lookAround, mark } from "./files.js";
import { look } from "./look.js";
import { leave, open, questions, stop } from "./questions.js";
import { ask } from "./server.js";
import { show } from "./take.js";

let chosen = new AbortController();

/** Looks at a file and shows what can be asked of it; what was done before ends.
 * @param {string} name @param {any} [session] what is asked of it at once @param {string} [words] what was done */
async function choose(name, session = null, words = `${name} was opened.`) {
  chosen.abort();
  stop();
  leave(words);
  const mine = chosen = new AbortController();
  trouble("");
  mark(name);
  byId("welcome").hidden = true;
  byId("questions").hidden = true;
  try {
    const told = await look(name, mine);
    if (mine.signal.aborted) return;
    if (!session) byId("look-title").focus();
    questions(name, told);
    const one = session && told.questions.find((/** @type {any} */ each) => each.name === session.analysis);
    if (one) await open(one, session);
    if (one && session.shown) show(session.shown.told, session.shown.asked);
    else if (one && session.begun) await again(session);
  } catch (error) {
    if (mine.signal.aborted) return;
    const said = error instanceof Error ? error.message : String(error);
    byId("look-said").textContent = said;
    byId("look-said").className = "wrong";
    byId("questions").hidden = true;
  }
}

/** Shows the result that a session kept.
 * @param {any} session */
async function again(session) {
  const answer = await fetch(`/result/${session.begun}/shown.json`);
  if (answer.ok) show({ ...await answer.json(), begun: session.begun, files: session.names }, session);
}

async function sessions() {
  const { sessions: names } = await ask("sessions");
  byId("sessions").replaceChildren(...(names.length ? names.map((/** @type {string} */ name) => make("li", {}, make("button", { type: "button", text: name, on: { click: async () => {
    try {
      const told = await ask("session", { name });
      await choose(told.file, told, `The session ${name} was opened.`);
    } catch (error) {
      trouble(error instanceof Error ? error.message : String(error));
    }
  } } }))) : [make("li", { class: "faint", text: "none yet" })]));
}

document.addEventListener("back", (heard) => {
  const { was, words } = /** @type {CustomEvent} */ (heard).detail;
  choose(was.file, was, words);
});
byId("files-again").addEventListener("click", async () => {
  try {
    const many = await list(choose);
    say(byId("files-again-said"), many ? `${many} ${many === 1 ? "file is" : "files are"} new or changed.` : "No file is new or changed.");
    await sessions();
    await lookAround();
  } catch (error) {
    trouble(error instanceof Error ? error.message : String(error));
  }
});
document.addEventListener("kept", () => { sessions().catch((error) => trouble(error.message)); });
list(choose).then(sessions).then(lookAround).catch((error) => trouble(error.message)).finally(() => { document.documentElement.dataset.ready = "yes"; });

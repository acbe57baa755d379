// @ts-check
// The plan: its text, its groups as a table, and its times and sizes as fields. Each follows the others, and what is wrong stands at its line.
import { byId, make, renew, say as tell, trouble } from "./dom.js";
import { ask } from "./server.js";
import { asTime, timeField } from "./times.js";
import { did } from "./undo.js";

const LAST = 32768; // tick of a delay, behind which no gate ends
const text = /** @type {HTMLTextAreaElement} */ (byId("text"));
/** @typedef {{name: string, inputs: number[], gates: number[][]}} Group */
/** @typedef {{part: string, key: string, label: string, unit: string, value: number, line: number}} Length */
/** @type {Group[] | null} */
let groups = null;
/** @type {Length[]} */
let lengths = [];
/** @type {Map<string, (value: number) => void>} what puts a value into each of their fields */
let shapes = new Map();
let asked = 0, typing = false; // whether the last step was typing in the text
/** @type {number | undefined} */
let timer;
/** @type {{inputs: number[], scale: import("./times.js").Scale}} */
let of = { inputs: [], scale: { mode: "", time: null, delay: null, pixel: null, columns: null } };
let target = 0; // the group that gets a gate that is dragged
let settled = ""; // the text before what is being typed

export const plan = () => text.value;
const delayed = () => of.scale.mode === "T3";

/** Shows a plan for a file with these inputs.
 * @param {string} written @param {number[]} inputs @param {import("./times.js").Scale} scale */
export function show(written, inputs, scale) {
  of = { inputs, scale };
  target = 0;
  typing = false;
  groups = null;
  shapes = new Map();
  byId("lengths").replaceChildren();
  clearTimeout(timer);
  settled = text.value = written;
  return follow();
}

/** Puts a text into the plan, which can be taken back.
 * @param {string} written @param {string} words what was done */
function put(written, words) {
  const was = text.value;
  clearTimeout(timer);
  typing = false;
  if (written === was) return;
  did(words, () => { put(was, words); follow().catch((error) => trouble(error.message)); });
  settled = text.value = written;
}

/** Does something when nothing has changed for a while. Answers to what was asked before are out of date.
 * @param {() => void} what */
function soon(what) {
  asked += 1;
  clearTimeout(timer);
  timer = window.setTimeout(what, 300);
}

/** The text leads: its groups are shown, and what is wrong. */
async function follow() {
  const mine = ++asked, told = await ask("plan", { plan: text.value });
  if (mine === asked) shown(told);
}

/** @param {{groups: Group[] | null, lengths: Length[], findings: any[], more: boolean}} told @param {boolean} [keep] whether the table of groups stays as it is */
function shown(told, keep = false) {
  lengths = told.lengths;
  say(told, "");
  /** @type {HTMLButtonElement} */ (byId("add-group")).disabled = !told.groups;
  tell(byId("groups-said"), told.groups ? "" : "These groups can only be changed in the text.");
  if (!keep) {
    groups = told.groups;
    table();
  }
  measures();
  document.dispatchEvent(new CustomEvent("gates", { detail: delayed() && groups ? groups.flatMap((group) => group.gates) : [] }));
}

/** The numbers of the lines, those with findings marked.
 * @param {any[]} findings */
function numbered(findings) {
  const refused = new Set(findings.filter((one) => one.refused).map((one) => one.line)), said = new Set(findings.map((one) => one.line));
  byId("lines").replaceChildren(...text.value.split("\n").flatMap((_, at) => {
    const number = String(at + 1);
    return [refused.has(at + 1) ? make("b", { text: number }) : said.has(at + 1) ? make("i", { text: number }) : number, "\n"];
  }));
  byId("lines").scrollTop = text.scrollTop;
}

/** Lists what is wrong with the plan; a click goes to the line.
 * @param {{findings: any[], more: boolean}} told what was found, and whether there is more @param {string} none */
export function say({ findings, more }, none) {
  numbered(findings);
  text.setAttribute("aria-invalid", String(findings.some((one) => one.refused)));
  const lines = findings.map((one) => ({ text: `line ${one.line}: ${one.text}`, line: one.line, refused: one.refused }));
  const rest = more ? [`There is more: these are the first ${lines.length}.`] : [], told = [...lines.map((one) => one.text), ...rest].join("\n") || none;
  if (byId("findings").dataset.told === told) return; // a screen reader has read it
  byId("findings").dataset.told = told;
  const items = lines.map((one) => make("li", {}, make("button", { type: "button", class: one.refused ? "wrong" : "", text: one.text, on: { click: () => go(one.line) } })));
  byId("findings").replaceChildren(...(items.length || !none ? items : [make("li", { text: none })]), ...rest.map((words) => make("li", { text: words })));
}

/** @param {number} line */
function go(line) {
  const lines = text.value.split("\n"), begin = lines.slice(0, line - 1).reduce((sum, one) => sum + one.length + 1, 0);
  /** @type {HTMLDetailsElement} */ (byId("plan")).open = true;
  text.focus();
  text.setSelectionRange(begin, begin + (lines[line - 1] || "").length);
}

/** The table of groups leads: the text is written anew.
 * @param {string} words what was done */
async function write(words) {
  if (!groups) return;
  const mine = ++asked, told = await ask("groups", { plan: text.value, groups }).catch((error) => trouble(error.message));
  if (!told || mine !== asked) return;
  put(told.plan, words);
  shown(told, true);
}

// ## Times and sizes

const nameOf = (/** @type {Length} */ one) => `length-${one.part}-${one.key}`.replace(/ /g, "-");

/** Shows the plan's times and sizes, those of each of its parts together; fields that are there stay, with what they said. */
function measures() {
  const ids = lengths.map(nameOf);
  if (ids.join() !== [...shapes.keys()].join()) {
    const parts = [...new Set(lengths.map((one) => one.part))];
    shapes = new Map();
    renew(byId("lengths"), parts.map((part) => make("fieldset", {}, make("legend", { text: part }), ...lengths.filter((one) => one.part === part).map((one) => {
      const { row, set } = measure(one, nameOf(one));
      shapes.set(nameOf(one), set);
      return row;
    }))));
  }
  for (const one of lengths) shapes.get(nameOf(one))?.(one.value);
}

/** The field of a time or size, and what puts another value into it.
 * @param {Length} one @param {string} id */
function measure(one, id) {
  const { label, part, key } = one, name = `${part}: ${label}`, heard = (/** @type {number} */ value) => measured(part, key, value);
  if (one.unit === "delay") return timeField({ id, label, name, ticks: one.value, tick: of.scale.delay, heard });
  if (one.unit === "time") return timeField({ id, label, name, ticks: one.value, tick: of.scale.time, word: delayed() ? "sync period" : "tick", heard });
  const input = /** @type {HTMLInputElement} */ (make("input", { type: "number", id, min: "1", step: "1", "aria-label": name, "aria-describedby": `${id}-all`, on: { change: () => { if (input.reportValidity()) heard(Number(input.value)); } } }));
  const all = make("span", { id: `${id}-all`, class: "faint" });
  const set = (/** @type {number} */ value) => {
    if (document.activeElement !== input || Number(input.value) !== value) input.value = String(value);
    tell(all, whole(part, key));
  };
  return { row: make("span", { class: "field" }, make("label", { for: id, text: `${label} ` }), input, " ", all), set };
}

/** @param {string} part @param {string} key */
const found = (part, key) => lengths.find((one) => one.part === part && one.key === key);

/** How long or wide so many bins or pixels are together.
 * @param {string} part @param {string} key */
function whole(part, key) {
  const { time, delay, pixel, columns } = of.scale, one = found(part, key), each = found(part, one?.unit || ""), tick = each?.unit === "delay" ? delay : time;
  if (one?.unit === "pixels") return pixel && found(part, "width")?.value === columns ? `= ${Number((one.value * pixel).toPrecision(6))} µm` : "";
  return one && each && tick ? `= ${asTime(one.value * each.value, tick)} in all` : "";
}

/** A time or size of the plan is changed at its line.
 * @param {string} part @param {string} key @param {number} value */
function measured(part, key, value) {
  const lines = text.value.split("\n"), at = (found(part, key)?.line || 0) - 1, begin = new RegExp(`^(\\s*${key}\\s*=\\s*)[0-9_]+`);
  if (!begin.test(lines[at] || "")) return trouble("The plan was changed meanwhile: type it once more.");
  lines[at] = lines[at].replace(begin, `$1${value}`);
  put(lines.join("\n"), `${capital(part)}: ${key} is ${value} now.`);
  follow().catch((error) => trouble(error.message));
}

// ## Groups

/** Draws the table of groups.
 * @param {string} [focus] the id of what has the focus then */
const table = (focus) => renew(byId("groups"), (groups || []).map(fields), focus);

/** The fields of a group.
 * @param {Group} group @param {number} at */
function fields(group, at) {
  const label = `group ${at + 1}`, id = `group-${at + 1}`, change = () => soon(() => write(`${capital(label)} was changed.`));
  const name = make("input", { type: "text", id: `${id}-name`, value: group.name, maxlength: "60", size: "14", on: { input: (/** @type {any} */ event) => { group.name = event.target.value; change(); } } });
  const ticks = [...new Set([...of.inputs, ...group.inputs])].sort((one, other) => one - other).map((number) => {
    const box = /** @type {HTMLInputElement} */ (make("input", { type: "checkbox", id: `${id}-input-${number}` }));
    box.checked = group.inputs.includes(number);
    box.addEventListener("change", () => { group.inputs = box.checked ? [...group.inputs, number] : group.inputs.filter((one) => one !== number); change(); });
    return make("label", {}, box, ` input ${number}`);
  });
  const add = () => { group.gates.push([0, sync()]); again(`A gate was added to ${label}.`, `${id}-gate-${group.gates.length}-from`); };
  const gates = delayed() ? [...group.gates.map((_, place) => gateFields(group, place, at, change)),
    make("button", { type: "button", id: `${id}-add`, text: "Add a gate", "aria-label": `Add a gate to ${label}`, on: { click: add } }), " ",
    make("label", {}, goal(at), " gets the gates that are dragged")] : [];
  const gone = () => { groups?.splice(at, 1); again(`${capital(label)} was removed.`, groups?.length ? `group-${Math.min(at + 1, groups.length)}-remove` : "add-group"); };
  const remove = make("button", { type: "button", id: `${id}-remove`, text: "Remove", "aria-label": `Remove ${label}`, on: { click: gone } });
  return make("fieldset", {}, make("legend", { text: label }), make("p", {}, make("label", {}, "name ", name), remove), make("p", {}, ...ticks), ...gates);
}

const capital = (/** @type {string} */ words) => words[0].toUpperCase() + words.slice(1);

/** The last tick of a sync period, where the header tells it. */
const sync = () => of.scale.time && of.scale.delay ? Math.max(1, Math.min(LAST, Math.ceil(of.scale.time / of.scale.delay - 0.005))) : LAST;

/** @param {Group} group @param {number} place @param {number} at @param {() => void} change */
function gateFields(group, place, at, change) {
  const label = `group ${at + 1}`, id = `group-${at + 1}-gate-${place + 1}`, gate = group.gates[place];
  const ends = ["from", "to"].map((word, end) => timeField({ id: `${id}-${word}`, label: word, name: `${label}, gate ${place + 1} ${word}`, ticks: gate[end], tick: of.scale.delay,
    heard: (ticks) => { gate[end] = ticks; change(); } }).row);
  const gone = () => { group.gates.splice(place, 1); again(`Gate ${place + 1} of ${label} was removed.`, group.gates.length ? `group-${at + 1}-gate-${Math.min(place + 1, group.gates.length)}-remove` : `group-${at + 1}-add`); };
  const remove = make("button", { type: "button", id: `${id}-remove`, text: "Remove", "aria-label": `Remove gate ${place + 1} of ${label}`, on: { click: gone } });
  return make("p", {}, ...ends, " ", remove);
}

/** Which group gets a gate that is dragged on the decay.
 * @param {number} at */
function goal(at) {
  const radio = /** @type {HTMLInputElement} */ (make("input", { type: "radio", name: "goal", id: `group-${at + 1}-goal`, value: String(at), "aria-label": `group ${at + 1} gets the gates that are dragged on the decay` }));
  radio.checked = at === target;
  radio.addEventListener("change", () => { target = at; });
  return radio;
}

/** A part of the first look's decay, which was dragged, becomes a gate.
 * @param {[number, number]} range @param {number} tick */
function dragged(range, tick) {
  const at = Math.min(target, (groups || []).length - 1), group = (groups || [])[at];
  if (!group || byId("ask").hidden) return trouble("Open a question first: gates belong to the groups of its plan.");
  trouble("");
  const [from, to] = range.map((x) => Math.min(LAST, Math.max(0, Math.round(x / tick))));
  if (from >= to) return;
  const apart = group.gates.filter(([begin, end]) => end < from || begin > to), joined = group.gates.filter(([begin, end]) => end >= from && begin <= to);
  group.gates = [...apart, [Math.min(from, ...joined.map(([begin]) => begin)), Math.max(to, ...joined.map(([, end]) => end))]].sort((one, other) => one[0] - other[0]);
  /** @type {HTMLDetailsElement} */ (byId("plan")).open = true;
  again(`A gate of group ${at + 1} was dragged.`);
}

/** Draws the table anew, and writes the text.
 * @param {string} words what was done @param {string} [focus] the id of what has the focus then */
function again(words, focus) {
  table(focus);
  return write(words);
}

text.addEventListener("input", () => {
  const was = settled;
  if (!typing) did("The text of the plan was changed.", () => { put(was, "The text of the plan was changed."); follow().catch((error) => trouble(error.message)); });
  typing = true;
  soon(() => follow().catch((error) => trouble(error.message)));
});
text.addEventListener("blur", () => { typing = false; settled = text.value; });
byId("add-group").addEventListener("click", () => { groups?.push({ name: "", inputs: of.inputs.slice(0, 1), gates: [] }); again(`Group ${groups?.length} was added.`, `group-${groups?.length}-name`); });
text.addEventListener("scroll", () => { byId("lines").scrollTop = text.scrollTop; });
document.addEventListener("chosen", (heard) => {
  const { what, range, tick } = /** @type {CustomEvent} */ (heard).detail;
  if (what === "gate") dragged(range, tick);
});

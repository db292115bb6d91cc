// What the page shows: the lists, the key, and errors at their places.

import { explain } from "./messages.js";
import { moves } from "./moved.js";
import { place_of_byte, relations } from "./places.js";

// The most lines that a list shows. The file sorted.txt has all.
export const MOST_LINES = 500;

export const element = (id) => document.getElementById(id);

// A new element with these texts and elements in it.
export function made(name, attributes, ...content) {
  const found = Object.assign(document.createElement(name), attributes);
  found.append(...content);
  return found;
}

const count_of = (count, name) => `${count.toLocaleString("en")} ${name}${count === 1 ? "" : "s"}`;

// ---- Lists

// What became of each line of the second order, or undefined where there is none: whether it moved, its places in both
// orders, and whether it may move.
export function changes_of(found) {
  if (!found.after) return undefined;
  const may_move = new Set(found.may_move);
  const order = moves(found.before, found.after, may_move);
  return order.map((it, index) => ({ ...it, index, may_move: may_move.has(it.line) }));
}

// The mark of a word that moved, or that of a word that may move.
function mark_of({ moved, index, before, may_move }) {
  if (!moved) return may_move ? [mark(" ·", ", may move")] : [];
  const [arrow, way, places] = before > index ? ["↑", "up", before - index] : ["↓", "down", index - before];
  return [mark(` ${arrow}${places || ""}`, `, moved ${way}`)];
}

// A sign for those who see the page, and words for those who hear it.
function mark(sign, words) {
  const seen = made("span", { ariaHidden: "true" }, sign);
  return made("span", { className: "mark" }, seen, made("span", { className: "hidden" }, words));
}

// Fills a list with words. `marks` returns the mark of the word at an index.
function fill(list, lines, chosen, choose, marks, is_moved) {
  const items = lines.slice(0, MOST_LINES).map((line, i) => {
    const button = made("button", { type: "button" }, line, ...marks(i));
    button.dir = "auto";
    button.ariaPressed = String(line === chosen);
    button.onclick = () => choose(line);
    return made("li", { className: is_moved(i) ? "moved" : "" }, button);
  });
  list.replaceChildren(...items);
  if (lines.length <= MOST_LINES) return;
  const more = count_of(lines.length - MOST_LINES, "line");
  list.append(made("li", { className: "help" }, `and ${more} more: save sorted.txt`));
}

const no_marks = () => [];

// Shows both orders, or the first alone where the rules give none. `changes` is what changes_of() found.
export function show_orders(found, changes, chosen, choose) {
  const [before, after] = [element("before"), element("after")];
  const moved = new Set(changes?.filter((it) => it.moved).map((it) => it.before));
  fill(before, found.before ?? [], chosen, choose, no_marks, (i) => moved.has(i));
  const mark_at = (i) => mark_of(changes[i]);
  fill(after, found.after ?? [], chosen, choose, mark_at, (i) => changes[i].moved);
}

export function summary(found, changes) {
  if (found.input_error) return "A line of the words is rejected.";
  const words = count_of(found.before.length, "word");
  if (!changes) return `${words}, in the order of the table. The rules give no order yet.`;
  const number = (count) => (count ? count.toLocaleString("en") : "none");
  const moved = changes.filter((it) => it.moved).length;
  return `${words}: ${number(moved)} moved, and ${number(found.may_move.length)} may move.`;
}

// ---- Keys

export function show_no_key() {
  element("key-head").textContent = "Its key";
  element("key").replaceChildren();
}

export function show_key(word, { before, after }) {
  element("key-head").textContent = word ? `The key of ${word}` : "Its key";
  const error = before.error ?? after?.error;
  if (error) {
    element("key").replaceChildren(made("tbody", {}, made("tr", {}, made("td", {}, error.trim()))));
    return;
  }
  const columns = ["Level", "By the table", ...(after ? ["By your rules"] : [])];
  const head = columns.map((text) => made("th", { scope: "col" }, text));
  const rows = before.levels.map((level, i) => {
    const name = made("th", { scope: "row" }, `${level.number}: ${level.name}`);
    const row = made("tr", {}, name, made("td", {}, level.digits || "none"));
    if (!after) return row;
    const digits = after.levels[i].digits;
    row.append(made("td", { className: digits === level.digits ? "" : "new" }, digits || "none"));
    return row;
  });
  element("key").replaceChildren(made("thead", {}, made("tr", {}, ...head)), made("tbody", {}, ...rows));
}

// ---- Verdicts and errors

// Sentences about an error, below its message.
function sentences({ said, what, do: advice, level }) {
  return [made("strong", {}, said), `${what}${level ? ` (Level ${level}.)` : ""} ${advice}`.trim()];
}

// Shows a place in the line of a text that has it.
function show_place(text, place) {
  element("place").hidden = !place;
  if (!place) return;
  const begin = text.lastIndexOf("\n", place.start - 1) + 1;
  const found = text.indexOf("\n", place.start);
  const end = found < 0 ? text.length : found;
  const mark_end = Math.min(place.end, end);
  const marked = made("mark", {}, text.slice(place.start, mark_end) || " ");
  element("place-line").replaceChildren(text.slice(begin, place.start), marked, text.slice(mark_end, end));
}

// The place of an error in rules, or of a relation, if the message has one.
function place_in(rules, { byte, relation }) {
  if (byte !== undefined) return place_of_byte(rules, byte);
  return relation === undefined ? undefined : relations(rules)[relation - 1];
}

const where = (place) => (place ? [`Line ${place.line}, column ${place.column}: `] : []);

// Shows what the command says of the rules, and returns the place that it names.
export function show_verdict(rules, found) {
  const verdict = element("verdict");
  if (found.accepted) {
    const good = made("span", { className: "good" }, "accepted");
    verdict.replaceChildren(good, ": the audit says that the new table keeps your rules.");
    show_place(rules, undefined);
    return undefined;
  }
  const error = explain(found.rules_error ?? found.verdict);
  const place = place_in(rules, error);
  const [said, text] = sentences(error);
  verdict.replaceChildren(made("p", { className: "bad" }, said, ...where(place), text));
  show_place(rules, place);
  return place;
}

// Shows an error in the words, or none.
export function show_words_error(message) {
  const shown = element("words-error");
  if (!message) {
    shown.replaceChildren();
    return;
  }
  const error = explain(message);
  const line = error.line ? [` It is line ${error.line}.`] : [];
  shown.replaceChildren(made("p", { className: "bad" }, ...sentences(error), ...line));
}

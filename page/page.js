// The page *Try your rules*: what its fields and buttons do.

import { Client } from "./client.js";
import { MOST_CHARACTERS, link_of, state_of } from "./link.js";
import { changes_of, element, made, summary } from "./show.js";
import { show_key, show_no_key, show_orders, show_verdict, show_words_error } from "./show.js";

// How long the page waits after a key before it works, in milliseconds.
const PAUSE = 150;

const EXAMPLE = {
  rules: "# Swedish: å, ä and ö come after z\n&z < å <<< Å < ä <<< Ä < ö <<< Ö\n",
  words: "zebra\nål\nArboga\nÄngelholm\närta\nörn\nanka\nOslo\nzink\nÅmål\nost\nÖrebro\nasp\n",
};
const UNICODE = { path: "made/table.txt", name: "Unicode's table" };

// The most bytes and lines of a file that a field takes. More make a browser slow: they are for the command.
const MOST_BYTES = 20000000;
const MOST_FILE_LINES = 100000;

// `?module=uca32.wasm` asks for that module.
const asked_module = new URLSearchParams(location.search).get("module") ?? undefined;

// What was found last, the word whose key is shown, and the place of an error. Also the languages and the tables.
const page = {
  client: new Client({ module: asked_module }),
  languages: [],
  tables: [UNICODE],
  found: undefined,
  chosen: undefined,
  place: undefined,
};

// ---- What the fields say

const lines_text = (text) => (text === "" || text.endsWith("\n") ? text : `${text}\n`);
const settings = () => ({
  weighting: element("weighting").value,
  identical: element("identical").checked,
  numeric: element("numeric").checked,
});

function table() {
  const chosen = page.tables.find((it) => it.path === element("table").value) ?? UNICODE;
  return element("upper").checked && chosen.upper ? chosen.upper : chosen.path;
}

const asked = () => ({
  table: table(),
  rules: element("rules").value,
  words: lines_text(element("words").value),
  settings: settings(),
});

// ---- Work

let timer, is_working = false, is_waiting = false;

// Works after a pause. While it works, only what was asked for last waits.
function soon() {
  clearTimeout(timer);
  timer = setTimeout(() => (is_working ? (is_waiting = true) : work()), PAUSE);
}

async function work() {
  is_working = true;
  document.body.dataset.state = "works";
  const given = asked();
  try {
    show(given, await page.client.call("order", given));
    await show_chosen();
  } catch (error) {
    show_nothing(`The page cannot do this: ${error.message}.`);
  }
  is_working = false;
  if (is_waiting) {
    is_waiting = false;
    soon();
  } else document.body.dataset.state = "ready";
}

function show(given, found) {
  page.found = { ...found, given };
  show_words_error(found.input_error);
  page.place = show_verdict(given.rules, found);
  const [all, changes] = [found.after ?? found.before ?? [], changes_of(found)];
  if (!all.includes(page.chosen)) page.chosen = changes?.find((it) => it.moved)?.line ?? all[0];
  show_orders(found, changes, page.chosen, choose);
  element("summary").textContent = summary(found, changes);
  show_commands(given);
  offer_files();
}

// Shows that nothing was found. What was found before is not kept, since the worker has other files now.
function show_nothing(cause) {
  [page.found, page.chosen] = [undefined, undefined];
  show_orders({}, undefined, undefined, choose);
  show_no_key();
  element("summary").textContent = cause;
  offer_files();
}

const save_buttons = () => document.querySelectorAll("[data-save]");

function offer_files() {
  for (const button of save_buttons()) button.disabled = content_of(button.dataset.save) === undefined;
}

// Shows the key of the word that is chosen, unless other words or rules come meanwhile.
async function show_chosen() {
  const { found, chosen: word } = page;
  if (word === undefined || !found || found.input_error) {
    show_no_key();
    return;
  }
  const { table: path, settings: by } = found.given;
  const key = await page.client.call("key", { table: path, word, settings: by });
  if (page.found === found && page.chosen === word) show_key(word, key);
}

function choose(word) {
  page.chosen = word;
  for (const button of document.querySelectorAll("ol button")) {
    button.ariaPressed = String(button.firstChild.data === word);
  }
  show_chosen().catch((error) => show_nothing(`The page cannot do this: ${error.message}.`));
}

// ---- Languages and tables

const chosen_language = () => page.languages.find((it) => it.tag === element("language").value);

const table_of = ({ name, table: path, upper }) => ({
  name: `${name} (table)`,
  path: `made/${path ?? upper}`,
  upper: upper && `made/${upper}`,
});

function list_languages(languages) {
  page.languages = languages;
  const with_table = languages.filter((it) => it.table ?? it.upper);
  page.tables = [UNICODE, ...with_table.map(table_of)];
  const option = (value, text) => made("option", { value }, text);
  element("language").append(...languages.map(({ tag, name }) => option(tag, name)));
  element("table").replaceChildren(...page.tables.map(({ path, name }) => option(path, name)));
}

function offer_language() {
  const language = chosen_language();
  element("take-order").disabled = !language;
  element("language-help").textContent = language && !language.rules
    ? "Rules cannot say this order. A table of all its weights takes the place of Unicode's, and the field of rules is empty."
    : "Its rules come into the field of rules, where you can change them. A comment at their head says what they leave out.";
}

function offer_upper() {
  const has_upper = Boolean(page.tables.find((it) => it.path === element("table").value)?.upper);
  element("upper").disabled = !has_upper;
  if (!has_upper) element("upper").checked = false;
}

async function rules_at(path) {
  const reply = await fetch(`made/${path}`);
  if (!reply.ok) throw new Error(`${reply.status} ${reply.statusText}`);
  return reply.text();
}

// Takes the rules of a language, which are for Unicode's table, or else its table. CLDR's orders treat spaces and
// punctuation like letters.
async function take_order() {
  const { name, rules, table: path, upper } = chosen_language();
  try {
    element("rules").value = rules ? await rules_at(rules) : "";
  } catch (error) {
    element("language-help").textContent = `The rules of ${name} cannot be loaded: ${error.message}.`;
    return;
  }
  element("table").value = rules ? UNICODE.path : `made/${path ?? upper}`;
  element("weighting").value = "non-ignorable";
  offer_upper();
  soon();
}

// ---- Files

// The text of a file, or why there is none. It has to be UTF-8, since a field has characters and no bytes.
async function text_of(file) {
  const too_large = (most, name) => ({
    error: `has more than ${most.toLocaleString("en")} ${name}`,
    advice: "The command takes larger files.",
  });
  if (file.size > MOST_BYTES) return too_large(MOST_BYTES, "bytes");
  let bytes;
  try {
    bytes = await file.arrayBuffer();
  } catch (error) {
    return { error: "cannot be read", advice: `The browser says: ${error.message}` };
  }
  try {
    const text = new TextDecoder("utf-8", { fatal: true, ignoreBOM: true }).decode(bytes);
    return lines_text(text).split("\n").length - 1 > MOST_FILE_LINES ? too_large(MOST_FILE_LINES, "lines") : { text };
  } catch {
    return { error: "is not UTF-8", advice: "Save it as UTF-8." };
  }
}

// Takes a file into a field.
async function take_file(field, file) {
  const { text, error, advice } = await text_of(file);
  if (error === undefined) {
    field.value = text;
    soon();
    return;
  }
  const said = element(field.id === "rules" ? "verdict" : "words-error");
  const cause = made("strong", {}, `${file.name} ${error}`);
  said.replaceChildren(made("p", { className: "bad" }, cause, `${advice} The field is as it was.`));
}

// A file that is dropped goes into the field of that part of the page, and a text where the browser puts it.
function accept_files(part, field, input) {
  input.onchange = () => { if (input.files[0]) take_file(field, input.files[0]); input.value = ""; };
  part.addEventListener("dragover", (event) => { if (has_files(event)) part.classList.add("drop"); });
  part.addEventListener("dragleave", () => part.classList.remove("drop"));
  part.addEventListener("drop", (event) => {
    part.classList.remove("drop");
    if (has_files(event) && event.dataTransfer.files[0]) take_file(field, event.dataTransfer.files[0]);
  });
}

const has_files = (event) => event.dataTransfer.types.includes("Files");

// A file that misses the fields would take the place of the page.
function keep_page(event) {
  if (has_files(event)) event.preventDefault();
}

// What a file has that can be saved now, or undefined. All are of one run.
function content_of(name) {
  const { given, tailored, certificate, sorted } = page.found ?? {};
  const given_files = { "rules.txt": given?.rules, "words.txt": given?.words };
  return { ...given_files, "tailored.txt": tailored, "certificate.txt": certificate, "sorted.txt": sorted }[name];
}

function save(name) {
  const address = URL.createObjectURL(new Blob([content_of(name)], { type: "text/plain" }));
  made("a", { href: address, download: name }).click();
  setTimeout(() => URL.revokeObjectURL(address), 1000);
  element("saved").textContent = `${name} is saved.`;
}

function show_commands({ table: path, settings: { weighting, identical, numeric } }) {
  const marks = (identical ? "--identical " : "") + (numeric ? "--numeric " : "");
  const options = (weighting ? `--weighting ${weighting} ` : "") + marks;
  element("table-link").href = path;
  element("commands").textContent = [
    "uca tailor table.txt data.txt rules.txt certificate.txt > tailored.txt",
    "uca audit table.txt data.txt rules.txt tailored.txt certificate.txt",
    `uca sort ${options}tailored.txt data.txt < words.txt > sorted.txt`,
  ].join("\n");
}

// ---- The link

function current_state() {
  const { rules, words } = asked();
  const path = element("table").value;
  const { weighting, identical, numeric } = settings();
  const named = path === UNICODE.path ? "" : path;
  return { rules, words, table: named, weighting, upper: element("upper").checked, identical, numeric };
}

async function copy_link() {
  const link = link_of(current_state());
  if (link.length > MOST_CHARACTERS) {
    const length = link.length.toLocaleString("en");
    element("saved").textContent = `A link would have ${length} characters. Save rules.txt and words.txt in its place.`;
    return;
  }
  history.replaceState(null, "", link);
  try {
    await navigator.clipboard.writeText(link);
    element("saved").textContent = "The link is copied. It carries the rules and the words.";
  } catch {
    element("saved").textContent = "The address of this page is the link now: copy it from there.";
  }
}

function take_state(state) {
  element("rules").value = state.rules;
  element("words").value = state.words;
  element("weighting").value = state.weighting ?? "";
  element("identical").checked = Boolean(state.identical);
  element("numeric").checked = Boolean(state.numeric);
  element("table").value = page.tables.some((it) => it.path === state.table) ? state.table : UNICODE.path;
  offer_upper();
  element("upper").checked = Boolean(state.upper) && !element("upper").disabled;
  if (state.table && element("table").value !== state.table) {
    element("saved").textContent = `The link names a table that is not here: ${state.table}`;
  }
}

// ---- The start

function listen() {
  for (const id of ["rules", "words", "weighting", "identical", "numeric", "upper"]) element(id).addEventListener("input", soon);
  element("table").onchange = () => { offer_upper(); soon(); };
  element("language").onchange = offer_language;
  element("take-order").onclick = take_order;
  element("copy").onclick = copy_link;
  element("go").onclick = go_to_place;
  for (const button of save_buttons()) button.onclick = () => save(button.dataset.save);
  accept_files(element("rules-part"), element("rules"), element("rules-file"));
  accept_files(element("words-part"), element("words"), element("words-file"));
  for (const name of ["dragover", "drop"]) addEventListener(name, keep_page);
  addEventListener("hashchange", take_link);
}

function go_to_place() {
  element("rules").focus();
  element("rules").setSelectionRange(page.place.start, page.place.end);
}

function take_link() {
  const state = state_of(location.hash);
  if (!state) return;
  take_state(state);
  soon();
}

async function start() {
  listen();
  const reply = await fetch("made/languages.json");
  list_languages(reply.ok ? await reply.json() : []);
  take_state(state_of(location.hash) ?? EXAMPLE);
  const { module, version, verdict } = await page.client.loaded;
  element("about").textContent = [
    `${version}, ${module}. uca check says of Unicode's table: ${verdict.trim()}.`,
    "The program is proved. The page and its compilation for the browser are tested.",
  ].join(" ");
  await work();
}

start().catch((error) => {
  const advice = "Does page/made have the modules and the tables? page/make.py makes them.";
  element("summary").textContent = `The page does not start: ${error.message}. ${advice}`;
  document.body.dataset.state = "failed";
});

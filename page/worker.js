// The work of the page, in a thread of its own: it loads the module and the tables, and runs the commands.
//
// Each message has a number, what to do (`load`, `order` or `key`), and what that takes. The reply has the number, and
// what was found or the error. Where the module stopped or has no more memory, the page starts another worker.

import { Uca } from "./uca.js";
import { levels } from "./keys.js";

const OUT_OF_MEMORY = 4;

// The module, the files of made/ in its memory by their paths, and the table that the last rules made.
let uca, tailored;
const rooms = new Map();

async function fetched(path) {
  const reply = await fetch(path);
  if (!reply.ok) throw new Error(`${path}: ${reply.status} ${reply.statusText}`);
  return new Uint8Array(await reply.arrayBuffer());
}

// A file of made/ in the memory of the module. Of tables the one that was used last is kept, beside Unicode's.
async function file(path) {
  if (!rooms.has(path)) {
    for (const other of [...rooms.keys()].filter((it) => it.startsWith("made/languages/"))) {
      uca.give_back(rooms.get(other));
      rooms.delete(other);
    }
    rooms.set(path, uca.put(await fetched(path)));
  }
  return rooms.get(path);
}

// The texts of printed lines. An LF ends each.
const lines_of = (done) => done.text().split("\n").slice(0, -1);

const numeric_of = ({ numeric }) => (numeric ? ["--numeric"] : []);

function options_of({ weighting, identical, numeric }) {
  return [...(weighting ? ["--weighting", weighting] : []), ...(identical ? ["--identical"] : []), ...numeric_of({ numeric })];
}

// Runs a command. Where memory runs out, this worker ends, and another one has all memory again.
function run(words, files, input) {
  const done = uca.run(words, files, input);
  if (done.status === OUT_OF_MEMORY) throw new RangeError("out of memory");
  return done;
}

// Runs a command that has no reason to fail. Where it fails all the same, its message is an error of this worker.
function done_by(words, files, input) {
  const done = run(words, files, input);
  if (done.status) throw new Error(done.message().trim());
  return done;
}

// Plans the rules over the table, and audits what was made.
function judge(files) {
  if (tailored) uca.give_back(tailored);
  tailored = undefined;
  const made = run(["tailor", "table.txt", "data.txt", "rules.txt", "certificate.txt"], files);
  if (made.status) return { rules_error: made.message() };
  tailored = uca.put(made.out);
  Object.assign(files, { "tailored.txt": tailored, "certificate.txt": made.kept });
  const audit = run(["audit", ...Object.keys(files)], files);
  const verdict = audit.text() + audit.message();
  return { verdict, accepted: audit.status === 0, tailored: made.out, certificate: made.kept };
}

// Judges the rules, and sorts the lines by both tables.
async function order({ table, rules, words, settings }) {
  const files = { "table.txt": await file(table), "data.txt": await file("made/data.txt"), "rules.txt": rules };
  const sort = (name) => ["sort", ...options_of(settings), name, "data.txt"];
  const judged = judge(files);
  const before = run(sort("table.txt"), files, words);
  if (before.status) return { ...judged, input_error: before.message() };
  const found = { ...judged, before: lines_of(before) };
  if (!tailored) return found;
  const after = done_by(sort("tailored.txt"), files, words);
  const may_move = done_by(["affected", ...numeric_of(settings), "data.txt", "rules.txt"], files, words);
  return { ...found, after: lines_of(after), sorted: after.out, may_move: lines_of(may_move) };
}

// The levels of the key of a line, by the table and by the table that the last rules made.
async function key({ table, word, settings }) {
  const files = { "table.txt": await file(table), "data.txt": await file("made/data.txt") };
  if (tailored) files["tailored.txt"] = tailored;
  const keyed = (name) => {
    const done = run(["keys", ...options_of(settings), name, "data.txt"], files, `${word}\n`);
    return done.status ? { error: done.message() } : { levels: levels(lines_of(done)[0], settings.identical) };
  };
  return { before: keyed("table.txt"), after: tailored ? keyed("tailored.txt") : undefined };
}

// Loads the module, and sees that Unicode's table is well-formed.
async function load({ module }) {
  const name = module ?? Uca.module_name();
  uca = await Uca.load(await fetched(`made/${name}`));
  const files = { "table.txt": await file("made/table.txt"), "data.txt": await file("made/data.txt") };
  const check = run(["check", "table.txt", "data.txt"], files);
  return { module: name, version: run(["--version"]).text().trim(), verdict: check.text() + check.message() };
}

const WORK = { load, order, key };

// One message at a time, in their order.
let last = Promise.resolve();
self.onmessage = ({ data }) => {
  last = last.then(async () => {
    try {
      self.postMessage({ number: data.number, found: await WORK[data.work](data) });
    } catch (error) {
      const is_lost = Boolean(uca?.stopped) || error instanceof RangeError;
      self.postMessage({ number: data.number, error: String(error.message ?? error), is_lost });
    }
  });
};

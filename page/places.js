// Places in rules: that of a byte, and that of a relation by its number.

const encoder = new TextEncoder();
const decoder = new TextDecoder();

// The place of the character at a byte of the UTF-8 of a text: where it begins and ends in the text, its line and its
// column, which count from 1.
export function place_of_byte(text, byte) {
  const start = decoder.decode(encoder.encode(text).subarray(0, byte)).length;
  return place(text, start, start + (text.codePointAt(start) > 0xffff ? 2 : 1));
}

function place(text, start, end) {
  const before = text.slice(0, start);
  const column = [...before.slice(before.lastIndexOf("\n") + 1)].length + 1;
  return { start, end: Math.min(end, text.length), line: before.split("\n").length, column };
}

// The next part of rules from an index on: white space or a comment, a reset with its bracket, a sign, a slash, or a
// piece of a text.
const KINDS = [
  /[\t-\r \u0085\u200e\u200f\u2028\u2029]+|#[^\n\f\r\u0085\u2028\u2029]*/,
  /&(?:\[[^\]]*\])?/,
  /(?:<{1,3}|=)\*?/,
  /\//,
  /'(?:''|[^'])+'|''|\\u[0-9A-Fa-f]{4}|\\U[0-9A-Fa-f]{8}|\\[^]|-|[^]/,
];
const PART = new RegExp(KINDS.map((kind) => `(${kind.source})`).join("|"), "gu");

// The characters of a piece of a starred text.
function characters(piece) {
  if (/^\\[uU]../.test(piece)) return [String.fromCodePoint(parseInt(piece.slice(2), 16))];
  if (piece === "''") return ["'"];
  if (piece.startsWith("\\")) return [piece.slice(1)];
  return piece.length > 2 && piece.startsWith("'") ? [...piece.slice(1, -1).replaceAll("''", "'")] : [piece];
}

// The places of relations as a scan goes through rules.
class Relations {
  constructor() {
    this.places = [];
    this.end_text();
  }

  end_text() {
    this.is_in_target = this.is_starred = this.is_range = false;
    this.last = undefined;
  }

  begin(sign) {
    this.end_text();
    [this.is_in_target, this.is_starred, this.is_first] = [true, sign.endsWith("*"), true];
  }

  // A piece of a text. Where the text is no target, it is passed over.
  add(piece, start) {
    const end = start + piece.length;
    if (!this.is_in_target) return;
    if (this.is_starred) this.add_starred(piece, { start, end });
    else if (this.is_first) this.places.push({ start, end });
    else this.places.at(-1).end = end;
    this.is_first = false;
  }

  add_starred(piece, at) {
    if (piece === "-" && this.last !== undefined) {
      this.is_range = true;
      return;
    }
    const targets = characters(piece);
    const between = this.is_range ? targets[0].codePointAt(0) - this.last.codePointAt(0) - 1 : 0;
    for (let i = 0; i < between + targets.length; i++) this.places.push(at);
    [this.last, this.is_range] = [targets.at(-1), false];
  }
}

// The place of each relation, in their order. Each target of a starred sign is one.
export function relations(text) {
  const found = new Relations();
  for (const { 0: piece, 1: space, 2: reset, 3: sign, 4: slash, index } of text.matchAll(PART)) {
    if (sign) found.begin(sign);
    else if (reset || slash) found.end_text();
    else if (space === undefined) found.add(piece, index);
  }
  return found.places.map(({ start, end }) => place(text, start, end));
}

// What a message of `uca` means, in a sentence. docs/MESSAGES.md has all messages.

// Errors in rules, by their kind. `what` says what is wrong there, and `do` what to do.
export const RULES = {
  Syntax: {
    what: "A character stands here that may not be here; or a quote has no end; or a reset (&) has no relation.",
    do: "Quote punctuation and blanks, as in '!' or 'ice cream'. Write & or a sign such as < before each text.",
  },
  EmptyText: {
    what: "A text is missing here, after &, a sign or /.",
    do: "Write the text. Or take the blank out of a sign: <<<, not << <.",
  },
  Escape: {
    what: "This backslash has no code point after it.",
    do: "Write all digits: \\u and four of them, as in \\u00E9, or \\U and eight.",
  },
  BeforeStrength: {
    what: "After [before 1] the first sign is <, after [before 2] it is <<, and after [before 3] it is <<<.",
    do: "Change the sign or the number.",
  },
  DuplicateTarget: {
    what: "This target is the target of an earlier relation already. (é and e\\u0301 are one text.)",
    do: "Delete one of the two relations.",
  },
  LateTarget: {
    what: "The code points of this target occur in an anchor or an expansion of this relation, or of an earlier one.",
    do: "Put this relation first, or use another anchor.",
  },
  Limit: {
    what: "There is too much here: a text of over 16 code points, over 5,000 relations, or over 1,048,576 bytes.",
    do: "Shorten it. Is this another file, such as a table?",
  },
  Utf8: { what: "The file is not UTF-8 from here on.", do: "Save it as UTF-8." },
  Memory: { what: "The page is out of memory.", do: "Close other pages, or use shorter rules." },
};

// Why rules have no plan.
export const PLANS = {
  BaseIllFormed: { what: "The table is not well-formed.", do: "Choose another table." },
  Anchor: {
    what: "No new weight can be put on the anchor of this relation.",
    do: "Use an anchor that has a row in the table.",
  },
  NeedsPrefix: {
    what: "This target has three or more code points and ends in a combining mark. Without the mark it has no row.",
    do: "Write a relation for the beginning first.",
  },
  Limit: {
    what: "The target of this relation would have more than 32 elements, or the table more than 200,000 rows.",
    do: "Shorten the expansions.",
  },
  ImplicitVariable: {
    what: "The target of this relation would get a weight among those of spaces and punctuation.",
    do: "Give the anchor or the expansion a row.",
  },
  NoRoom: { what: "This level has more weights than places.", do: "Use fewer relations at this level." },
  Memory: { what: "The page is out of memory.", do: "Close other pages, or use shorter rules." },
};

// Lines of words that are rejected.
export const LINES = {
  Utf8: { what: "This line is not UTF-8.", do: "Save the file as UTF-8." },
  TooLong: { what: "This line has more than 1,048,576 code points.", do: "Split it." },
  LongRun: { what: "This line has more than 64 combining marks in a row.", do: "Look for damaged text there." },
  Limit: { what: "There are more than 1,000,000 lines.", do: "Use fewer lines." },
  Memory: { what: "The page is out of memory.", do: "Use fewer lines." },
};

// Why the audit says no.
export const VERDICTS = {
  BaseIllFormed: "The table is not well-formed.",
  TailoredIllFormed: "The new table is not well-formed.",
  Header: "The version, the weighting or the implicit ranges of the two tables differ.",
  Uncovered: "The certificate has no new weight for a weight of this row.",
  RowChanged: "The new row does not have the weights that the certificate gives.",
  RowMissing: "The new table lacks a row.",
  RowExtra: "The new table has a row that is neither old nor a target of the rules.",
  Anchor: "No new weight can be put on the anchor of this relation.",
  NotPlaced: "The target has other elements than its relation asks for.",
  NotFresh: "The new weight is taken already.",
  NotNearest: "Another weight lies between the new weight and that of the anchor.",
};

const MEMORY = { what: "The page is out of memory.", do: "Close other pages, or use fewer words and rules." };
const UNKNOWN = { what: "", do: "docs/MESSAGES.md explains this message." };

// What a message says: its place (`byte`, `relation` or `line`, each a number, if it has one), and sentences.
export function explain(message) {
  const said = message.trim();
  const rules = /^rules(?: byte (\d+))?: (\w+)/.exec(said);
  if (rules) return { said, byte: rules[1] && Number(rules[1]), ...(RULES[rules[2]] ?? UNKNOWN) };
  const plan = /^tailor(?: relation (\d+))?: (\w+)(?: (\d))?/.exec(said);
  if (plan) return { said, relation: plan[1] && Number(plan[1]), level: plan[3], ...(PLANS[plan[2]] ?? UNKNOWN) };
  const line = /^input line (\d+): (\w+)/.exec(said);
  if (line) return { said, line: Number(line[1]), ...(LINES[line[2]] ?? UNKNOWN) };
  const verdict = /^refused \d+ (\w+)(?: relation (\d+))?/.exec(said);
  if (verdict) return { said, relation: verdict[2] && Number(verdict[2]), what: VERDICTS[verdict[1]] ?? "", do: "" };
  return { said, ...(said === "memory" ? MEMORY : UNKNOWN) };
}

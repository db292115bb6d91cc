// A link that carries rules, words and settings. They come after a `#`, which a browser does not send.

// The most characters of a link that programs pass on.
export const MOST_CHARACTERS = 30000;

const NAMES = ["rules", "words", "table", "weighting"];
const MARKS = ["upper", "identical", "numeric"];

export function link_of(state) {
  const found = new URLSearchParams(NAMES.filter((name) => state[name]).map((name) => [name, state[name]]));
  MARKS.filter((name) => state[name]).forEach((name) => found.set(name, "1"));
  return `${location.origin}${location.pathname}#${found}`;
}

// What the address of the page carries, or undefined.
export function state_of(address) {
  const found = new URLSearchParams(address.replace(/^#/, ""));
  if (!found.has("rules") && !found.has("words")) return undefined;
  const texts = NAMES.map((name) => [name, found.get(name) ?? ""]);
  return Object.fromEntries([...texts, ...MARKS.map((name) => [name, found.has(name)])]);
}

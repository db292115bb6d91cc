// A key as `uca keys` prints it, level by level.

const NAMES = ["letters", "accents", "case", "spaces and punctuation"];

// The levels of a printed key: the number and the name of each, and its digits. No weight is 0000, so these digits
// stand between two levels. With `identical` the last level has the code points.
export function levels(key, is_identical) {
  const found = [[]];
  for (const digits of key.split(" ")) {
    if (digits === "0000") found.push([]);
    else if (digits) found.at(-1).push(digits);
  }
  return found.map((weights, i) => {
    const is_last = is_identical && i === found.length - 1;
    return { number: i + 1, name: is_last ? "code points" : NAMES[i], digits: weights.join(" ") };
  });
}

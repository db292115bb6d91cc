// Which lines moved from one order to another.

// Sums over beginnings of a list: the greatest weight of a chain that ends at an index below, and where it ends.
class Chains {
  constructor(length) {
    this.weights = new Float64Array(length + 1);
    this.ends = new Int32Array(length + 1).fill(-1);
  }

  best_below(index) {
    let [weight, end] = [0, -1];
    for (let i = index; i > 0; i -= i & -i) {
      if (this.weights[i] > weight) [weight, end] = [this.weights[i], this.ends[i]];
    }
    return [weight, end];
  }

  add(index, weight, end) {
    for (let i = index + 1; i < this.weights.length; i += i & -i) {
      if (weight > this.weights[i]) [this.weights[i], this.ends[i]] = [weight, end];
    }
  }
}

// The index in `before` of each line of `after`, which has the same lines. Equal lines keep their order.
function indexes(before, after) {
  const places = new Map();
  before.forEach((line, i) => (places.has(line) ? places.get(line).push(i) : places.set(line, [i])));
  places.forEach((list) => list.reverse());
  return after.map((line) => places.get(line).pop());
}

// For each line of `after`: its index in `before`, and whether it moved. The lines that did not move are in the same
// order in both lists. They are all lines that `may_move` does not have (these keep their order, as is proved), and
// as many others as can be.
export function moves(before, after, may_move) {
  const places = indexes(before, after);
  const chains = new Chains(before.length);
  const earlier = new Int32Array(after.length);
  after.forEach((line, i) => {
    const [weight, end] = chains.best_below(places[i]);
    earlier[i] = end;
    chains.add(places[i], weight + (may_move.has(line) ? 1 : after.length + 1), i);
  });
  const moved = new Array(after.length).fill(true);
  for (let i = chains.best_below(before.length)[1]; i >= 0; i = earlier[i]) moved[i] = false;
  return after.map((line, i) => ({ line, before: places[i], moved: moved[i] }));
}

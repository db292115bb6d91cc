// Tries the heap and the arithmetic of page/heap.c in a module that page_heap.py made: node page_heap.mjs MODULE
import { readFileSync } from "node:fs";

const { instance } = await WebAssembly.instantiate(readFileSync(process.argv[2]), {});
const calls = instance.exports;
const MASK = (1n << 64n) - 1n;
const WHOLE = (1n << 128n) - 1n;
let passed = 0, failed = 0;
const see = (holds, said) => {
  if (holds) passed++;
  else { failed++; console.log(`failed: ${said}`); }
};

// Numbers of all sizes, the same in each run.
let seed = 12345n;
const next = () => {
  seed = (seed * 6364136223846793005n + 1442695040888963407n) & MASK;
  return seed >> (seed & 31n);
};
const found = () => (BigInt.asUintN(64, calls.high_half()) << 64n) | BigInt.asUintN(64, calls.low_half());

for (let i = 0; i < 2000; i++) {
  const [a, b, c, d] = [next(), next(), next(), next()], count = i % 128;
  const [left, right] = [(b << 64n) | a, (d << 64n) | c];
  calls.multiply(a, b, c, d);
  see(found() === ((left * right) & WHOLE), `${left} * ${right}`);
  calls.shift_left(a, b, count);
  see(found() === ((left << BigInt(count)) & WHOLE), `${left} << ${count}`);
  calls.shift_right(a, b, count);
  see(found() === left >> BigInt(count), `${left} >> ${count}`);
}
see(calls.call_by_table(0n, 5n, 3n) === 8n && calls.call_by_table(1n, 5n, 3n) === 2n, "calls by the table");

// Blocks keep their bytes while others are taken, moved and given back.
const live = new Map();
const bytes = (place, length) => new Uint8Array(calls.memory.buffer, place, length);
const is_kept = (place, length, mark) => bytes(place, length).every((byte) => byte === mark);
for (let i = 0; i < 20000; i++) {
  const size = Number(next() % 3000n), mark = (i % 250) + 1, places = [...live.keys()];
  if (places.length < 100 || i % 3) {
    const place = Number(calls.allocate(BigInt(size)));
    see(place !== 0 && place % 16 === 0, `a block of ${size} at ${place}`);
    bytes(place, size).fill(mark);
    live.set(place, [size, mark]);
    if (places.length < 300) continue;
  }
  const place = places[Number(next() % BigInt(places.length))], [length, kept] = live.get(place);
  see(is_kept(place, length, kept), `the block at ${place}`);
  live.delete(place);
  if (i % 2 || places.length >= 300) calls.deallocate(BigInt(place));
  else {
    const moved = Number(calls.reallocate(BigInt(place), BigInt(length), BigInt(size)));
    see(is_kept(moved, Math.min(length, size), kept), `the block that moved from ${place}`);
    bytes(moved, size).fill(mark);
    live.set(moved, [size, mark]);
  }
}
see(calls.memory.buffer.byteLength < 8 << 20, `memory: ${calls.memory.buffer.byteLength} bytes`);

// Where memory ends there are no more blocks, and those before keep their bytes.
const LARGE = 1 << 27, large = [];
const ends = (place) => [place, place + LARGE - 8];
see(calls.allocate(1n << 60n) === 0n && calls.allocate(1n << 38n) === 0n, "blocks that are too large");
while (large.length < 1000) {
  const place = Number(calls.allocate(BigInt(LARGE)));
  if (place === 0) break;
  ends(place).forEach((end) => bytes(end, 8).fill(large.length % 250 + 1));
  large.push(place);
}
see(large.length > 0 && large.length < 1000, `large blocks: ${large.length}`);
large.forEach((place, i) => see(ends(place).every((end) => is_kept(end, 8, i % 250 + 1)), `the large block at ${place}`));
live.forEach(([length, kept], place) => see(is_kept(place, length, kept), `the block at ${place}, at the end of memory`));
console.log(`${passed} passed, ${failed} failed`);
process.exit(failed ? 1 : 0);

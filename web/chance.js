// Random lists that a seed fixes: a valid file somewhere in the flash, its blocks in any order and number, mixed with foreign arrivals. By document 01 alone: no
// comments, no regions, and no block that 01 answers 10 and the proved receiver 11. Pure functions.
import { FAMILY } from './board.js';

// Whole numbers below a limit, by SplitMix64.
export function randomBelow(seed) {
  const wrap = (x) => BigInt.asUintN(64, x);
  let state = wrap(BigInt(seed));
  return (limit) => {
    state = wrap(state + 0x9e3779b97f4a7c15n);
    let x = state;
    x = wrap((x ^ (x >> 30n)) * 0xbf58476d1ce4e5b9n);
    x = wrap((x ^ (x >> 27n)) * 0x94d049bb133111ebn);
    return Number((x ^ (x >> 31n)) % BigInt(limit));
  };
}

// What may come besides the file's blocks, each made of one of them.
const FOREIGN = [
  (block) => ({ ...block, fam: FAMILY.riscv }),
  (block) => ({ ...block, fam: 0x1234 }),
  (block) => ({ ...block, at: 0x11ffff00 }),
  (block) => ({ ...block, at: 0xffffff00 }),
  (block) => ({ ...block, at: 0x10000001 }),
  (block) => ({ ...block, flags: 0x3000 }),
  (block) => ({ ...block, flags: 0 }),
  (block) => ({ ...block, size: 255 }),
  (block) => ({ ...block, m3: 0 }),
  (block) => ({ ...block, number: block.total, at: 0x10000000 }),
  (block) => ({ ...block, total: 129 }),
];

function listOf(below) {
  const total = 1 + below(below(4) === 0 ? 40 : 8);
  const first = below(129 - total);
  const order = below(3);
  const block = (number) => ({ number, total, ...(first > 0 ? { at: 0x10000000 + 256 * (first + number) } : {}) });
  const numbers = Array.from({ length: total }, (_, k) => k);
  const list = numbers.filter(() => below(8) > 0 || below(2) === 0);
  for (let k = below(4); k > 0; k--) list.splice(below(list.length + 1), 0, below(total));
  if (order === 1) list.reverse();
  if (order === 2) for (let k = list.length - 1; k > 0; k--) [list[k], list[below(k + 1)]] = [list[below(k + 1)] ?? list[k], list[k]];
  const arrivals = list.map(block);
  for (let k = below(4); k > 0; k--) arrivals.splice(below(arrivals.length + 1), 0, FOREIGN[below(FOREIGN.length)](block(below(total))));
  return arrivals;
}

export function randomLists(count, seed) {
  const below = randomBelow(seed);
  return Array.from({ length: count }, (_, k) => ({ name: `random-${k + 1}`, point: 3, arrivals: listOf(below) })).filter(({ arrivals }) => arrivals.length > 0);
}

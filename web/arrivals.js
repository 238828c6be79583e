// The list of arrivals: which blocks of a file are sent, how often, in which order, and what else is mixed in. Pure functions.

// An order of chance that a number fixes, the same as `vantorel load --shuffle SEED` has.
export function shuffled(list, seed) {
  const out = list.slice();
  const wrap = (x) => BigInt.asUintN(64, x);
  let state = wrap(BigInt(seed));
  for (let k = out.length - 1; k >= 1; k--) {
    // SplitMix64
    state = wrap(state + 0x9e3779b97f4a7c15n);
    let x = state;
    x = wrap((x ^ (x >> 30n)) * 0xbf58476d1ce4e5b9n);
    x = wrap((x ^ (x >> 27n)) * 0x94d049bb133111ebn);
    x ^= x >> 31n;
    const other = Number(x % BigInt(k + 1));
    [out[k], out[other]] = [out[other], out[k]];
  }
  return out;
}

function ordered(list, order, seed) {
  if (order === 'reversed') return list.slice().reverse();
  if (order === 'shuffled') return shuffled(list, seed);
  return list.slice();
}

// `times[k]` is how often piece k is sent; a piece without a number is sent once.
export function sent(count, times) {
  const list = [];
  for (let k = 0; k < count; k++) {
    const n = times.get(k) ?? 1;
    for (let i = 0; i < n; i++) list.push(k);
  }
  return list;
}

// The whole list. An arrival is a piece of the file (`piece`, its index) or an extra one (`extra`, its index). An extra with `after` n comes after n
// arrivals of the file, at the end where there are fewer. With the order 'list' the plan names every arrival itself.
export function arrivalList(plan) {
  if (plan.order === 'list') {
    return plan.list.map((item) => ({ ...item, bytes: item.piece === undefined ? plan.extras[item.extra].bytes : plan.pieces[item.piece] }));
  }
  const own = ordered(sent(plan.pieces.length, plan.times), plan.order, plan.seed);
  const places = Array.from({ length: own.length + 1 }, () => []);
  plan.extras.forEach((extra, k) => places[Math.min(extra.after, own.length)].push({ extra: k, bytes: extra.bytes }));
  const list = places[0];
  own.forEach((piece, n) => list.push({ piece, bytes: plan.pieces[piece] }, ...places[n + 1]));
  return list;
}

// `isFile` says that the pieces are those of a file, and not a list of arrivals.
export function newPlan(pieces, fields = {}) {
  return { pieces, isFile: true, times: new Map(), order: 'file', seed: 1, extras: [], list: [], ...fields };
}

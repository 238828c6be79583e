// A list that fails, made smaller while it fails in the same kind: arrivals left out, a number left out of a file, and what is unusual made plain.

const PLAIN = ['text', 'fill', 'cut', 'size', 'flags', 'm1', 'm2', 'm3', 'fam', 'at'];

// The list without the blocks of a number of a file: the total is one less, and later numbers move up.
function withoutNumber(arrivals, { number, total, fam }) {
  const isOwn = (arrival) => arrival.total === total && arrival.fam === fam;
  return arrivals
    .filter((arrival) => !isOwn(arrival) || arrival.number !== number)
    .map((arrival) => (isOwn(arrival) ? { ...arrival, total: total - 1, number: arrival.number > number ? arrival.number - 1 : arrival.number } : arrival));
}

// The lists to try next, the smallest first.
function* smaller(arrivals) {
  for (let length = Math.ceil(arrivals.length / 2); length >= 1; length = length === 1 ? 0 : Math.ceil(length / 2)) {
    for (let at = 0; at < arrivals.length; at += length) yield [...arrivals.slice(0, at), ...arrivals.slice(at + length)];
  }
  const files = new Map(arrivals.map((arrival) => [`${arrival.total} ${arrival.fam}`, arrival]));
  for (const { total, fam } of files.values()) {
    for (let number = 0; total > 1 && total <= 256 && number < total; number++) yield withoutNumber(arrivals, { number, total, fam });
  }
  for (const [k, arrival] of arrivals.entries()) {
    for (const name of PLAIN.filter((field) => field in arrival)) {
      const { [name]: _, ...plain } = arrival;
      yield arrivals.map((other, j) => (j === k ? plain : other));
    }
  }
}

// The smallest list found for which `fails(arrivals)` is so, with at most so many tries.
export async function shrunk(arrivals, fails, most = 400) {
  let best = arrivals;
  let tries = 0;
  for (let found = true; found; ) {
    found = false;
    for (const candidate of smaller(best)) {
      if (candidate.length === 0) continue;
      if (++tries > most) return best;
      if (await fails(candidate)) {
        best = candidate;
        found = true;
        break;
      }
    }
  }
  return best;
}

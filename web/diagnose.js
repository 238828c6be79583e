// Which known mistakes answer as a hand-in does. A mistake explains a wrong list if its first deviation from what is right is the hand-in's; a right list in which it
// deviates speaks against it. It is always "as if": what its writer thought is not known.
import { MISTAKES, Mistaken } from './mistakes.js';
import { bytesOf, deviationOf } from './judge.js';

// What is known of a list already: the deviation of each receiver with switches that has played it.
const known = new WeakMap();

// The deviation of a receiver with these switches in a list, as a text; null where there is none.
function keyOf(list, right, helpers, on, answer) {
  if (!known.has(list)) known.set(list, new Map());
  const name = `${on.join()} ${answer}`;
  const keys = known.get(list);
  if (!keys.has(name)) keys.set(name, playedKey(list, right, helpers, on, answer));
  return keys.get(name);
}

function playedKey(list, right, helpers, on, answer) {
  const student = new Mistaken(list.board, helpers, on, answer);
  const steps = bytesOf(list).map((bytes) => {
    const { answer: given, discarded } = student.take(bytes);
    return { answer: given, discarded, ...student.said };
  });
  return deviationOf(list, right, steps, student.bytes('flash'))?.key ?? null;
}

// How switches fit what was seen. `seen` has the lists with what is right and the hand-in's deviation.
function scoreOf(seen, helpers, on, answer) {
  let explains = 0;
  let against = 0;
  for (const { list, right, key } of seen) {
    const own = keyOf(list, right, helpers, on, answer);
    if (key !== null && own === key) explains++;
    if (key === null && own !== null) against++;
  }
  return { on, explains, against };
}

// The answer that a hand-in gives where it should give another, most often: for the mistakes that answer with one number.
function usualAnswer(seen) {
  const counts = new Map();
  for (const { key } of seen) {
    const [, answer] = /^answer \d+ (\d+)/.exec(key ?? '') ?? [];
    if (answer) counts.set(answer, (counts.get(answer) ?? 0) + 1);
  }
  return Number([...counts].sort((a, b) => b[1] - a[1])[0]?.[0] ?? 8);
}

// The diagnosis: `explained` are the sets of mistakes that explain every wrong list and have nothing against them, alone or in pairs; else `nearest` is the one that
// explains most; both empty where none of the known mistakes is near. `pause()` is awaited now and then.
export async function diagnosed(seen, helpers, pause) {
  const wrong = seen.filter(({ key }) => key !== null).length;
  const answer = usualAnswer(seen);
  const singles = [];
  for (const { id } of MISTAKES) {
    singles.push(scoreOf(seen, helpers, [id], answer));
    await pause();
  }
  const whole = (score) => score.explains === wrong && score.against === 0;
  const alone = singles.filter(whole);
  if (alone.length > 0) return { wrong, explained: alone.map(({ on }) => on), nearest: null };
  const some = singles.filter(({ explains, against }) => explains > 0 && against === 0).sort((a, b) => b.explains - a.explains).slice(0, 12);
  const pairs = [];
  for (let a = 0; a < some.length; a++) {
    for (let b = a + 1; b < some.length; b++) {
      const score = scoreOf(seen, helpers, [...some[a].on, ...some[b].on], answer);
      if (whole(score)) pairs.push(score.on);
      await pause();
    }
  }
  if (pairs.length > 0) return { wrong, explained: pairs, nearest: null };
  const [best] = singles.sort((a, b) => b.explains - b.against - (a.explains - a.against));
  return { wrong, explained: [], nearest: best.explains > best.against ? best : null };
}

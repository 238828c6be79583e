// A receiver judged on the three points of document 00, list by list. What is right comes from the proved library; a pass is over so many lists, and is no proof.
import { N } from './numbers.js';
import { PAYLOAD } from './block.js';
import { lentFlash } from './board.js';
import { same } from './bytes.js';
import { ProvedReceiver } from './proved.js';
import { arrivalBytes } from './cases.js';

// What can be wrong with a list, the worst first.
export const KINDS = ['end', 'crash', 'form', 'refusal', 'falselyComplete', 'answer', 'state', 'contents'];

const told = ({ state, total, count }) => (state === 'idle' ? { state, total: 0, count: 0 } : { state, total, count });
const isSame = (a, b) => a.state === b.state && a.total === b.total && a.count === b.count;

// The bytes of each list are made once: a diagnosis plays it for every known mistake.
const made = new WeakMap();

export function bytesOf(list) {
  if (!made.has(list.arrivals)) made.set(list.arrivals, list.arrivals.map(arrivalBytes));
  return made.get(list.arrivals);
}

// The right answers, states and reasons of a list, and the flash at its end, by the proved library.
export function rightOf(library, list) {
  library.clear();
  const receiver = new ProvedReceiver(library, list.board);
  const steps = bytesOf(list).map((bytes) => {
    const reason = receiver.why(bytes);
    const { answer, discarded } = receiver.take(bytes);
    return { answer, discarded, reason, ...told(receiver.transfer) };
  });
  return { steps, flash: receiver.bytes('flash').slice() };
}

// The flash after steps that tell the pages which they changed.
function flashAfter(list, steps) {
  const flash = lentFlash(list.board);
  for (const { pages } of steps) for (const [page, bytes] of pages) flash.set(bytes, page * PAYLOAD);
  return flash;
}

// The first page in which two flashes differ, or -1.
function firstWrongPage(a, b) {
  for (let page = 0; page * PAYLOAD < a.length; page++) {
    if (!same(a.subarray(page * PAYLOAD, (page + 1) * PAYLOAD), b.subarray(page * PAYLOAD, (page + 1) * PAYLOAD))) return page;
  }
  return -1;
}

// Where steps first go another way than the right ones: in an answer or a state, and in a list of point 3 else in a page of the flash at the end. Null where nowhere.
export function deviationOf(list, right, steps, flash) {
  const at = right.steps.findIndex((step, k) => step.answer !== steps[k].answer || step.discarded !== steps[k].discarded || !isSame(step, told(steps[k])));
  if (at >= 0) {
    const { answer, discarded } = steps[at];
    const inAnswer = answer !== right.steps[at].answer || discarded !== right.steps[at].discarded;
    return { what: inAnswer ? 'answer' : 'state', at, key: inAnswer ? `answer ${at} ${answer} ${discarded}` : `state ${at} ${JSON.stringify(told(steps[at]))}` };
  }
  const page = list.point === 3 ? firstWrongPage(flash, right.flash) : -1;
  if (page < 0) return null;
  return { what: 'contents', page, key: `page ${page} ${flash.subarray(page * PAYLOAD, (page + 1) * PAYLOAD).join()}` };
}

// The first arrival that it refused itself, with 1 to 13, and at which something changed all the same; or -1.
function changedByRefusal(steps) {
  const before = (k) => (k === 0 ? { state: 'idle', total: 0, count: 0 } : told(steps[k - 1]));
  return steps.findIndex((step, k) => step.answer >= 1 && step.answer < N.UF2_ANSWER_WRITTEN && (step.pages.length > 0 || step.maps || !isSame(told(step), before(k))));
}

// What is wrong with how a list was played, by points: point 1 asks every list, a list's own point the answers. `deviation` is for the diagnosis.
export function judged(list, right, { steps, failed }) {
  if (failed) return { faults: [{ point: 1, kind: failed.kind, at: failed.at, failed }, ...(list.point === 1 ? [] : [{ point: list.point, kind: failed.kind, at: failed.at, failed }])], deviation: null };
  const faults = [];
  const flash = flashAfter(list, steps);
  const refusal = changedByRefusal(steps);
  if (refusal >= 0) faults.push({ point: 1, kind: 'refusal', at: refusal });
  const deviation = deviationOf(list, right, steps, flash);
  if (deviation && list.point > 1) {
    const isFalse = deviation.what === 'answer' && steps[deviation.at].answer === N.UF2_ANSWER_COMPLETED;
    faults.push({ point: list.point, kind: isFalse ? 'falselyComplete' : deviation.what, at: deviation.at ?? -1, page: deviation.page });
  }
  return { faults, deviation };
}

// Whether the library finds the settings of a list's board good. A receiver on this page is not asked for the others.
export function isGoodBoard(right) {
  return right.steps.every(({ answer }) => answer !== N.UF2_ANSWER_BAD_SETTINGS);
}

// The marks of a receiver: for each point how many lists asked it, how many it failed, and whether it was marked at all.
export function marksOf(lists, results) {
  const played = results.filter((result) => result !== null);
  return [1, 2, 3].map((point) => {
    const asks = (list) => point === 1 || list.point === point;
    const asked = lists.filter(asks).length;
    const failed = played.filter(({ faults }) => faults.some((fault) => fault.point === point)).length;
    const whole = lists.every((list, k) => !asks(list) || results[k] !== null);
    return { point, asked, failed, mark: failed > 0 ? 'notHeld' : whole ? 'held' : 'notMarked' };
  });
}

// The shortest list of arrivals in which two receivers differ: breadth first over an alphabet of arrivals, in steps.
import { same } from './bytes.js';

// What two receivers are asked to differ in.
export const GOALS = {
  // an answer, "discarded", the state or a byte of the flash
  differ: (a, b) =>
    a.taken.answer !== b.taken.answer || a.taken.discarded !== b.taken.discarded || a.transfer.state !== b.transfer.state || !same(words(a.flash), words(b.flash)),
  // the second says that it is done, and the first does not
  falselyDone: (a, b) => b.transfer.state === 'done' && a.transfer.state !== 'done',
};

// Bytes as words of 32 bits: buffers begin at multiples of 4 and have such lengths.
function words(bytes) {
  return new Uint32Array(bytes.buffer, bytes.byteOffset, bytes.length / 4);
}

// A short text of bytes: two states with the same text are taken for the same (two sums of 32 bits).
function digest(parts) {
  let h = 0x811c9dc5;
  let g = 0x1234567;
  for (const part of parts) {
    for (let k = 0; k < part.length; k++) {
      h = Math.imul(h ^ part[k], 0x01000193);
      g = (Math.imul(g ^ part[k], 0x5bd1e995) + k) | 0;
    }
  }
  return `${h} ${g}`;
}

function key(receiver) {
  const { state, family, total, count, kind } = receiver.transfer;
  const parts = ['seen', 'sectors', 'flash'].map((name) => words(receiver.bytes(name)));
  return `${state} ${family} ${total} ${count} ${kind} ${digest(parts)}`;
}

function play(receiver, alphabet, path) {
  receiver.reset();
  for (const k of path) receiver.take(alphabet[k]);
}

function takeLast(receiver, arrival) {
  const taken = receiver.take(arrival);
  return { taken, transfer: receiver.transfer, flash: receiver.bytes('flash') };
}

// Yields how far it is after each try; returns the list as indices into the alphabet, or null where none was found within the limits.
export function* shortestDifference(first, second, alphabet, goal, limits) {
  const known = new Set();
  let level = [[]];
  let tried = 0;
  for (let depth = 1; depth <= limits.depth && level.length > 0; depth++) {
    const next = [];
    for (const path of level) {
      for (let k = 0; k < alphabet.length; k++) {
        if (++tried > limits.tries) return null;
        play(first, alphabet, path);
        play(second, alphabet, path);
        const longer = [...path, k];
        if (goal(takeLast(first, alphabet[k]), takeLast(second, alphabet[k]))) return longer;
        const both = `${key(first)} ${key(second)}`;
        if (!known.has(both)) {
          known.add(both);
          next.push(longer);
        }
        yield { tried, depth };
      }
    }
    level = next;
  }
  return null;
}

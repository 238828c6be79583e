// A receiver that somebody writes in the page, played in a worker of its own. The page's policy goes with the worker: no network and no other code. A list is played
// whole; where no answer comes in time the worker is ended. Nothing of such a receiver is proved.
import { N } from './numbers.js';
import { PAYLOAD, isBlock, payloadOf, readBlock } from './block.js';
import { lentFlash } from './board.js';
import { same } from './bytes.js';

export const LIMIT = 2000;
export const NO_ANSWER = 255;
export const MOST_FLASH = 1048576;

// What the worker does, in one line, so that line n of the receiver is line n + 1 of the worker's code.
function serveYours(post) {
  const STATES = ['idle', 'running', 'done'];
  const PAGE = 256;
  const whole = (x, most) => Number.isInteger(x) && x >= 0 && x <= most;
  const kindOf = (x) => (x === null ? 'null' : x instanceof Promise ? 'a promise' : Array.isArray(x) ? 'an array' : typeof x === 'object' ? 'an object' : typeof x === 'undefined' ? 'undefined' : `${typeof x} ${String(x)}`);
  const lineOf = (error) => Number((/blob:[^)\n]*?:(\d+):\d+/.exec(String(error && error.stack)) || [])[1] || 0) - 1;
  const formOf = (r, t) => {
    if (r === null || typeof r !== 'object' || !('answer' in r)) return { what: 'returned', words: kindOf(r) };
    if (!whole(r.answer, 31)) return { what: 'answer', words: kindOf(r.answer) };
    if (![true, false, 0, 1, undefined].includes(r.discarded)) return { what: 'discarded', words: kindOf(r.discarded) };
    if (!STATES.includes(t.state)) return { what: 'state', words: kindOf(t.state) };
    if (t.state !== 'idle' && !['family', 'total', 'count'].every((name) => whole(t[name], 4294967295))) return { what: 'numbers', words: ['family', 'total', 'count'].map((name) => kindOf(t[name])).join(', ') };
    return null;
  };
  const changed = (now, before) => {
    const pages = [];
    for (let at = 0; at < now.length; at += PAGE) {
      for (let k = at; k < at + PAGE; k++) {
        if (now[k] === before[k]) continue;
        pages.push([at / PAGE, now.slice(at, at + PAGE)]);
        before.set(now.subarray(at, at + PAGE), at);
        break;
      }
    }
    return pages;
  };
  const play = (list, index, record) => {
    const t = { state: 'idle', family: 0, total: 0, count: 0 };
    const flash = list.lent.slice();
    const seen = new Uint8Array(16384);
    const sectors = new Uint8Array(1024);
    const before = { flash: flash.slice(), seen: seen.slice(), sectors: sectors.slice() };
    const steps = [];
    for (let k = 0; k < list.arrivals.length; k++) {
      post({ list: index, at: k });
      let result;
      try {
        result = take(structuredClone(list.board), t, list.arrivals[k].slice(), flash, seen, sectors);
      } catch (error) {
        return { steps, failed: { kind: 'crash', at: k, words: String(error), line: lineOf(error) } };
      }
      const form = formOf(result, t);
      if (form) return { steps, failed: { kind: 'form', at: k, ...form } };
      const maps = changed(seen, before.seen).length + changed(sectors, before.sectors).length > 0;
      const step = { answer: result.answer, discarded: Boolean(result.discarded), state: t.state, family: t.family, total: t.total, count: t.count, pages: changed(flash, before.flash), maps };
      steps.push(record ? { ...step, seen: seen.slice(), sectors: sectors.slice() } : step);
    }
    return { steps, failed: null };
  };
  self.onmessage = ({ data }) => {
    if (typeof take !== 'function') {
      post({ none: true });
      return;
    }
    data.lists.forEach((list, index) => post({ list: index, ...play(list, index, data.record) }));
    post({ done: true });
  };
}

function headLine() {
  return `'use strict'; (${serveYours.toString().replace(/\n\s*\/\/.*$/gm, '').replace(/\n\s*/g, ' ')})(self.postMessage.bind(self));`;
}

// One list as the worker gets it.
export function listFor(board, arrivals) {
  return { board, arrivals, lent: lentFlash(board) };
}

// What a receiver cannot be played for at all: no function, or code that is none. The line is the receiver's own.
function brokenBy(event) {
  return { kind: 'syntax', line: Math.max(0, (event.lineno ?? 0) - 1), words: String(event.message ?? '').replace(/^Uncaught /, '') };
}

// Plays lists in one worker until one does not end. `found(index, { steps, failed })` is called for each that was played; returns how the worker ended: `broken` where
// the code cannot be played, `hung` with the list and arrival that got no answer, else null.
function playSome(code, lists, record, limit, found) {
  const url = URL.createObjectURL(new Blob([headLine(), '\n', code], { type: 'text/javascript' }));
  const worker = new Worker(url);
  return new Promise((done) => {
    let last = { list: 0, at: 0 };
    let timer;
    const end = (result) => {
      clearTimeout(timer);
      worker.terminate();
      URL.revokeObjectURL(url);
      done(result);
    };
    const wait = () => {
      clearTimeout(timer);
      timer = setTimeout(() => end({ hung: last }), limit);
    };
    worker.onmessage = ({ data }) => {
      if (data.done) return end(null);
      if (data.none) return end({ broken: { kind: 'none', line: 0, words: '' } });
      wait();
      if (data.steps) found(data.list, data);
      else last = { list: data.list, at: data.at };
    };
    worker.onerror = (event) => {
      event.preventDefault();
      end({ broken: brokenBy(event) });
    };
    wait();
    worker.postMessage({ lists, record });
  });
}

// Plays lists, each to its end or to where no answer came. Returns `broken`, or the results in the order of the lists; null for those that were not played, since too
// many before them did not end. `told(k)` is called as they are played, and returns false where nobody waits any more.
export async function playYours(code, lists, { record = false, told = () => true, mostHung = 12 } = {}) {
  const results = lists.map(() => null);
  let from = 0;
  let hung = 0;
  while (from < lists.length && hung < mostHung) {
    const base = from;
    const limit = hung < 3 ? LIMIT : LIMIT / 4;
    let wanted = true;
    const end = await playSome(code, lists.slice(base), record, limit, (index, result) => {
      results[base + index] = result;
      wanted = told(base + index + 1) !== false;
    });
    if (end?.broken) return { broken: end.broken, results };
    if (!end || !wanted) break;
    const { list, at } = end.hung;
    results[base + list] = { steps: [], failed: { kind: 'end', at, limit } };
    hung++;
    from = base + list + 1;
  }
  return { broken: null, results };
}

// A list that was played in a worker, with the interface of the other receivers: each take is the next recorded step.
export class RecordedReceiver {
  // `storage(block)` says where a block's page belongs.
  constructor(board, recording, storage) {
    this.recording = recording;
    this.storage = storage;
    this.lent = lentFlash(board);
    this.memory = { flash: this.lent.slice(), seen: new Uint8Array(N.UF2_SEEN_MAP_SIZE), sectors: new Uint8Array(N.UF2_SECTOR_MAP_SIZE), main: new Uint8Array(0), xip: new Uint8Array(0) };
    this.reset();
  }

  reset() {
    this.memory.flash.set(this.lent);
    this.memory.seen.fill(0);
    this.memory.sectors.fill(0);
    this.at = 0;
    this.transfer = { state: 'idle', family: 0, total: 0, count: 0, kind: 'flash' };
  }

  bytes(name) {
    return this.memory[name];
  }

  why() {
    return null;
  }

  // Why there is no answer from here on, or null.
  get failed() {
    const { failed } = this.recording;
    return failed && this.at > failed.at ? failed : null;
  }

  take(arrival) {
    const step = this.recording.steps[this.at++];
    if (!step) return { answer: NO_ANSWER, discarded: false, cleared: false, erased: -1, page: null, kept: false };
    const before = this.transfer.state;
    for (const [page, bytes] of step.pages) this.memory.flash.set(bytes, page * PAYLOAD);
    this.memory.seen.set(step.seen);
    this.memory.sectors.set(step.sectors);
    this.transfer = { state: step.state, family: step.family, total: step.total, count: step.count, kind: 'flash' };
    const { answer, discarded } = step;
    const cleared = answer >= N.UF2_ANSWER_WRITTEN && (before === 'idle' || discarded);
    return { answer, discarded, cleared, erased: -1, page: this.storedBy(answer, arrival), kept: false, changes: step.pages.map(([page, bytes]) => ({ page, erased: bytes.every((x) => x === 0xff) })) };
  }

  // Where the page of an accepted block stands, if it does.
  storedBy(answer, arrival) {
    if (answer < N.UF2_ANSWER_WRITTEN || answer > N.UF2_ANSWER_COMPLETED || !isBlock(arrival)) return null;
    const place = this.storage(readBlock(arrival));
    return place?.memory === 'flash' && same(this.memory.flash.subarray(place.at, place.at + PAYLOAD), payloadOf(arrival)) ? place : null;
  }

  save() {
    return { at: this.at, transfer: this.transfer, ...Object.fromEntries(['flash', 'seen', 'sectors'].map((name) => [name, this.memory[name].slice()])) };
  }

  restore(copy) {
    Object.assign(this, { at: copy.at, transfer: copy.transfer });
    for (const name of ['flash', 'seen', 'sectors']) this.memory[name].set(copy[name]);
  }
}

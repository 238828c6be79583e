// What was done to each page of a board's memories, and what of it a file expects. Display only: it follows what the receiver did.
import { SECTOR } from './board.js';
import { PAYLOAD, PAYLOAD_AT } from './block.js';
import { isMarked, same, sameAt } from './bytes.js';

const STATUS = { lent: 0, erased: 1, stored: 2, kept: 3, left: 4, waiting: 5, missing: 6 };
export const STATUS_NAMES = Object.keys(STATUS);
const PER_SECTOR = SECTOR / PAYLOAD;

export class Pages {
  constructor(receiver) {
    this.marks = {};
    for (const memory of ['flash', 'main', 'xip']) {
      this.marks[memory] = new Uint8Array(Math.ceil(receiver.bytes(memory).length / PAYLOAD));
    }
  }

  // What an arrival did.
  note(taken) {
    if (taken.cleared && taken.discarded) {
      for (const marks of Object.values(this.marks)) {
        for (let k = 0; k < marks.length; k++) if (marks[k] === STATUS.stored || marks[k] === STATUS.kept) marks[k] = STATUS.left;
      }
    }
    if (taken.erased >= 0) {
      const from = taken.erased * PER_SECTOR;
      this.marks.flash.fill(STATUS.erased, from, from + PER_SECTOR);
    }
    for (const { page, erased } of taken.changes ?? []) this.marks.flash[page] = erased ? STATUS.erased : STATUS.stored;
    if (taken.page) {
      const marks = this.marks[taken.page.memory];
      const first = Math.floor(taken.page.at / PAYLOAD);
      const last = Math.floor((taken.page.at + PAYLOAD - 1) / PAYLOAD);
      for (let k = first; k <= last; k++) marks[k] = taken.kept ? STATUS.kept : STATUS.stored;
    }
  }

  save() {
    return Object.fromEntries(Object.entries(this.marks).map(([name, marks]) => [name, marks.slice()]));
  }

  restore(copy) {
    for (const [name, marks] of Object.entries(copy)) this.marks[name].set(marks);
  }
}

// Whether a page was stored and its bytes are where they belong, or was kept: then the flash has what the region names, whatever the payload says.
// `memory` are the bytes and `marks` the marks of its memory. A page of which no block is at hand is nowhere.
function isThere(page, memory, marks) {
  if (!page.piece) return false;
  const { at } = page.storage;
  const status = marks[Math.floor(at / PAYLOAD)];
  return status === STATUS.kept || (status === STATUS.stored && sameAt(memory, at, page.piece, PAYLOAD_AT, PAYLOAD));
}

// What stands where a missing page belongs: erased bytes, the bytes as lent, its own that another transfer stored, another page of the file,
// that of another block with its number, or other bytes.
export function standsThere(receiver, page, file) {
  const { memory, at } = page.storage;
  const bytes = receiver.bytes(memory).slice(at, at + PAYLOAD);
  const start = bytes.slice(0, 16);
  if (bytes.every((x) => x === 0xff)) return { what: 'erased', start };
  const before = memory === 'flash' ? receiver.lent.subarray(at, at + PAYLOAD) : new Uint8Array(PAYLOAD);
  if (same(bytes, before)) return { what: 'lent', start };
  const isOf = (q) => q.piece !== null && sameAt(bytes, 0, q.piece, PAYLOAD_AT, PAYLOAD);
  if (isOf(page)) return { what: 'own', start };
  const other = file.pages.find(isOf) ?? file.others.find(isOf);
  if (!other) return { what: 'other', start };
  return { what: other.number === page.number ? 'twin' : 'block', number: other.number, start };
}

// The cells of a memory's grid: what was done to each page, and which pages of the file are still to come (`waiting`) or, once the list has ended, the
// receiver says that it is done or the page has been marked, are not there (`missing`).
export function cells(run, file, memory, ended) {
  const { receiver } = run;
  const { transfer } = receiver;
  const marks = run.pages.marks[memory];
  const out = marks.slice();
  const bytes = receiver.bytes(memory);
  const seen = receiver.bytes('seen');
  const over = ended || transfer.state === 'done';
  const own = transfer.state !== 'idle' && transfer.family === file.family && transfer.total === file.total;
  for (const page of file.pages) {
    if (!page.storage || page.storage.memory !== memory || isThere(page, bytes, marks)) continue;
    const k = Math.floor(page.storage.at / PAYLOAD);
    // what another file has stored there is shown as long as that file runs
    if (!over && !own && marks[k] === STATUS.stored) continue;
    out[k] = over || (own && isMarked(seen, page.number)) ? STATUS.missing : STATUS.waiting;
  }
  return out;
}

// The pages of the file that are not there now.
export function missingPages(run, file) {
  const bytes = { flash: run.receiver.bytes('flash'), main: run.receiver.bytes('main'), xip: run.receiver.bytes('xip') };
  return file.pages.filter((page) => !page.storage || !isThere(page, bytes[page.storage.memory], run.pages.marks[page.storage.memory]));
}

// Whether some page was kept.
export function someKept(run) {
  return Object.values(run.pages.marks).some((marks) => marks.includes(STATUS.kept));
}

// How many cells have each status.
export function countCells(status) {
  const counts = new Array(STATUS_NAMES.length).fill(0);
  for (let k = 0; k < status.length; k++) counts[status[k]]++;
  return counts;
}

// The files that the blocks at hand belong to. Blocks of one family and one total are a file, and a file has the numbers 0 to its total less 1, whether or
// not a block of each is at hand. The proved receiver says which blocks the board refuses, and where the page of any other belongs.
import { N } from './numbers.js';
import { PAYLOAD, readBlock } from './block.js';
import { isSamplePage, pageNames } from './firmware.js';
import { same } from './bytes.js';
import { regionFlaw } from './regions.js';

const MOST_PAGES = N.UF2_FLASH_MAX_SIZE / PAYLOAD;
const AT_ONCE = 4096;

// A block's page: number, address, memory and byte, and the answer by which the board refuses it, or 0. A comment is stored nowhere.
function pageOf(block, piece, receiver) {
  const refused = receiver.refusal(piece);
  const storage = refused || block.comment ? null : receiver.storage(block);
  return { number: block.number, address: block.address, comment: block.comment, flags: block.flags, refused, storage, piece };
}

// Of two blocks with one number the first counts; but one that is taken goes before one that is refused, and data before a comment.
function isBetter(page, known) {
  if (known.refused || page.refused) return known.refused > 0 && page.refused === 0;
  return known.comment && !page.comment;
}

// Two blocks of one number that the board would both take, and that are not the same.
function clashOf(page, known) {
  if (page.refused || known.refused || same(page.piece, known.piece)) return null;
  return { what: page.comment === known.comment ? 'sameNumber' : 'commentNumber', number: page.number };
}

// Data blocks that would be stored in different memories or over one another.
function overlapOf(pages) {
  const data = pages.filter((page) => page.storage).sort((a, b) => a.storage.at - b.storage.at);
  const apart = data.find((page) => page.storage.memory !== data[0].storage.memory);
  if (apart) return { what: 'memories', pages: [data[0], apart] };
  const over = data.findIndex((page, k) => k > 0 && page.storage.at < data[k - 1].storage.at + PAYLOAD);
  return over > 0 ? { what: 'sameAddress', pages: [data[over - 1], data[over]].sort((a, b) => a.number - b.number) } : null;
}

class BlockFile {
  constructor(family, total) {
    Object.assign(this, { family, total, own: 0, known: new Map(), clash: null, others: [], comment: null });
    this.found = null;
  }

  note(page) {
    const known = this.known.get(page.number);
    if (page.comment) this.comment = this.comment ?? page;
    const clash = known ? clashOf(page, known) : null;
    this.clash = this.clash ?? clash;
    if (clash?.what === 'sameNumber' && !page.comment) this.others.push(page);
    if (!known || isBetter(page, known)) this.known.set(page.number, page);
  }

  // The file's pages in the order of their numbers, those of other blocks that have a number of it (`others`), the numbers of its comments, and what makes it
  // none that the proof speaks of (`flaw`) or null. Of the sample the pages have names (`name`). Asked for once it is needed.
  read(receiver) {
    if (!this.found) {
      const known = [...this.known.values()].filter((page) => page.number < this.total);
      const data = known.filter((page) => !page.comment);
      const comments = known.filter((page) => page.comment).map((page) => page.number);
      const absent = this.absent(data, receiver);
      const sample = data.length > 0 && data.every((page) => isSamplePage(page.piece));
      const names = sample ? pageNames(this.total) : [];
      const named = (page) => ({ ...page, name: names[page.number] ?? null });
      const pages = [...data, ...absent].map(named).sort((a, b) => a.number - b.number);
      const flaw = this.clash ?? this.flawOf(data, absent.length === 0, receiver);
      this.found = { family: this.family, total: this.total, sample, pages, others: this.others.map(named), comments, flaw };
    }
    return this.found;
  }

  flawOf(data, whole, receiver) {
    const overlap = overlapOf(data);
    if (overlap) return overlap;
    const inRam = data.some((page) => page.storage && page.storage.memory !== 'flash');
    if (inRam) return this.comment ? { what: 'ramComment', number: this.comment.number } : null;
    return regionFlaw(data, receiver.place(this.family), whole, (bytes) => receiver.md5(bytes));
  }

  // The pages of numbers of which no block is at hand. Where the others lie in one piece, in the order of their numbers, that says where such a page belongs.
  absent(data, receiver) {
    const placed = data.filter((page) => page.storage);
    const baseOf = (page) => page.address - PAYLOAD * page.number;
    const base = placed.length > 0 && placed.every((page) => baseOf(page) === baseOf(placed[0])) ? baseOf(placed[0]) : NaN;
    const pages = [];
    for (let number = 0; number < this.total && this.total <= MOST_PAGES; number++) {
      if (this.known.has(number)) continue;
      const address = base + PAYLOAD * number;
      pages.push({ number, address, comment: false, flags: 0, refused: 0, storage: address >= 0 ? receiver.storage({ address, family: this.family }) : null, piece: null });
    }
    return pages;
  }
}

// The files of some pieces, and of what else arrives; the one of which most pieces are goes first. The receiver is one that has taken nothing yet. `pause()` is
// awaited now and then.
export async function filesOf(pieces, others, receiver, pause) {
  const files = new Map();
  for (const [k, piece] of [...pieces, ...others].entries()) {
    if (k % AT_ONCE === AT_ONCE - 1) await pause();
    const block = readBlock(piece);
    if (!block) continue;
    const key = `${block.family} ${block.total}`;
    if (!files.has(key)) files.set(key, new BlockFile(block.family, block.total));
    const file = files.get(key);
    file.note(pageOf(block, piece, receiver));
    if (k < pieces.length) file.own = file.known.size;
  }
  return files.size > 0 ? [...files.values()].sort((a, b) => b.own - a.own) : [new BlockFile(0, 0)];
}

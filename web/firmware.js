// The sample firmware of a small display: pages with names, and the few numbers in them that the model of the display reads (display.js).
import { PAYLOAD, PAYLOAD_AT } from './block.js';
import { put32 } from './bytes.js';

// A page is text up to byte 231, the mark, then words of 32 bits: on page 0 the entry, the version, and where the pages of the timeout and of the reading begin; on
// every other page its number.
export const AT = { mark: 232, entry: 240, version: 244, timeoutAt: 248, readingAt: 252, number: 240 };
export const LEAST_PAGES = 4;
export const VERSION = { old: 1, new: 2 };
const MARK = new TextEncoder().encode('VTLSAMPL');
const ENTRY = 0x10000101;
const LARGE = ['start', 'socket', 'reading', 'screen', 'lamp', 'timeout', 'beeper', 'words'];
const SMALL = ['start', 'socket', 'reading', 'timeout', 'lamp'];
const NUMBERS = { socket: 5020, reading: 10, screen: 320, lamp: 3, timeout: 3000, beeper: 880, words: 1, more: 0 };

// What each page of a sample of so many pages is, as the keys of the texts `pages`. Fewer than 4 pages have no timeout and no names.
export function pageNames(pages) {
  if (pages < LEAST_PAGES) return [];
  const names = pages < 6 ? SMALL : LARGE;
  return Array.from({ length: pages }, (_, k) => names[k] ?? 'more');
}

// A firmware of so many pages. The words in it are English whatever the page's language is, so that a file is the same everywhere.
export function firmwareImage(pages, title, version) {
  const image = new Uint8Array(pages * PAYLOAD);
  const encoder = new TextEncoder();
  const names = pageNames(pages);
  const startOf = (name) => Math.max(0, names.indexOf(name)) * PAYLOAD;
  for (let k = 0; k < pages; k++) {
    const page = image.subarray(k * PAYLOAD, (k + 1) * PAYLOAD);
    const name = { more: ': more of the program', [undefined]: '' }[names[k]] ?? `: the ${names[k]}`;
    const words = `${title}, page ${k}${name}. `;
    encoder.encodeInto(words.repeat(Math.ceil(AT.mark / words.length)).slice(0, AT.mark), page);
    page.set(MARK, AT.mark);
    const numbers = k === 0 ? { entry: ENTRY, version, timeoutAt: startOf('timeout'), readingAt: startOf('reading') } : { number: NUMBERS[names[k]] ?? 0 };
    for (const [field, value] of Object.entries(numbers)) put32(page, AT[field], value);
  }
  return image;
}

// Whether a piece is a page of a sample, so that its name is known.
export function isSamplePage(piece) {
  return MARK.every((x, k) => piece[PAYLOAD_AT + AT.mark + k] === x);
}

// The version that the first page of a sample has.
export function versionOf(piece) {
  const at = PAYLOAD_AT + AT.version;
  return (piece[at] | (piece[at + 1] << 8) | (piece[at + 2] << 16) | (piece[at + 3] << 24)) >>> 0;
}

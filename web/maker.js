// Files that the page makes, with the proved maker and the proved joiner.
import { N } from './numbers.js';
import { FAMILY } from './board.js';
import { PAYLOAD, changed } from './block.js';

// The UF2 file of an image, or the number of the refusal.
export function makeUf2(library, image, family, start) {
  const input = library.lend(image.length);
  const output = library.lend(Math.floor(image.length / PAYLOAD) * N.UF2_ARRIVAL_SIZE);
  input.bytes.set(image);
  const answer = library.call('uf2_make', input, family, start, output);
  return { answer, file: answer === N.UF2_MAKE_DONE ? output.bytes.slice() : null };
}

// One Universal Hex file of two plain ones, or the number of the refusal.
export function joinHex(library, v1, v2) {
  const encoder = new TextEncoder();
  const inputs = [v1, v2].map((text) => {
    const bytes = encoder.encode(text);
    const slice = library.lend(bytes.length);
    slice.bytes.set(bytes);
    return slice;
  });
  const output = library.lend(4 * (v1.length + v2.length) + 4096);
  const result = library.call('uhex_join', inputs[0], inputs[1], output);
  const answer = Number(result & 255n);
  return { answer, file: answer === 0 ? output.bytes.slice(0, Number(result >> 32n)) : null };
}

function record(type, address, data) {
  const bytes = [data.length, address >> 8, address & 255, type, ...data];
  const sum = bytes.reduce((a, b) => a + b, 0);
  return ':' + [...bytes, (256 - (sum % 256)) % 256].map((x) => x.toString(16).toUpperCase().padStart(2, '0')).join('') + '\n';
}

// Plain Intel Hex of some bytes from an address below 65,536, sixteen to a line.
export function plainHex(bytes, address) {
  let text = record(4, 0, [0, 0]);
  for (let at = 0; at < bytes.length; at += 16) text += record(0, address + at, [...bytes.slice(at, at + 16)]);
  return text + record(1, 0, []);
}

// What a link or a host may send besides the file's own blocks, each made of a block of the file.
export const EXTRAS = {
  otherBoard: (piece) => changed(piece, { family: FAMILY.riscv }),
  pastFlash: (piece) => changed(piece, { address: N.UF2_FLASH_END - PAYLOAD }),
  wraps: (piece) => changed(piece, { address: 0xffffff00 }),
  otherFile: (piece, total) => changed(piece, { total: total + 1, number: 0 }),
  noBlock: (piece) => changed(piece, { first: 0 }),
  comment: (piece, total) => changed(piece, { flags: 0x2001, number: total - 1 }),
};

// What a UF2 block says of itself: the fields, for showing them. Whether it is accepted is the library's answer.
import { N } from './numbers.js';
import { get32, put32 } from './bytes.js';

export const PAYLOAD = N.UF2_MAKE_PAGE_SIZE;
export const ARRIVAL = N.UF2_ARRIVAL_SIZE;
export const FLAG = { comment: 0x1, container: 0x1000, family: 0x2000, region: 0x4000, tags: 0x8000 };
const AT = { first: 0, second: 4, flags: 8, address: 12, size: 16, number: 20, total: 24, family: 28, data: 32, region: 484, last: 508 };
const MAGIC = { first: 0x0a324655, second: 0x9e5d5157, last: 0x0ab16f30 };

export function isBlock(piece) {
  return (
    piece.length === ARRIVAL &&
    get32(piece, AT.first) === MAGIC.first &&
    get32(piece, AT.second) === MAGIC.second &&
    get32(piece, AT.last) === MAGIC.last
  );
}

// The fields of a block, or null where the piece is none.
export function readBlock(piece) {
  if (!isBlock(piece)) return null;
  const flags = get32(piece, AT.flags);
  return {
    flags,
    comment: (flags & FLAG.comment) !== 0,
    address: get32(piece, AT.address),
    size: get32(piece, AT.size),
    number: get32(piece, AT.number),
    total: get32(piece, AT.total),
    family: get32(piece, AT.family),
  };
}

export const PAYLOAD_AT = AT.data;

export function payloadOf(piece) {
  return piece.subarray(AT.data, AT.data + PAYLOAD);
}

// The region that a block with flag 0x4000 names.
export function readRegion(piece) {
  return {
    start: get32(piece, AT.region),
    length: get32(piece, AT.region + 4),
    digest: piece.subarray(AT.region + 8, AT.last),
  };
}

// A copy of a block with some fields changed: what a broken link or another board's file would send.
export function changed(piece, fields) {
  const copy = piece.slice();
  for (const [name, value] of Object.entries(fields)) put32(copy, AT[name], value);
  return copy;
}

// A file as the pieces of 512 bytes in which it is sent; the last may be short.
export function piecesOf(file) {
  const pieces = [];
  for (let at = 0; at < file.length; at += ARRIVAL) pieces.push(file.subarray(at, at + ARRIVAL));
  return pieces;
}

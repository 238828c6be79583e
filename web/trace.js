// A site's trace: records of one byte, which has the answer that the site got, and an arrival. The replay is the library's.
import { N } from './numbers.js';
import { ProvedReceiver, readTransfer } from './proved.js';
import { isBlock } from './block.js';
import { get64, isMarked } from './bytes.js';

// What a record says was answered.
export function readRecord(piece) {
  return { answer: piece[0] >> 3, discarded: (piece[0] & 4) !== 0, stray: (piece[0] & 3) !== 0, short: piece.length < N.UF2_RECORD_SIZE, arrival: piece.subarray(1) };
}

export function recordsOf(trace) {
  const records = [];
  for (let at = 0; at < trace.length; at += N.UF2_RECORD_SIZE) records.push(trace.subarray(at, at + N.UF2_RECORD_SIZE));
  return records;
}

// A record of an answer, as the site writes it.
export function recordBytes(answer, discarded, arrival) {
  const record = new Uint8Array(N.UF2_RECORD_SIZE);
  record[0] = (answer << 3) | (discarded ? 4 : 0);
  record.set(arrival, 1);
  return record;
}

// Whether some record of the first few looks like one: an arrival that is a UF2 block, after one byte.
export function looksLikeTrace(trace) {
  return recordsOf(trace.subarray(0, 64 * N.UF2_RECORD_SIZE)).some((record) => isBlock(record.subarray(1)));
}

// The numbers that a running transfer has not marked.
function missingNumbers({ state, total }, seen) {
  const numbers = [];
  for (let k = 0; state === 'running' && k < total; k++) if (!isMarked(seen, k)) numbers.push(k);
  return numbers;
}

// The replay of a trace on a board, by the proved library: where it stops, and the state and maps there. Run in a worker, since it is one long call.
export function replay(library, board, trace) {
  const receiver = new ProvedReceiver(library, board);
  const { settings, flash, seen, sectors, main, xip, transfer } = receiver.slices;
  const input = library.lend(trace.length);
  input.bytes.set(trace);
  const index = library.lend(N.UF2_INDEX_SIZE);
  const stop = library.call('uf2_replay', settings, input, flash, seen, sectors, main, xip, transfer, index);
  const at = stop === N.UF2_STOP_NONE ? Math.floor(trace.length / N.UF2_RECORD_SIZE) : Number(get64(index.bytes, 0));
  const piece = trace.subarray(at * N.UF2_RECORD_SIZE, (at + 1) * N.UF2_RECORD_SIZE);
  let ours = null;
  let reason = null;
  if (stop !== N.UF2_STOP_NONE && piece.length > 1) {
    const { arrival } = readRecord(piece);
    reason = receiver.why(arrival);
    ours = receiver.look(arrival);
  }
  let marked = 0;
  for (const byte of seen.bytes) for (let bit = byte; bit; bit &= bit - 1) marked++;
  const end = readTransfer(transfer.bytes);
  return { stop, at, ours, reason, transfer: end, marked, missing: missingNumbers(end, seen.bytes) };
}

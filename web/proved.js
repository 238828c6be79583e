// The proved receiver: a board lent to the library, one arrival after another. Every answer here is the library's.
import { N } from './numbers.js';
import { get32, get64, isMarked, same } from './bytes.js';
import { wordsOf } from './wasm.js';
import { ARRIVAL, FLAG, isBlock, payloadOf, readBlock } from './block.js';
import { SECTOR, lentFlash, settingsBytes } from './board.js';

const STATES = { [N.UF2_STATE_IDLE]: 'idle', [N.UF2_STATE_RUNNING]: 'running', [N.UF2_STATE_DONE]: 'done' };
const KINDS = { [N.UF2_KIND_FLASH]: 'flash', [N.UF2_KIND_MAIN_RAM]: 'main', [N.UF2_KIND_XIP_RAM]: 'xip' };
const REASON_SIZE = 38;

export function readTransfer(bytes) {
  return {
    state: STATES[bytes[N.UF2_TRANSFER_STATE_AT]],
    family: get32(bytes, N.UF2_TRANSFER_FAMILY_AT),
    total: get32(bytes, N.UF2_TRANSFER_TOTAL_AT),
    count: get32(bytes, N.UF2_TRANSFER_COUNT_AT),
    kind: KINDS[bytes[N.UF2_TRANSFER_KIND_AT]],
  };
}

export function readReason(bytes) {
  return {
    cause: get32(bytes, 0),
    got: get64(bytes, 4),
    against: get64(bytes, 12),
    entry: bytes[20],
    other: bytes[21],
    marks: Array.from(bytes.subarray(22, REASON_SIZE)),
  };
}

export class ProvedReceiver {
  constructor(library, board) {
    this.library = library;
    this.lent = lentFlash(board);
    const lend = (length) => library.lend(length);
    this.slices = {
      settings: lend(N.UF2_SETTINGS_SIZE),
      transfer: lend(N.UF2_TRANSFER_SIZE),
      arrival: lend(ARRIVAL),
      flash: lend(board.flash),
      seen: lend(N.UF2_SEEN_MAP_SIZE),
      sectors: lend(N.UF2_SECTOR_MAP_SIZE),
      main: lend(board.main ? N.UF2_MAIN_RAM_SIZE : 0),
      xip: lend(board.xip ? N.UF2_XIP_RAM_SIZE : 0),
      place: lend(N.UF2_PLACE_SIZE),
      reason: lend(REASON_SIZE),
    };
    this.slices.settings.bytes.set(settingsBytes(board));
    this.places = new Map();
    this.words = new Map();
    this.reset();
  }

  reset() {
    const { flash, seen, sectors, main, xip, transfer } = this.slices;
    flash.bytes.set(this.lent);
    for (const slice of [seen, sectors, main, xip]) slice.bytes.fill(0);
    this.library.call('uf2_new', transfer);
  }

  // The bytes of a buffer: flash, seen, sectors, main or xip.
  bytes(name) {
    return this.slices[name].bytes;
  }

  get transfer() {
    return readTransfer(this.slices.transfer.bytes);
  }

  // The place of a family in flash: the library's answer, with start and length where it has found one.
  place(family) {
    if (!this.places.has(family)) {
      const { settings, flash, place } = this.slices;
      const answer = this.library.call('uf2_ask', settings, BigInt(flash.length), family, place);
      const bytes = place.bytes;
      this.places.set(family, {
        answer,
        start: get32(bytes, N.UF2_PLACE_START_AT),
        length: get32(bytes, N.UF2_PLACE_LENGTH_AT),
      });
    }
    return this.places.get(family);
  }

  // The words of a call on an arrival, which are the same for all arrivals of one length.
  lentWords(arrival) {
    const s = this.slices;
    s.arrival.bytes.set(arrival);
    const { length } = arrival;
    if (!this.words.has(length)) {
      this.words.set(length, wordsOf([s.settings, s.transfer, s.arrival.first(length), s.flash, s.seen, s.sectors, s.main, s.xip]));
    }
    return this.words.get(length);
  }

  // Why the arrival would be answered as it would be, or null where this library does not say.
  why(arrival) {
    if (!this.library.has('uf2_why')) return null;
    this.library.calls.uf2_why(...this.lentWords(arrival), ...this.slices.reason.words);
    return readReason(this.slices.reason.bytes);
  }

  look(arrival) {
    const result = this.library.calls.uf2_look(...this.lentWords(arrival));
    return { answer: result & 127, discarded: result >= N.UF2_RESULT_DISCARDED };
  }

  // Whether what a block holds stands in the memory, as uf2_stands answers; null where this library does not say.
  stands(arrival) {
    if (!this.library.has('uf2_stands')) return null;
    const { settings, flash, main, xip } = this.slices;
    this.slices.arrival.bytes.set(arrival);
    return this.library.call('uf2_stands', settings, this.slices.arrival.first(arrival.length), flash, main, xip);
  }

  // The answer, 1 to 11, by which the board refuses an arrival before any other has come, or 0 where it takes it. Flag 0x4000 is cleared, since it changes
  // none of these answers and a region would be hashed for it.
  refusal(arrival) {
    const words = this.lentWords(arrival);
    this.slices.arrival.bytes[9] &= ~(FLAG.region >> 8);
    const answer = this.library.calls.uf2_look(...words) & 127;
    return answer < N.UF2_ANSWER_FINISHED ? answer : 0;
  }

  // MD5 of no more bytes than the flash has.
  md5(bytes) {
    this.digest = this.digest ?? this.library.lend(N.UF2_MD5_SIZE);
    this.message = this.message ?? this.library.lend(this.slices.flash.length);
    this.message.bytes.set(bytes);
    this.library.call('uf2_md5', this.message.first(bytes.length), this.digest);
    return this.digest.bytes.slice();
  }

  // Where a data block's page goes: the memory, and the byte in it. In flash that is the place's start and the address less the window's.
  storage(block) {
    const { address, family } = block;
    const within = (start, slice) => slice.length > 0 && address >= start && address + 256 <= start + slice.length;
    if (within(N.UF2_MAIN_RAM_START, this.slices.main)) return { memory: 'main', at: address - N.UF2_MAIN_RAM_START };
    if (within(N.UF2_XIP_RAM_START, this.slices.xip)) return { memory: 'xip', at: address - N.UF2_XIP_RAM_START };
    const place = this.place(family);
    if (place.answer !== N.UF2_ANSWER_FOUND || address < N.UF2_FLASH_START) return null;
    const isWithin = address - N.UF2_FLASH_START + 256 <= place.length;
    return isWithin ? { memory: 'flash', at: place.start + address - N.UF2_FLASH_START } : null;
  }

  // An arrival taken: the answer, and what it did, read from the buffers before and after.
  take(arrival) {
    const before = this.transfer.state;
    const block = isBlock(arrival) ? readBlock(arrival) : null;
    const page = block && !block.comment ? this.storage(block) : null;
    const sector = page && page.memory === 'flash' ? Math.floor(page.at / SECTOR) : -1;
    const wasMarked = sector >= 0 && isMarked(this.slices.sectors.bytes, sector);
    const result = this.library.calls.uf2_take(...this.lentWords(arrival));
    const answer = result & 127;
    const discarded = result >= N.UF2_RESULT_DISCARDED;
    const taken = { answer, discarded, cleared: false, erased: -1, page: null, kept: false };
    if (answer < N.UF2_ANSWER_WRITTEN) return taken;
    taken.cleared = before === 'idle' || discarded;
    if (!page) return taken;
    if (sector >= 0 && isMarked(this.slices.sectors.bytes, sector) && (taken.cleared || !wasMarked)) taken.erased = sector;
    const stands = this.slices[page.memory].bytes.subarray(page.at, page.at + 256);
    taken.kept = answer === N.UF2_ANSWER_KEPT || !same(stands, payloadOf(arrival));
    taken.page = page;
    return taken;
  }

  save() {
    const copy = {};
    for (const name of ['transfer', 'flash', 'seen', 'sectors', 'main', 'xip']) copy[name] = this.slices[name].bytes.slice();
    return copy;
  }

  restore(copy) {
    for (const [name, bytes] of Object.entries(copy)) this.slices[name].bytes.set(bytes);
  }
}

// A receiver as a student writes it, rule by rule in the order of the table. As it stands here it answers as the proved one does (tests/page compares
// them); each file beside this one changes one rule, and is wrong. Nothing of it is proved.
import { N } from '../numbers.js';
import { isMarked, mark, same } from '../bytes.js';
import { FLAG, PAYLOAD, isBlock, payloadOf, readBlock, readRegion } from '../block.js';
import { FAMILY, SECTOR, lentFlash } from '../board.js';

const WINDOWS = [
  { memory: 'flash', start: N.UF2_FLASH_START, length: N.UF2_FLASH_MAX_SIZE },
  { memory: 'main', start: N.UF2_MAIN_RAM_START, length: N.UF2_MAIN_RAM_SIZE },
  { memory: 'xip', start: N.UF2_XIP_RAM_START, length: N.UF2_XIP_RAM_SIZE },
];
const IDLE = { state: 'idle', family: 0, total: 0, count: 0, kind: 'flash' };

export class Student {
  // `helpers` has what no student gets wrong here: whether the settings are good, and MD5.
  constructor(board, helpers) {
    this.board = board;
    this.helpers = helpers;
    this.memory = {
      flash: new Uint8Array(board.flash),
      seen: new Uint8Array(N.UF2_SEEN_MAP_SIZE),
      sectors: new Uint8Array(N.UF2_SECTOR_MAP_SIZE),
      main: new Uint8Array(board.main ? N.UF2_MAIN_RAM_SIZE : 0),
      xip: new Uint8Array(board.xip ? N.UF2_XIP_RAM_SIZE : 0),
    };
    this.lent = lentFlash(board);
    this.reset();
  }

  reset() {
    this.memory.flash.set(this.lent);
    for (const name of ['seen', 'sectors', 'main', 'xip']) this.memory[name].fill(0);
    this.transfer = IDLE;
  }

  bytes(name) {
    return this.memory[name];
  }

  why() {
    return null;
  }

  save() {
    const copy = { transfer: this.transfer };
    for (const [name, bytes] of Object.entries(this.memory)) copy[name] = bytes.slice();
    return copy;
  }

  restore(copy) {
    this.transfer = copy.transfer;
    for (const [name, bytes] of Object.entries(this.memory)) bytes.set(copy[name]);
  }

  // ---- Rows 1 to 7

  take(arrival) {
    if (arrival.length !== N.UF2_ARRIVAL_SIZE) return this.refuse(1);
    if (!this.helpers.goodSettings) return this.refuse(2);
    if (!isBlock(arrival)) return this.refuse(4);
    const block = readBlock(arrival);
    if (block.flags & FLAG.container) return this.refuse(5);
    if (!(block.flags & FLAG.family)) return this.refuse(7);
    const screened = block.comment ? this.screenComment(block) : this.screenPage(block);
    return screened.answer ? this.refuse(screened.answer) : this.step(block, screened, arrival);
  }

  refuse(answer) {
    return { answer, discarded: false, cleared: false, erased: -1, page: null, kept: false };
  }

  // ---- Rows 8 to 11

  screenPage(block) {
    const window = WINDOWS.find((w) => this.memory[w.memory].length > 0 && block.address >= w.start && block.address < w.start + w.length);
    const kind = window ? window.memory : 'flash';
    const place = this.placeIn(kind, block.family);
    if (!place) return { answer: 8 };
    if (block.size !== PAYLOAD) return { answer: 9 };
    const badAddress = this.badAddress(block.address, kind, place);
    if (!window && badAddress) return { answer: 11 };
    if (this.badNumbers(block, place)) return { answer: 10 };
    if (badAddress) return { answer: 11 };
    return { kind, at: this.storageAddress(block.address, kind, place), place };
  }

  screenComment(block) {
    const t = this.transfer;
    const own = t.state === 'running' && t.family === block.family && t.total === block.total && this.memory[t.kind].length > 0;
    const kind = own ? t.kind : 'flash';
    const place = this.placeIn(kind, block.family);
    if (!place) return { answer: 8 };
    if (this.badNumbers(block, place)) return { answer: 10 };
    return { kind, at: -1, place };
  }

  badNumbers(block, place) {
    return block.total === 0 || block.total * PAYLOAD > place.length || block.number >= block.total;
  }

  badAddress(address, kind, place) {
    const start = WINDOWS.find((w) => w.memory === kind).start;
    if (address < start) return true;
    if (kind === 'flash' && address % PAYLOAD !== 0) return true;
    return this.end(address) - start > place.length;
  }

  end(address) {
    return address + PAYLOAD;
  }

  storageAddress(address, kind, place) {
    return place.start + address - WINDOWS.find((w) => w.memory === kind).start;
  }

  // ---- The place of a family

  placeIn(kind, family) {
    if (kind === 'flash') return this.place(family);
    return this.ramFamily(family) ? { start: 0, length: this.memory[kind].length } : null;
  }

  ramFamily(family) {
    const fixed = [FAMILY.data, FAMILY['arm-s'], FAMILY.riscv, FAMILY['arm-ns']];
    return fixed.includes(family) || this.board.entries.some((entry) => entry.users.includes(family));
  }

  place(family) {
    const { board } = this;
    const whole = { start: 0, length: board.flash };
    if (family === FAMILY.absolute) return board.absolute ? whole : null;
    if (family === FAMILY.rp2040) return null;
    if (board.entries.length === 0) {
      const gets = family === FAMILY.data || (family === FAMILY['arm-s'] && board.arm) || (family === FAMILY.riscv && board.riscv);
      return gets ? whole : null;
    }
    for (const pass of [1, 2, 3, 4]) {
      const entry = board.entries.find((e) => this.isCandidate(e) && this.accepts(e, family) && this.allows(pass, e, family));
      if (entry) return { start: entry.first * SECTOR, length: entry.sectors * SECTOR };
    }
    return null;
  }

  // An A partition: every entry that is not "B of".
  isCandidate(entry) {
    return entry.link !== 'b';
  }

  accepts(entry, family) {
    const flag = { [FAMILY.data]: entry.data, [FAMILY['arm-s']]: entry.armS, [FAMILY.riscv]: entry.riscv, [FAMILY['arm-ns']]: entry.armNs };
    return flag[family] ?? entry.users.includes(family);
  }

  allows(pass, entry, family) {
    const { board } = this;
    const image = { arm: FAMILY['arm-s'], riscv: FAMILY.riscv };
    const other = board.current === 'arm' ? 'riscv' : 'arm';
    const unowned = entry.link === 'none';
    const marked = { arm: entry.notBootableArm, riscv: entry.notBootableRiscv };
    if (pass === 1) return family === image[board.current] && unowned && !marked[board.current];
    if (pass === 2) return board.autoSwitch && board[other] && family === image[other] && unowned && !marked[other];
    return pass === 3 ? unowned : true;
  }

  // ---- Rows 12 to 17

  step(block, screened, arrival) {
    const t = this.transfer;
    if (t.state === 'done') return this.refuse(12);
    const going = t.state === 'running' && t.family === block.family && t.total === block.total && t.kind === screened.kind;
    if (going && this.came(block.number)) return this.refuse(13);
    const cleared = !going;
    const discarded = t.state === 'running' && !going;
    const kept = screened.kind === 'flash' && screened.at >= 0 && this.stands(block, screened, arrival);
    const before = going ? t.count : 0;
    if (cleared) this.clearMaps();
    const erased = screened.at >= 0 && !kept ? this.store(screened, arrival) : -1;
    mark(this.memory.seen, this.markFor(block.number, before));
    const count = before + 1;
    const done = count >= block.total;
    this.transfer = { state: done ? 'done' : 'running', family: block.family, total: block.total, count, kind: screened.kind };
    const answer = done ? 15 : block.comment ? 16 : kept ? 17 : 14;
    const page = screened.at >= 0 ? { memory: screened.kind, at: screened.at } : null;
    return { answer, discarded, cleared, erased, page, kept };
  }

  came(number) {
    return isMarked(this.memory.seen, number);
  }

  markFor(number, _countBefore) {
    return number;
  }

  clearMaps() {
    this.memory.seen.fill(0);
    this.memory.sectors.fill(0);
  }

  // The page stored, its sector erased first where it must be; the sector that was erased, or -1.
  store(screened, arrival) {
    const memory = this.memory[screened.kind];
    let erased = -1;
    if (screened.kind === 'flash') {
      const sector = Math.floor(screened.at / SECTOR);
      if (this.mustErase(sector)) {
        memory.fill(0xff, sector * SECTOR, (sector + 1) * SECTOR);
        erased = sector;
      }
      mark(this.memory.sectors, sector);
    }
    memory.set(payloadOf(arrival), screened.at);
    return erased;
  }

  mustErase(sector) {
    return !isMarked(this.memory.sectors, sector);
  }

  // Whether the flash has what the block's region (flag 0x4000) names.
  stands(block, { place }, arrival) {
    if (!(block.flags & FLAG.region)) return false;
    const { start, length, digest } = readRegion(arrival);
    const from = start - N.UF2_FLASH_START;
    if (from % SECTOR !== 0 || length % SECTOR !== 0 || length === 0) return false;
    if (from < 0 || from + length > place.length) return false;
    if (start > block.address || block.address + PAYLOAD > start + length) return false;
    const at = place.start + from;
    return same(this.helpers.md5(this.memory.flash.subarray(at, at + length)), digest);
  }
}

// The known mistakes of teaching/mistakes.json, each as a switch of one receiver in JavaScript. Without a switch it answers as the proved one does (tests/page
// compares them). Nothing of it is proved, and no right answer comes from it: it only tells which mistake answers as a hand-in does.
import { MISTAKES as TOLD } from './teaching.js';
import { isMarked, mark, get32 } from './bytes.js';
import { FLAG, PAYLOAD, payloadOf } from './block.js';
import { SECTOR } from './board.js';
import { N } from './numbers.js';
import { Student } from './wrong/student.js';

// Those that a receiver on this page can have.
export const MISTAKES = TOLD.filter(({ forms }) => forms.includes('page'));

const ORDERS = ['order-4-5', 'order-5-7', 'order-7-8', 'order-8-9', 'order-9-10', 'order-10-11', 'order-11-12'];
const IDLE = { state: 'idle', family: 0, total: 0, count: 0, kind: 'flash' };

function fieldsOf(arrival) {
  const [first, second, flags, address, size, number, total, family] = Array.from({ length: 8 }, (_, k) => get32(arrival, 4 * k));
  return { first, second, flags, address, size, number, total, family, last: get32(arrival, 508), comment: (flags & FLAG.comment) !== 0 };
}

export class Mistaken extends Student {
  // `on` are the switches; `answer` is what the switches give that answer with a number of the hand-in's choice.
  constructor(board, helpers, on = [], answer = 8) {
    super(board, helpers);
    this.on = new Set(on);
    this.answer = answer;
  }

  has(mistake) {
    return this.on.has(mistake);
  }

  reset() {
    super.reset();
    this.arrivals = 0;
  }

  // What it says of itself: with one switch the count of all arrivals.
  get said() {
    const { state, total, count } = this.transfer;
    return { state, total, count: state !== 'idle' && this.has('invented-count') ? this.arrivals : count };
  }

  take(arrival) {
    this.arrivals++;
    if (this.has('one-answer')) return super.refuse(this.answer);
    if (arrival.length !== N.UF2_ARRIVAL_SIZE) return super.refuse(1);
    if (!this.helpers.goodSettings) return super.refuse(2);
    return this.checked(fieldsOf(arrival), arrival);
  }

  isBlock({ first, second, last }) {
    return first === 0x0a324655 && (second === 0x9e5d5157 || this.has('second-magic-ignored')) && (last === 0x0ab16f30 || this.has('end-magic-ignored'));
  }

  // Checks 4 to 12 in their order, and the step where all pass.
  checked(block, arrival) {
    const isBlock = this.isBlock(block);
    if (block.comment && this.has('comment-refused') && isBlock && !(block.flags & FLAG.container)) return this.refuse(6);
    const { kind, window } = this.kindOf(block);
    const place = this.roomFor(kind, block.family);
    const room = place ?? { start: 0, length: 0 };
    const checks = [
      [4, !isBlock],
      [5, (block.flags & FLAG.container) !== 0 && !this.has('container-ignored')],
      [7, !(block.flags & FLAG.family) && !this.has('family-flag-ignored')],
      [8, !place],
      [9, !block.comment && block.size !== PAYLOAD && !this.has('size-not-checked')],
      [10, this.badNumbers(block, room)],
      [11, !block.comment && this.badAddress(block.address, kind, room)],
      [12, this.transfer.state === 'done' && !this.has('begins-after-done')],
    ];
    const swap = (k) => ([checks[k], checks[k + 1]] = [checks[k + 1], checks[k]]);
    const elevenFirst = !window && !block.comment && !this.has('numbers-first');
    if (elevenFirst) swap(5);
    ORDERS.forEach((order, k) => this.has(order) && !(k === 5 && elevenFirst) && swap(k));
    const failed = checks.find(([, fails]) => fails);
    if (!failed) return this.stepOf(block, kind, room, arrival);
    const again = failed[0] === 12 && this.has('completed-again') && this.goesOn(block, kind);
    return again ? super.refuse(15) : this.refuse(failed[0]);
  }

  // A refusal, which should change nothing.
  refuse(answer) {
    const discards = (answer === 8 && this.has('no-place-discards')) || (answer === 11 && this.has('bad-address-discards')) || (answer >= 4 && answer <= 11 && this.has('refusal-discards'));
    if (this.transfer.state === 'running') {
      if (discards) this.transfer = IDLE;
      else if (answer === 8 && this.has('foreign-counted')) this.raise();
    }
    return super.refuse(answer);
  }

  // The count raised, and nothing else.
  raise() {
    const count = this.transfer.count + 1;
    this.transfer = { ...this.transfer, count, state: count >= this.transfer.total ? 'done' : 'running' };
  }

  kindOf(block) {
    const t = this.transfer;
    if (block.comment) {
      const own = t.state === 'running' && t.family === block.family && t.total === block.total && this.memory[t.kind].length > 0;
      return { kind: own ? t.kind : 'flash', window: true };
    }
    const inside = (kind) => this.memory[kind].length > 0 && block.address >= this.startOf(kind) && block.address < this.startOf(kind) + this.windowOf(kind);
    const found = ['flash', 'main', 'xip'].find(inside);
    return { kind: found ?? 'flash', window: found !== undefined };
  }

  startOf(kind) {
    return { flash: N.UF2_FLASH_START, main: N.UF2_MAIN_RAM_START, xip: N.UF2_XIP_RAM_START }[kind];
  }

  windowOf(kind) {
    return { flash: N.UF2_FLASH_MAX_SIZE, main: N.UF2_MAIN_RAM_SIZE, xip: N.UF2_XIP_RAM_SIZE }[kind];
  }

  roomFor(kind, family) {
    return this.placeIn(kind, family) ?? (this.has('any-family') ? { start: 0, length: this.memory.flash.length } : null);
  }

  isCandidate(entry) {
    return this.has('takes-b-of') || super.isCandidate(entry);
  }

  allows(pass, entry, family) {
    return super.allows(pass, this.has('takes-b-of') && entry.link === 'b' ? { ...entry, link: 'none' } : entry, family);
  }

  badNumbers({ number, total }, room) {
    const bytes = this.has('total-in-32-bits') ? (total * PAYLOAD) % 2 ** 32 : total * PAYLOAD;
    const past = this.has('number-equals-total') ? number > total : number >= total;
    return total === 0 || bytes > room.length || past;
  }

  badAddress(address, kind, room) {
    const start = this.startOf(kind);
    if (address < start || (kind === 'flash' && address % PAYLOAD !== 0 && !this.has('unaligned-taken'))) return true;
    const end = this.has('adds-in-32-bits') ? (address + PAYLOAD) % 2 ** 32 : address + PAYLOAD;
    const last = start + (this.has('window-for-place') ? this.windowOf(kind) : room.length);
    return this.has('last-page-refused') ? end >= last : end > last;
  }

  // Whether a block goes on with the transfer's file.
  goesOn({ family, total }, kind) {
    const t = this.transfer;
    const any = this.has('never-discards');
    return (any || this.has('family-not-compared') || t.family === family) && (any || this.has('total-not-compared') || t.total === total) && t.kind === kind;
  }

  // Checks 13 to 17.
  stepOf(block, kind, room, arrival) {
    const t = this.transfer;
    const running = t.state === 'running';
    const going = running && this.goesOn(block, kind);
    if (this.has('refuses-all')) return this.refuse(this.answer);
    if (going && isMarked(this.memory.seen, block.number) && !this.has('counts-arrivals')) {
      if (this.has('counts-again')) this.raise();
      return super.refuse(13);
    }
    const kept = !block.comment && kind === 'flash' && !this.has('rewrites-kept') && this.stands(block, { place: room }, arrival);
    const before = going ? t.count : 0;
    if (!going) this.clearFor(running);
    if (!kept && (!block.comment || this.has('comment-stored'))) this.storePage(block, kind, room, before, arrival);
    mark(this.memory.seen, this.has('marks-by-order') ? before : block.number);
    const count = before + 1;
    const done = this.has('last-number-completes') ? block.number + 1 === block.total : count >= block.total;
    this.transfer = { state: done ? 'done' : 'running', family: block.family, total: block.total, count: done ? block.total : count, kind };
    const discarded = running && !going && !this.has('discarded-not-told');
    return { ...super.refuse(done ? 15 : block.comment ? 16 : kept ? 17 : 14), discarded };
  }

  clearFor(discards) {
    if (!this.has('seen-not-cleared')) this.memory.seen.fill(0);
    if (!this.has('sectors-not-cleared')) this.memory.sectors.fill(0);
    if (discards && this.has('discard-erases')) this.memory.flash.fill(0xff);
  }

  storePage(block, kind, room, before, arrival) {
    if (this.has('stores-nothing') || (this.has('stores-first-only') && before > 0)) return;
    const memory = this.memory[kind];
    let at = room.start + (this.has('stores-by-order') ? before * PAYLOAD : block.address - this.startOf(kind));
    if (kind === 'flash' && this.has('adds-in-32-bits')) at %= memory.length;
    if (at < 0 || at + PAYLOAD > memory.length) return;
    if (kind === 'flash') this.eraseFor(Math.floor(at / SECTOR));
    memory.set(payloadOf(arrival), at);
  }

  eraseFor(sector) {
    const marked = isMarked(this.memory.sectors, sector);
    if ((!marked || this.has('erases-each-page')) && !this.has('never-erases')) this.memory.flash.fill(0xff, sector * SECTOR, (sector + 1) * SECTOR);
    mark(this.memory.sectors, sector);
  }
}

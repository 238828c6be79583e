// A receiver and the list of its arrivals, at a position that moves both ways. Going back replays from the nearest snapshot.
import { N } from './numbers.js';
import { Pages } from './pages.js';

const SNAPSHOT_BYTES = 96 * 1024 * 1024;

// How many arrivals lie between two snapshots, so that all of them together stay below the limit.
export function stride(arrivals, bytes) {
  const most = Math.max(1, Math.floor(SNAPSHOT_BYTES / bytes));
  return Math.max(16, Math.ceil(arrivals / most));
}

export class Run {
  constructor(receiver, arrivals) {
    this.receiver = receiver;
    this.arrivals = arrivals;
    this.answers = new Uint8Array(arrivals.length);
    this.discards = new Uint8Array(arrivals.length);
    this.counts = new Uint32Array(arrivals.length);
    this.known = 0;
    this.refusals = new Map();
    receiver.reset();
    this.pages = new Pages(receiver);
    this.position = 0;
    this.last = null;
    this.reason = null;
    const first = this.snapshot();
    const bytes = Object.values(first.memory).reduce((sum, part) => sum + (part.length ?? 0), 1024);
    this.stride = stride(arrivals.length, bytes);
    this.snapshots = [first];
  }

  get atEnd() {
    return this.position === this.arrivals.length;
  }

  snapshot() {
    return { position: this.position, memory: this.receiver.save(), pages: this.pages.save() };
  }

  // One arrival taken. Its reason is asked before, while the buffers are those it is decided by.
  step(withReason = true) {
    const k = this.position;
    const { bytes } = this.arrivals[k];
    this.reason = withReason ? this.receiver.why(bytes) : null;
    this.last = this.receiver.take(bytes);
    this.pages.note(this.last);
    this.answers[k] = this.last.answer;
    this.discards[k] = this.last.discarded ? 1 : 0;
    this.counts[k] = this.receiver.transfer.count;
    this.noteRefusal(k, bytes);
    this.position = k + 1;
    this.known = Math.max(this.known, this.position);
    if (this.position % this.stride === 0 && this.snapshots.length <= this.position / this.stride) this.snapshots.push(this.snapshot());
  }

  // The first arrival of each answer from 1 to 11, with its reason. Such an answer has changed nothing, so that the reason is still the same.
  noteRefusal(k, bytes) {
    const { answer } = this.last;
    if (answer < N.UF2_ANSWER_FINISHED && !this.refusals.has(answer)) this.refusals.set(answer, { at: k, answer, reason: this.receiver.why(bytes) });
  }

  // The refusals before the position, in the order in which they came.
  get refused() {
    return [...this.refusals.values()].filter(({ at }) => at < this.position);
  }

  // Goes to the nearest snapshot at or before `target`, where that is nearer than the position.
  rewind(target) {
    if (target >= this.position) return;
    const snapshot = this.snapshots[Math.min(this.snapshots.length - 1, Math.floor(Math.max(0, target - 1) / this.stride))];
    this.receiver.restore(snapshot.memory);
    this.pages.restore(snapshot.pages);
    this.position = snapshot.position;
    this.last = null;
    this.reason = null;
  }

  // Moves towards `target` until `stop()` says so; whether it is reached. The last step asks for the reason.
  moveTo(target, stop = () => false) {
    this.rewind(target);
    while (this.position < target) {
      this.step(this.position + 1 === target);
      if (stop()) break;
    }
    return this.position === target;
  }
}

// One list of arrivals played into the proved receiver and, where one is chosen, into a wrong one beside it.
import { ProvedReceiver } from './proved.js';
import { FAMILY } from './board.js';
import { N } from './numbers.js';
import { EXTRAS } from './maker.js';
import { readBlock } from './block.js';
import { Run } from './run.js';
import { WRONG } from './wrong/all.js';
import { arrivalList } from './arrivals.js';
import { checkFile } from './check.js';
import { filesOf } from './files.js';
import { inSlices, nextFrame } from './slices.js';
import { GOALS, shortestDifference } from './search.js';
import { MOST_FLASH, RecordedReceiver, listFor, playYours } from './yours.js';

// Foreign arrivals that a search may use though they are not mixed in.
const USUAL = ['otherBoard', 'otherFile', 'wraps'];

// The proved receiver and the chosen wrong one. What a wrong one does not get wrong itself is the library's: whether the settings are good, and MD5.
function receiversOf(library, board, chosen) {
  const proved = new ProvedReceiver(library, board);
  const goodSettings = ![N.UF2_ANSWER_BAD_BUFFERS, N.UF2_ANSWER_BAD_SETTINGS].includes(proved.place(FAMILY.data).answer);
  const wrong = chosen?.make ? new chosen.make(board, { goodSettings, md5: (bytes) => proved.md5(bytes) }) : null;
  return { proved, wrong };
}

// What the check found, by pieces and board: a list that is sent otherwise is of the same file.
const checked = new WeakMap();

// What is wrong with the plan's file. An instance that is used for nothing else has the copy of it.
async function checkedFile(pool, board, plan, receiver) {
  if (!plan.isFile) return null;
  const known = checked.get(plan.pieces);
  const words = JSON.stringify(board);
  if (known?.words === words) return known.found;
  const found = await pool.use((library) => checkFile(library, board, plan.pieces, receiver));
  checked.set(plan.pieces, { words, found });
  return found;
}

export class Session {
  // `plan` has the pieces of a file and how they are sent (arrivals.js); `wrongId` names a wrong receiver, is 'yours' for the one of which `yours` is the code, or is
  // null. `close()` gives the library's instance back.
  static async open(pool, board, plan, wrongId, yours = '') {
    const isYours = wrongId === 'yours' && board.flash <= MOST_FLASH;
    const session = new Session(pool, board, plan, isYours ? { id: 'yours' } : (WRONG.find((item) => item.id === wrongId) ?? null));
    session.library = await pool.take();
    // a large file is prepared in steps, with a frame drawn between them
    const pause = plan.pieces.length > 8192 ? nextFrame : () => {};
    const { proved, wrong } = receiversOf(session.library, board, session.chosen);
    await pause();
    session.arrivals = arrivalList(plan);
    await pause();
    const others = session.arrivals.filter((arrival) => arrival.piece === undefined);
    session.files = await filesOf(plan.pieces, others.map((arrival) => arrival.bytes), proved, pause);
    await pause();
    session.checked = await checkedFile(pool, board, plan, proved);
    await pause();
    session.proved = new Run(proved, session.arrivals);
    await pause();
    session.wrong = wrong ? new Run(wrong, session.arrivals) : isYours ? await session.recorded(yours, proved) : null;
    return session;
  }

  // A run of the receiver that somebody wrote: its list is played in a worker first.
  async recorded(code, proved) {
    const list = listFor(this.board, this.arrivals.map(({ bytes }) => bytes));
    const { broken, results } = await playYours(code, [list], { record: true });
    const recording = broken ? { steps: [], failed: { at: 0, ...broken } } : results[0];
    return new Run(new RecordedReceiver(this.board, recording, (block) => proved.storage(block)), this.arrivals);
  }

  constructor(pool, board, plan, chosen) {
    Object.assign(this, { pool, board, plan, chosen });
    this.target = 0;
    this.moving = false;
    this.closed = false;
  }

  // The receivers are not used any more. A move that is under way ends first.
  close() {
    this.closed = true;
    if (this.moving || !this.library) return;
    this.pool.give(this.library);
    this.library = null;
  }

  get position() {
    return this.proved.position;
  }

  get runs() {
    return this.wrong ? [this.proved, this.wrong] : [this.proved];
  }

  // The file that a receiver is judged by: that of its transfer, and before one has begun the one of which most blocks are at hand.
  fileOf(run) {
    const { state, family, total } = run.receiver.transfer;
    const file = this.files.find((one) => state !== 'idle' && one.family === family && one.total === total);
    return (file ?? this.files[0]).read(this.proved.receiver);
  }

  // Moves both receivers to a position, in slices. A later call changes where a move that is under way goes to.
  async moveTo(target, between) {
    this.target = Math.max(0, Math.min(this.arrivals.length, target));
    if (this.moving || this.closed) return;
    this.moving = true;
    try {
      await inSlices((stop) => this.closed || this.runs.every((run) => run.moveTo(this.target, stop)), between);
    } finally {
      this.moving = false;
      if (this.closed) this.close();
    }
  }

  // The index of the first arrival, below the position, that the two answer differently, or -1.
  firstDifference() {
    if (!this.wrong) return -1;
    const [a, b] = this.runs;
    for (let k = 0; k < this.position; k++) if (a.answers[k] !== b.answers[k] || a.discards[k] !== b.discards[k]) return k;
    return -1;
  }

  // The different arrivals at hand, the alphabet of a search: the first blocks of the file, what is mixed in and, where `more` is said, the usual foreign ones.
  alphabet(most, more) {
    const found = [];
    const known = new Set();
    const { pieces, extras } = this.plan;
    const all = [...pieces.slice(0, most).map((bytes, piece) => ({ piece, bytes })), ...extras.map((extra) => ({ extra, bytes: extra.bytes }))];
    const block = readBlock(pieces[0]);
    for (const kind of more && block ? USUAL : []) {
      const bytes = EXTRAS[kind](pieces[0], block.total);
      all.push({ extra: { kind, after: 0, bytes }, bytes });
    }
    for (const arrival of all) {
      const key = arrival.bytes.join();
      if (!known.has(key)) found.push(arrival);
      known.add(key);
    }
    return found;
  }

  // The shortest list of arrivals in which the wrong receiver differs from the proved one as `goal` says, or null.
  // The arrivals at hand are tried first, and then the usual foreign ones besides.
  async search(goal, limits, between) {
    for (const more of [false, true]) {
      const alphabet = this.alphabet(limits.letters, more);
      const found = await this.pool.use((library) => this.searchWith(library, alphabet, goal, limits, between));
      if (found || between({ tried: 0, depth: 1 }) === false) return found;
    }
    return null;
  }

  async searchWith(library, alphabet, goal, limits, between) {
    const { proved, wrong } = receiversOf(library, this.board, this.chosen);
    const steps = shortestDifference(proved, wrong, alphabet.map((arrival) => arrival.bytes), GOALS[goal], limits);
    let found = null;
    let progress = { tried: 0, depth: 1 };
    const work = (stop) => {
      for (;;) {
        const { done, value } = steps.next();
        if (done) {
          found = value;
          return true;
        }
        progress = value;
        if (stop()) return false;
      }
    };
    const whole = await inSlices(work, () => between(progress));
    return whole && found ? found.map((k) => alphabet[k]) : null;
  }
}

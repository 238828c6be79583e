// What can be said of a receiver at a position: what the display shows, and what is missing. Pure, but for reading the receiver's memory.
import { missingPages, someKept, standsThere } from './pages.js';
import { ARRIVAL, readBlock } from './block.js';
import { SECTOR } from './board.js';
import { N } from './numbers.js';
import { answerWords, familyName, pageSentence, reasonWords } from './words.js';
import { text } from './text.js';

const LISTED = 4;
const MOST_ASKED = 8;

// Whether bytes of the flash have changed in a sector that no page of the file belongs to.
function strayChange(run, file) {
  const own = new Set(file.pages.filter((page) => page.storage?.memory === 'flash').map((page) => Math.floor(page.storage.at / SECTOR)));
  const flash = run.receiver.bytes('flash');
  const lent = run.receiver.lent;
  for (let sector = 0; sector * SECTOR < flash.length; sector++) {
    if (own.has(sector)) continue;
    const end = (sector + 1) * SECTOR;
    for (let k = sector * SECTOR; k < end; k++) if (flash[k] !== lent[k]) return true;
  }
  return false;
}

// The answer that the library gives to a page's block, and why. Answers 1 to 11 do not depend on what has come before.
function rightAnswer(session, page) {
  return [answerWords(page.refused, false), reasonWords(page.refused, session.proved.receiver.why(page.piece))];
}

// A missing page in words: why the board refuses its block, or what stands where it belongs; and that its block never came, where that is so.
function missingWords(session, run, file, page) {
  if (page.refused) return text.verdict.page(page.number, page.address, text.verdict.rightAnswer(...rightAnswer(session, page)));
  if (!page.storage) return text.verdict.neverNowhere(page.number);
  const there = standsThere(run.receiver, page, file);
  if (page.piece) return pageSentence(page, there);
  return text.verdict.never(page.number, pageSentence({ ...page, address: text.verdict.likely(page.address) }, there));
}

// Blocks that never came are named first.
function missingLines(session, run, file, missing) {
  const lines = [...missing.filter((page) => !page.piece), ...missing.filter((page) => page.piece)]
    .slice(0, LISTED)
    .map((page) => missingWords(session, run, file, page));
  return missing.length > LISTED ? [...lines, text.verdict.more(missing.length - LISTED)] : lines;
}

// The comments of the file that this transfer has not accepted.
function missingComments(session, run, file) {
  const came = new Set();
  for (let k = 0; k < run.position && file.comments.length > 0; k++) {
    if (run.discards[k] === 1) came.clear();
    if (run.answers[k] >= N.UF2_ANSWER_WRITTEN) came.add(readBlock(session.arrivals[k].bytes).number);
  }
  return file.comments.filter((number) => !came.has(number));
}

// What makes the list none that the proof speaks of, or null: the file itself, which is told over the receivers; something of the blocks; or a short arrival.
function flawOf(session, run, file) {
  if (session.checked?.unspoken) return { what: 'file' };
  if (file.flaw) return file.flaw;
  const at = session.arrivals.findIndex(({ bytes }, k) => k < run.position && bytes.length !== ARRIVAL);
  return at < 0 ? null : { what: 'short', arrival: at + 1, length: session.arrivals[at].bytes.length };
}

// The first arrival that was accepted of another file than this one: what it stored stays.
function strangerIn(session, run, file) {
  for (let at = 0; at < run.position; at++) {
    if (run.answers[at] < N.UF2_ANSWER_WRITTEN) continue;
    const { family, total } = readBlock(session.arrivals[at].bytes);
    if (family !== file.family || total !== file.total) return { what: 'stranger', arrival: at + 1, name: familyName(family), total };
  }
  return null;
}

function flawLines(flaw) {
  if (!flaw || flaw.what === 'file') return [];
  const what = flaw.what === 'sameAddress' && flaw.pages[0].address !== flaw.pages[1].address ? 'overlap' : flaw.what;
  return [text.flaw.end(text.flaw[what](flaw))];
}

// The other blocks with a number of the file that have come.
function othersCome(session, run, file) {
  if (file.others.length === 0) return [];
  const came = new Set(session.arrivals.slice(0, run.position).map(({ bytes }) => bytes));
  return file.others.filter(({ piece }) => came.has(piece));
}

function askedWords(numbers) {
  const list = numbers.slice(0, MOST_ASKED).map(text.state.number).join(', ');
  return text.verdict.asked(numbers.length, numbers.length > MOST_ASKED ? text.verdict.andOthers(list) : list);
}

// Where the proved receiver is done and a page is missing: who is at fault, and the remedy, by which every block at hand is asked with uf2_stands.
function remedyLines(session, run, file, flaw) {
  const asked = [...file.pages, ...othersCome(session, run, file)].filter(({ piece, refused }) => piece && !refused);
  const differ = asked.filter(({ piece }) => run.receiver.stands(piece) === N.UF2_DIFFERS).map(({ number }) => number);
  const fault = flaw.what === 'file' ? [text.verdict.fileAtFault] : [];
  return differ.length > 0 ? [...fault, askedWords([...new Set(differ)].sort((a, b) => a - b))] : fault;
}

// Nothing was accepted: the first arrival of each answer, with the reason that the library names.
function idleVerdict(session, run) {
  const { refused } = run;
  const lines = refused.slice(0, LISTED).map(({ at, answer, reason }) => text.verdict.refused(at + 1, answerWords(answer, false), reasonWords(answer, reason)));
  if (refused.length !== 1 || refused[0].answer !== N.UF2_ANSWER_NO_PLACE) return { kind: 'nothing', words: text.verdict.nothing, lines };
  const { family } = readBlock(session.arrivals[refused[0].at].bytes);
  return { kind: 'noPlace', words: text.verdict.noPlace(familyName(family)), lines };
}

// What is said below the verdict: why the proof does not speak of the list, the remedy, and what is missing.
function linesOf(session, run, file, { flaw, remedy = [], missing, comments }) {
  return [...flawLines(flaw), ...remedy, ...missingLines(session, run, file, missing), ...comments.slice(0, LISTED).map(text.verdict.comment)];
}

// What is wrong with a display that says complete.
function alarmOf(session, file, missing, stray) {
  if (stray) return { kind: 'misplaced', words: text.verdict.damaged };
  if (missing.length === 0) return { kind: 'falselyDone', words: text.verdict.notCounted };
  if (file.pages.some((page) => !page.refused)) return { kind: 'falselyDone', words: text.verdict.falselyDone(missing.length) };
  return { kind: 'misplaced', words: text.verdict.misplaced, lines: [text.verdict.misplacedPages(missing[0].number, ...rightAnswer(session, missing[0]))] };
}

// The display says complete. Where two blocks have one number, and every page of the first is there, those of the others count. Where the list is none that the proof
// speaks of, the proved receiver's answers are right, and the display is not.
function doneVerdict(session, run, file, own) {
  const missing = own.length > 0 ? own : missingPages(run, { pages: othersCome(session, run, file) });
  const comments = missingComments(session, run, file);
  const stray = missing.length === 0 && strayChange(run, file);
  const flaw = flawOf(session, run, file) ?? (stray ? strangerIn(session, run, file) : null);
  const lines = linesOf(session, run, file, { flaw, missing, comments });
  if (missing.length + comments.length === 0 && !stray) return { kind: 'completed', words: someKept(run) ? text.verdict.completedKept : text.verdict.completed, lines };
  const alarm = { lines, ...alarmOf(session, file, missing, stray) };
  if (!flaw || run !== session.proved) return alarm;
  return { kind: 'unspoken', words: alarm.words, lines: linesOf(session, run, file, { flaw, remedy: remedyLines(session, run, file, flaw), missing, comments }) };
}

// The list has ended, and the display does not say complete.
function runningVerdict(session, run, file, missing) {
  const { count, total } = run.receiver.transfer;
  const lines = linesOf(session, run, file, { flaw: flawOf(session, run, file), missing, comments: missingComments(session, run, file) });
  if (missing.length > 0) return { kind: 'missing', words: text.verdict.notCompleted(missing.length, file.pages.length), lines };
  return { kind: 'notDone', words: text.verdict.notDone(count, total), lines };
}

// A receiver's end, or how it stands: `kind` (start, going, completed, missing, nothing, noPlace, unspoken, falselyDone, misplaced, notDone), a sentence, and more
// lines: what makes the list none that the proof speaks of, and each missing page.
export function verdictOf(session, run) {
  const { state } = run.receiver.transfer;
  const all = session.arrivals.length;
  if (run.receiver.failed) return { kind: 'nothing', words: text.verdict.noAnswer(run.receiver.failed.at + 1), lines: [] };
  if (run.position === 0) return { kind: 'start', words: text.verdict.start, lines: [] };
  if (state !== 'done' && run.position < all) return { kind: 'going', words: text.verdict.going(run.position, all), lines: [] };
  if (state === 'idle') return idleVerdict(session, run);
  const file = session.fileOf(run);
  const missing = missingPages(run, file);
  const verdict = state === 'done' ? doneVerdict(session, run, file, missing) : runningVerdict(session, run, file, missing);
  const meant = session.files[0];
  if (meant.family === file.family && meant.total === file.total) return verdict;
  return { ...verdict, lines: [text.verdict.otherFile(familyName(file.family), file.total), ...verdict.lines] };
}

// The lamp: what the display shows by the transfer's state alone, and whether it says complete though the file is not there.
export function lampOf(run, verdict) {
  const { state } = run.receiver.transfer;
  const wrongly = state === 'done' && ['falselyDone', 'misplaced', 'unspoken'].includes(verdict.kind);
  return { state, wrongly, ...text.lamp[state] };
}

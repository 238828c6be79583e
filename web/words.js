// Sentences about what the library answered, from the words of text.js. Pure functions.
import { text } from './text.js';
import { N } from './numbers.js';
import { FAMILY } from './board.js';
import { hex } from './bytes.js';
import { readBlock } from './block.js';
import { NO_ANSWER } from './yours.js';

export function familyName(family) {
  const name = Object.keys(FAMILY).find((key) => FAMILY[key] === family);
  return name ? text.families[name] : hex(family);
}

// A family from what somebody wrote: a name or a number. Null where it is neither.
export function familyFrom(words) {
  const name = words.trim().toLowerCase();
  if (name in FAMILY) return FAMILY[name];
  if (!/^(0x[0-9a-f]{1,8}|\d{1,10})$/.test(name)) return null;
  const number = Number(name);
  return number < 2 ** 32 ? number : null;
}

// The reason where the library gave one, else the sentence for the answer.
export function reasonWords(answer, reason) {
  if (reason && text.reasons[reason.cause]) return text.reasons[reason.cause](reason);
  return text.answer.meanings[answer] ?? '';
}

export function answerWords(answer, discarded) {
  if (answer === NO_ANSWER) return text.yours.noAnswer;
  const words = `${answer} ${text.answer.names[answer] ?? ''}`;
  return discarded ? text.log.discarded(words) : words;
}

// Why a receiver of one's own gave no answer, in a sentence.
export function failedWords(failed) {
  const words = text.yours.failed[failed.what ?? failed.kind];
  const said = typeof words === 'function' ? words({ ...failed, arrival: failed.at + 1, seconds: failed.limit }) : words;
  return failed.line > 0 ? text.yours.failed.atLine(said, failed.line) : said;
}

export function stateWords(transfer) {
  if (transfer.state === 'idle') return text.state.idle;
  const words = transfer.state === 'done' ? text.state.done(transfer.total) : text.state.running(transfer.count, transfer.total);
  return `${words} (${familyName(transfer.family)}, ${text.state.into[transfer.kind]})`;
}

export function blockWords(bytes) {
  const block = readBlock(bytes);
  if (!block) return { block: text.log.noBlock, family: '', address: '' };
  const named = (block.flags & 0x2000) !== 0;
  return {
    block: text.log.block(block.number, block.total),
    family: named ? familyName(block.family) : '',
    address: block.comment ? '' : hex(block.address),
  };
}

// What the check of a file found, in words; none where the file is valid, or where the board's settings are at fault.
export function faultWords(checked) {
  if (!checked || checked.answer < N.UF2_ANSWER_NOT_BLOCK) return '';
  const { answer, reason, unspoken } = checked;
  if (answer === N.UF2_CHECK_GUARDED) return text.file.guarded;
  const words = text.file.faults[checked.repeat ? `${answer}again` : answer] ?? text.file.refused(checked.piece, answerWords(answer, false), reasonWords(answer, reason));
  const fault = typeof words === 'function' ? words(checked) : words;
  return unspoken ? text.file.unspoken(fault) : text.file.notValid(fault);
}

export function pageSentence(page, there) {
  const start = Array.from(there.start ?? [], (x) => x.toString(16).toUpperCase().padStart(2, '0')).join(' ');
  const words = text.verdict.stands[there.what];
  return text.verdict.page(page.number, page.address, typeof words === 'function' ? words(there.number, start) : words);
}

// The command line that plays a file of arrivals into this board, or null where it has no words for the board: partitions.
export function commandLine(name, board) {
  if (board.entries.length > 0) return null;
  const flags = { '--arm': board.arm, '--riscv': board.riscv, '--auto-switch': board.autoSwitch, '--absolute': board.absolute, '--main-ram': board.main, '--xip-ram': board.xip };
  const said = Object.keys(flags).filter((flag) => flags[flag]);
  return ['vantorel load', name, '-v --flash', board.flash, ...said, '--current', board.current].join(' ');
}

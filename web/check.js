// What the proved check (uf2_check) says of a file, for a board, before a block of it is sent.
import { N } from './numbers.js';
import { get64, same } from './bytes.js';
import { readBlock } from './block.js';
import { settingsBytes } from './board.js';

// Of such a file the theorem over lists does not speak either. Of one that is only short of a block, or has blocks of two files, it may.
const UNSPOKEN = [N.UF2_CHECK_RAGGED, N.UF2_CHECK_OTHER_KIND, N.UF2_CHECK_SAME_NUMBER, N.UF2_CHECK_OVERLAP];

// The library's answer, the piece with which something is wrong, and the earlier one that it collides with. The instance has a copy of the file and nothing else.
export function askCheck(library, board, pieces) {
  library.clear();
  const file = library.lend(pieces.reduce((sum, piece) => sum + piece.length, 0));
  const settings = library.lend(N.UF2_SETTINGS_SIZE);
  const maps = [N.UF2_CHECK_NUMBERS_SIZE, N.UF2_CHECK_CELLS_SIZE, N.UF2_CHECK_OFFSETS_SIZE].map((size) => library.lend(size));
  const told = library.lend(N.UF2_TOLD_SIZE);
  settings.bytes.set(settingsBytes(board));
  let at = 0;
  for (const piece of pieces) {
    file.bytes.set(piece, at);
    at += piece.length;
  }
  const lengths = [board.flash, board.main ? N.UF2_MAIN_RAM_SIZE : 0, board.xip ? N.UF2_XIP_RAM_SIZE : 0].map(BigInt);
  const answer = library.call('uf2_check', settings, file, ...lengths, ...maps, told);
  return { answer, piece: Number(get64(told.bytes, N.UF2_TOLD_PIECE_AT)), other: Number(get64(told.bytes, N.UF2_TOLD_OTHER_AT)) };
}

const isRefusal = (answer) => answer >= N.UF2_ANSWER_NOT_BLOCK && answer < N.UF2_ANSWER_FINISHED;

// The indices of the pieces without repeats and without those that the board refuses: a list may have both beside a file's blocks.
function ownPieces(pieces, receiver) {
  const first = new Map();
  return [...pieces.keys()].filter((k) => {
    if (isRefusal(receiver.refusal(pieces[k]))) return false;
    const number = readBlock(pieces[k])?.number ?? -1;
    if (first.has(number)) return !same(pieces[first.get(number)], pieces[k]);
    first.set(number, k);
    return true;
  });
}

// What is wrong with a file: the answer and its pieces, whether the two are the same (`repeat`), why the board refuses the piece (`reason`), and whether the
// proof does not speak of the file (`unspoken`). Null where this library does not check. The receiver, in another instance, has taken nothing yet.
export function checkFile(library, board, pieces, receiver) {
  if (!library.has('uf2_check')) return null;
  let fault = askCheck(library, board, pieces);
  let unspoken = false;
  if (![N.UF2_CHECK_VALID, N.UF2_CHECK_GUARDED].includes(fault.answer)) {
    const own = ownPieces(pieces, receiver);
    const rest = askCheck(library, board, own.map((k) => pieces[k]));
    unspoken = UNSPOKEN.includes(rest.answer);
    if (unspoken) fault = { answer: rest.answer, piece: own[rest.piece], other: own[rest.other] };
  }
  const { answer, piece, other } = fault;
  return {
    ...fault,
    unspoken,
    repeat: answer === N.UF2_CHECK_SAME_NUMBER && same(pieces[piece], pieces[other]),
    reason: isRefusal(answer) ? receiver.why(pieces[piece]) : null,
  };
}

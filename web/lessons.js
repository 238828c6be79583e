// The lessons: a board, a file, how it is sent, and the receiver beside it. Their words are in text.js under the same id.
import { FAMILY, newBoard, newEntry } from './board.js';
import { N } from './numbers.js';
import { VERSION, firmwareImage } from './firmware.js';
import { EXTRAS, makeUf2 } from './maker.js';
import { newPlan } from './arrivals.js';
import { changed, piecesOf, readBlock } from './block.js';

// `pages` of the sample; `times` is how often a block is sent where that is not once; `list` names every arrival; `extras` are arrivals of another kind
// after so many of the file's own, made of a block of the file; `earlier` are blocks of another file that come first; `address` gives a block the
// address of another.
export const LESSONS = [
  { id: 'lostPage', wrong: 'countsArrivals', pages: 8, times: { 2: 2, 5: 0 } },
  { id: 'order', wrong: 'trustsFileOrder', pages: 4, list: [1, 0, 2, 3, 0, 1, 2, 3] },
  { id: 'erase', wrong: 'erasesAtEachPage', pages: 8 },
  {
    id: 'foreign',
    wrong: 'foreignBlockDiscards',
    pages: 6,
    extras: [
      { kind: 'otherBoard', after: 3, piece: 3 },
      { kind: 'pastFlash', after: 4, piece: 4 },
    ],
  },
  { id: 'wrap', wrong: 'addsIn32Bits', pages: 4, board: { lent: 'old' }, times: { 3: 0 }, extras: [{ kind: 'wraps', after: 3, piece: 3 }] },
  {
    id: 'bEntry',
    wrong: 'choosesABEntry',
    pages: 6,
    board: { lent: 'old', entries: [newEntry({ first: 0, sectors: 4, data: true }), newEntry({ first: 4, sectors: 4, armS: true, link: 'b', index: 0 })] },
  },
  { id: 'oneMap', wrong: 'clearsOneMap', pages: 4, earlier: { pages: 6, blocks: [0, 1, 2] } },
  { id: 'whole', wrong: null, pages: 8, order: 'shuffled', seed: 3, times: { 1: 2 }, board: { lent: 'old' } },
  { id: 'oneAddress', wrong: null, pages: 6, address: { 5: 2 } },
  { id: 'otherBuild', wrong: null, pages: 6, earlier: { pages: 6, blocks: [0, 1, 2] } },
];

// A sample file, made by the proved maker, as pieces; or none, with the number of the refusal.
export function samplePieces(library, pages, family = FAMILY['arm-s'], title = 'new firmware', version = VERSION.new) {
  const { answer, file } = makeUf2(library, firmwareImage(pages, title, version), family, N.UF2_FLASH_START);
  return { answer, pieces: file ? piecesOf(file) : [] };
}

// The board, the plan and the wrong receiver of a lesson.
export function lessonParts(library, lesson) {
  const { pieces } = samplePieces(library, lesson.pages);
  for (const [k, other] of Object.entries(lesson.address ?? {})) pieces[k] = changed(pieces[k], { address: readBlock(pieces[other]).address });
  const extras = (lesson.extras ?? []).map(({ kind, after, piece }) => ({ kind, after, bytes: EXTRAS[kind](pieces[piece], lesson.pages) }));
  if (lesson.earlier) {
    const earlier = samplePieces(library, lesson.earlier.pages, FAMILY['arm-s'], 'earlier firmware', VERSION.old).pieces;
    for (const k of lesson.earlier.blocks) extras.push({ kind: 'earlier', after: 0, bytes: earlier[k] });
  }
  const times = new Map(Object.entries(lesson.times ?? {}).map(([k, n]) => [Number(k), n]));
  const order = lesson.list ? 'list' : (lesson.order ?? 'file');
  const list = (lesson.list ?? []).map((piece) => ({ piece }));
  return { board: newBoard(lesson.board), plan: newPlan(pieces, { times, order, seed: lesson.seed ?? 1, extras, list }), wrongId: lesson.wrong };
}

// The proved library in WebAssembly beside the stored outputs of the programs, the student's receiver beside the library, and each wrong receiver
// beside both.
import assert from 'node:assert/strict';
import { readdirSync } from 'node:fs';
import { chance, check, libraryModule, load, stored, storedText } from './common.mjs';

const { Libraries } = await load('wasm.js');
const { ProvedReceiver, readReason } = await load('proved.js');
const { reasonWords } = await load('words.js');
const { Student } = await load('wrong/student.js');
const { WRONG } = await load('wrong/all.js');
const { FAMILY, newBoard, newEntry, settingsBytes, settingsFrom } = await load('board.js');
const { changed, piecesOf, readBlock } = await load('block.js');
const { LESSONS, lessonParts, samplePieces } = await load('lessons.js');
const { EXTRAS } = await load('maker.js');
const { Session } = await load('session.js');
const { GOALS, shortestDifference } = await load('search.js');
const { verdictOf } = await load('verdict.js');
const { same } = await load('bytes.js');
const { N } = await load('numbers.js');
const { text } = await load('text.js');
const { put32 } = await load('bytes.js');

const libraries = new Libraries(await libraryModule());
const tools = await libraries.take();
const digest = tools.lend(16);
const message = tools.lend(1048576);
const md5 = (bytes) => {
  message.bytes.set(bytes);
  tools.call('uf2_md5', message.first(bytes.length), digest);
  return digest.bytes.slice();
};
const board1 = await libraries.take();
// one at a time: the next takes the memory of the last
const proved = (board) => {
  board1.clear();
  return new ProvedReceiver(board1, board);
};
const student = (make, board, good = true) => new make(board, { goodSettings: good, md5 });

await check('the answers of tests/receive', async () => {
  const names = readdirSync(new URL('../receive/', import.meta.url)).filter((name) => name.endsWith('.uf2'));
  assert.ok(names.length > 20);
  for (const name of names) {
    const receiver = proved(newBoard());
    const lines = piecesOf(stored(`receive/${name}`)).map((piece, k) => {
      const { answer, discarded } = receiver.take(piece);
      return `${k} ${answer} ${discarded ? 1 : 0}`;
    });
    const { state, total, count } = receiver.transfer;
    const expected = storedText(`tests/receive/${name.replace('.uf2', '.out')}`);
    assert.equal(['arrival answer discarded', ...lines, `state ${state} total ${total} seen ${count}`, ''].join('\n'), expected, name);
  }
});

// A board of chance, with partitions or none, and RAM or none.
function randomBoard(below) {
  const entries = [];
  let at = 0;
  const count = below(3) === 0 ? 0 : below(5);
  for (let k = 0; k < count; k++) {
    const sectors = 1 + below(2);
    const link = k === 0 ? 'none' : ['none', 'owned', 'b'][below(3)];
    const users = below(3) === 0 ? [0x1234] : [];
    const flags = Object.fromEntries(['data', 'armS', 'riscv', 'armNs', 'notBootableArm', 'notBootableRiscv'].map((name) => [name, below(2) === 1]));
    entries.push(newEntry({ first: at, sectors, link, index: 0, users, ...flags }));
    at += below(40) === 0 ? 0 : sectors + below(2);
  }
  const current = ['arm', 'riscv'][below(2)];
  const board = { flash: 4096 * (12 + below(4)), main: below(4) === 0, xip: below(2) === 0, arm: current === 'arm' || below(2) === 1, riscv: current === 'riscv' || below(2) === 1, current };
  return newBoard({ ...board, autoSwitch: below(2) === 1, absolute: below(2) === 1, entries, lent: ['erased', 'old'][below(2)] });
}

// A block of chance: mostly one that may be accepted, with a field or two that may not.
function randomBlock(below, piece, receiver) {
  const usual = { family: [FAMILY['arm-s'], FAMILY.data][below(8) === 0 ? 1 : 0], total: 3, number: below(3), address: 0x10000000 + 256 * below(3) };
  if (below(2) === 0) return changed(piece, { ...usual, flags: below(6) === 0 ? 0x2001 : 0x2000 });
  const families = [FAMILY['arm-s'], FAMILY['arm-s'], FAMILY.riscv, FAMILY.data, FAMILY['arm-ns'], FAMILY.absolute, FAMILY.rp2040, 0x1234, 7];
  const total = [3, 3, 3, 4, 0, 33, 20][below(7)];
  const windows = [0x10000000, 0x10000000, 0x10000000, 0x20000000, 0x13ffc000, 0x12000000, 0xffffff00, 0x0fffff00];
  const address = (windows[below(8)] + 256 * below(5) + (below(8) === 0 ? 1 : 0)) % 2 ** 32;
  const flags = [0x2000, 0x2000, 0x2000, 0x2000, 0x2001, 0x6000, 0xa000, 0x3000, 0][below(9)];
  const block = changed(piece, { family: families[below(families.length)], total, number: below(5), address, flags, size: below(12) === 0 ? 255 : 256 });
  if (flags & 0x4000) {
    const start = 0x10000000 + 4096 * below(2);
    const length = 4096 * (1 + below(2));
    put32(block, 484, start);
    put32(block, 488, length);
    const place = receiver.place(readBlock(block).family);
    const from = place.start + start - 0x10000000;
    if (below(2) === 0) block.set(md5(receiver.bytes('flash').subarray(from, from + length)), 492);
  }
  return below(20) === 0 ? block.subarray(0, 500) : below(20) === 0 ? changed(block, { last: 1 }) : block;
}

await check("the student's receiver without an error answers and stores as the library, on 40,000 arrivals of chance", async () => {
  const below = chance(20);
  const { pieces } = await libraries.use((library) => samplePieces(library, 8));
  const met = new Set();
  for (let list = 0; list < 400; list++) {
    const board = randomBoard(below);
    const a = proved(board);
    const b = student(Student, board, ![1, 2].includes(a.place(FAMILY.data).answer));
    for (let k = 0; k < 100; k++) {
      if (below(12) === 0) {
        a.reset();
        b.reset();
      }
      const piece = randomBlock(below, pieces[below(8)], a);
      const [x, y] = [a.take(piece), b.take(piece)];
      met.add(x.answer);
      assert.deepEqual([y.answer, y.discarded], [x.answer, x.discarded], JSON.stringify({ board, block: readBlock(piece) }));
      const { state, family, total, count } = a.transfer;
      assert.deepEqual([b.transfer.state, b.transfer.family, b.transfer.total, b.transfer.count], [state, family, total, count]);
      assert.deepEqual([y.erased, y.cleared], [x.erased, x.cleared]);
    }
    for (const name of ['flash', 'seen', 'sectors', 'main', 'xip']) assert.ok(same(a.bytes(name), b.bytes(name)), name);
  }
  assert.deepEqual([...met].sort((p, q) => p - q), [1, 2, 4, 5, 7, 8, 9, 10, 11, 12, 13, 14, 15, 16, 17]);
});

await check('settings as bytes and back', () => {
  const below = chance(7);
  for (let k = 0; k < 200; k++) {
    const board = randomBoard(below);
    for (const entry of board.entries) if (entry.link === 'none') entry.index = 0;
    assert.deepEqual({ ...board, ...settingsFrom(settingsBytes(board)) }, board);
  }
});

for (const lesson of LESSONS) {
  await check(`lesson ${lesson.id}`, async () => {
    const { board, plan, wrongId } = await libraries.use((library) => lessonParts(library, lesson));
    const session = await Session.open(libraries, board, plan, wrongId);
    globalThis.requestAnimationFrame = (act) => setTimeout(act, 0);
    await session.moveTo(session.arrivals.length);
    const kinds = session.runs.map((run) => verdictOf(session, run).kind);
    const expected = {
      lostPage: ['missing', 'falselyDone'],
      order: ['completed', 'falselyDone'],
      erase: ['completed', 'falselyDone'],
      foreign: ['completed', 'missing'],
      wrap: ['missing', 'falselyDone'],
      bEntry: ['noPlace', 'misplaced'],
      oneMap: ['completed', 'missing'],
      whole: ['completed'],
      oneAddress: ['unspoken'],
      otherBuild: ['unspoken'],
    }[lesson.id];
    assert.deepEqual(kinds, expected);
    // back to each position, and forward again: the same state
    const end = session.proved.receiver.save();
    for (const k of [3, 1, 0, session.arrivals.length]) await session.moveTo(k);
    assert.ok(same(end.flash, session.proved.receiver.bytes('flash')) && same(end.seen, session.proved.receiver.bytes('seen')));
    session.close();
  });
}

await check('the shortest list that tells each wrong receiver from the proved one', async () => {
  const shortest = {};
  for (const lesson of LESSONS.filter((item) => item.wrong)) {
    const { board, plan, wrongId } = await libraries.use((library) => lessonParts(library, lesson));
    const session = await Session.open(libraries, board, plan, wrongId);
    const found = await session.search('differ', { letters: 8, depth: 6, tries: 20000 }, () => true);
    shortest[wrongId] = found.length;
    session.close();
  }
  assert.deepEqual(shortest, { countsArrivals: 2, trustsFileOrder: 2, erasesAtEachPage: 2, foreignBlockDiscards: 2, addsIn32Bits: 1, choosesABEntry: 1, clearsOneMap: 3 });
});

await check('the usual foreign arrivals are tried where those at hand tell nothing', async () => {
  const lengths = {};
  for (const wrongId of ['foreignBlockDiscards', 'addsIn32Bits', 'clearsOneMap']) {
    const { board, plan } = await libraries.use((library) => lessonParts(library, LESSONS[2]));
    const session = await Session.open(libraries, board, plan, wrongId);
    const found = await session.search('differ', { letters: 4, depth: 6, tries: 20000 }, () => true);
    lengths[wrongId] = found.length;
    assert.ok(found.some(({ extra }) => extra && extra.kind));
    session.close();
  }
  assert.deepEqual(lengths, { foreignBlockDiscards: 2, addsIn32Bits: 1, clearsOneMap: 3 });
});

await check('no list of up to 5 arrivals tells the receiver without an error from the proved one', async () => {
  const board = newBoard();
  const { pieces } = await libraries.use((library) => samplePieces(library, 3));
  const alphabet = [...pieces, EXTRAS.otherFile(pieces[0], 3), EXTRAS.otherBoard(pieces[1]), EXTRAS.comment(pieces[0], 3)];
  const steps = shortestDifference(proved(board), student(Student, board), alphabet, GOALS.differ, { depth: 5, tries: 20000 });
  let step = steps.next();
  while (!step.done) step = steps.next();
  assert.equal(step.value, null);
});

await check('each wrong receiver names an edit and a promise that stand in the repository', () => {
  const handIns = storedText('docs/HAND-INS.md').replace(/`/g, '');
  for (const { id, edit } of WRONG) {
    const [crate, name] = edit.split('/');
    storedText(`crates/${crate}/must-fail/${name}.edit`);
    assert.ok(handIns.includes(edit), edit);
    const promise = text.wrong.items[id].promise.replace(/^contract of /, '');
    for (const word of promise.match(/[A-Za-z_]{6,}/g)) assert.ok(handIns.includes(word), `${edit}: ${word}`);
  }
  storedText('crates/uhex_effects/must-fail/other_board_stored.edit');
});

await check('every answer has a name and a sentence, and every reason words', () => {
  const answers = Object.entries(N).filter(([name]) => name.startsWith('UF2_ANSWER_'));
  for (const [name, number] of answers) {
    assert.ok(text.answer.names[number], name);
    if (number > 0) assert.ok(text.answer.meanings[number], name);
  }
  for (const [name, number] of Object.entries(N).filter(([name]) => name.startsWith('UHEX_ANSWER_'))) assert.ok(text.hex.names[number] && text.hex.meanings[number], name);
  for (const [cause, words] of Object.entries(text.reasons)) {
    const sentence = words({ cause: Number(cause), got: 5n, against: 7n, entry: 1, other: 0, marks: [1, 2, ...Array(14).fill(0)] });
    assert.match(sentence, /^[A-Z].*\.$/, cause);
    assert.ok(!/undefined|NaN/.test(sentence), cause);
  }
  const causes = Object.entries(N).filter(([name]) => name.startsWith('UF2_CAUSE_'));
  assert.deepEqual(Object.keys(text.reasons).map(Number), causes.map(([, number]) => number).sort((a, b) => a - b));
});

await check('a reason in bytes becomes a sentence, and without one the answer has its own', () => {
  const bytes = new Uint8Array(38);
  put32(bytes, 0, 806);
  put32(bytes, 4, FAMILY['arm-s']);
  bytes.set([2, 1], 22);
  const reason = readReason(bytes);
  assert.deepEqual([reason.cause, reason.got, reason.against, reason.marks.slice(0, 3)], [806, 0xe48bff59n, 0n, [2, 1, 0]]);
  assert.equal(reasonWords(8, reason), 'No A partition accepts the family arm-s (0xE48BFF59): partition 0 does not accept it, partition 1 is a B partition.');
  assert.equal(reasonWords(8, null), text.answer.meanings[8]);
});

await check('the words are those of words/answers.tsv, which the tool prints', () => {
  const lines = storedText('words/answers.tsv').split('\n').filter((line) => line !== '' && !line.startsWith('#'));
  const upper = (words) => `${words[0].toUpperCase()}${words.slice(1)}.`;
  for (const [table, number, name, , words] of lines.slice(1).map((line) => line.split('\t'))) {
    if (table === 'answer') assert.deepEqual([text.answer.names[number], text.answer.meanings[number]], [name, upper(words)]);
    if (table === 'line') assert.deepEqual([text.hex.names[number], text.hex.meanings[number]], [name, upper(words)]);
    if (table === 'store') assert.equal(text.setup.storeRefused[number], `The store was not read: ${upper(words)}`);
    if (table === 'check' && number === '80') assert.equal(text.file.faults[80], upper(words));
    if (table === 'check' && ['82', '83', '84'].includes(number)) assert.equal(text.file.faults[number]({ piece: 7 }), upper(words.replace('the piece', 'piece 7')));
    if (table === 'check' && number === '87') assert.equal(text.file.faults[87]({ piece: 5 }), upper(`${words}: block 5 is missing`));
    if (table === 'check' && number === '88') assert.ok(text.file.guarded.startsWith(upper(words)));
    if (table === 'cause' && !words.includes('{')) assert.equal(text.reasons[number]({}), upper(words));
  }
  const told = (cause, got, against) => reasonWords(0, { cause, got, against, entry: 2, other: 3, marks: [] });
  assert.equal(told(1103, 8448n, 8192n), 'The page at the address 0x10002000 would end 8,448 bytes after the start of its place, which has only 8,192 bytes.');
  assert.equal(told(1105, 0x20000000n, 0x12000000n), "The address 0x20000000 lies in no memory of this board: flash's addresses end at 0x12000000; it is one of main RAM, which this board lacks.");
  assert.equal(told(1105, 0x13ffc001n, 0x12000000n), "The address 0x13FFC001 lies in no memory of this board: flash's addresses end at 0x12000000; it is one of XIP RAM, which this board lacks.");
  assert.equal(told(1002, 65792n, 1n), 'The block says that its file has 257 blocks, which take 65,792 bytes; there is room for 1 byte.');
  assert.equal(told(205, 3n, 2n), 'Partition 2 shares a sector with partition 3.');
  assert.equal(told(501, 0x3000n, 0x1000n), "Its flags 0x00003000 have 0x1000: it belongs to a file container, which is not for the board's memory.");
});

// Where the library says why: of arrivals of chance, the reason's row is the answer.
await check('the reason of an arrival is of its answer, where the library says why', () => {
  const below = chance(3);
  if (!board1.has('uf2_why')) return;
  const receiver = proved(newBoard({ main: true }));
  const pieces = piecesOf(stored('receive/any_order_with_repeats.uf2'));
  for (let k = 0; k < 3000; k++) {
    if (below(12) === 0) receiver.reset();
    const piece = randomBlock(below, pieces[below(pieces.length)], receiver);
    const { cause } = receiver.why(piece);
    assert.ok(text.reasons[cause], String(cause));
    assert.equal(Math.floor(cause / 100), receiver.take(piece).answer);
  }
});

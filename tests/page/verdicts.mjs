// The words of the verdict, for the proved receiver and every wrong one: of lists in which a block never came, of lists that the proof does not speak of, and
// of files that the board refuses. verdicts.json has the first, which browser.py holds the page to as well.
import assert from 'node:assert/strict';
import { chance, check, libraryModule, load, stored, storedText } from './common.mjs';

const { Libraries } = await load('wasm.js');
const { FAMILY, newBoard, newEntry } = await load('board.js');
const { changed } = await load('block.js');
const { LESSONS, lessonParts, samplePieces } = await load('lessons.js');
const { arrivalList, newPlan } = await load('arrivals.js');
const { EXTRAS } = await load('maker.js');
const { ProvedReceiver } = await load('proved.js');
const { Session } = await load('session.js');
const { lampOf, verdictOf } = await load('verdict.js');
const { faultWords, reasonWords } = await load('words.js');
const { askCheck } = await load('check.js');
const { N } = await load('numbers.js');
const { WRONG } = await load('wrong/all.js');
const { put32 } = await load('bytes.js');

globalThis.requestAnimationFrame = (act) => setTimeout(act, 0);
const libraries = new Libraries(await libraryModule());
const sample = (pages) => libraries.use((library) => samplePieces(library, pages).pieces);

// A list that is played to its end: what `read` tells of the session.
async function playedSession(board, plan, wrongId, read) {
  const session = await Session.open(libraries, board, plan, wrongId);
  await session.moveTo(session.arrivals.length);
  const found = read(session);
  session.close();
  return found;
}

// The verdicts: the proved receiver's, and that of the wrong one where one is named.
const played = (board, plan, wrongId = null) => playedSession(board, plan, wrongId, (session) => session.runs.map((run) => verdictOf(session, run)));

// Pieces that are a list of arrivals and no file.
const listOf = (pieces) => newPlan(pieces, { isFile: false });

// What is said of a file over the receivers.
const faultOf = (board, pieces) => playedSession(board, newPlan(pieces), null, ({ checked }) => faultWords(checked));

const said = ({ words, lines }) => [words, ...lines];
const provedWords = async (board, plan) => said((await played(board, plan))[0]);

// The words of the reason that the library names for an arrival on a plain board.
const reasonOf = (piece) =>
  libraries.use((library) => {
    const receiver = new ProvedReceiver(library, newBoard());
    return reasonWords(receiver.look(piece).answer, receiver.why(piece));
  });

// The words of each receiver at the end of a list.
async function everyReceiver(board, pieces) {
  const found = {};
  for (const { id } of WRONG) {
    const [proved, wrong] = await played(board, newPlan(pieces), id);
    assert.deepEqual(found.proved ?? said(proved), said(proved), id);
    Object.assign(found, { proved: said(proved), [id]: said(wrong) });
  }
  return found;
}

const expected = JSON.parse(storedText('tests/page/verdicts.json'));
const eight = await sample(8);
const twentyFour = await sample(24);
const upTo = (n) => Array.from({ length: n }, (_, k) => k);

// ---- A block that never came

await check('a block that never came is named in both columns, for every receiver: the sample of a trace, and lesson 1 saved and opened', async () => {
  const { board, plan } = await libraries.use((library) => lessonParts(library, LESSONS[0]));
  const arrivals = arrivalList(plan).map(({ bytes }) => bytes);
  assert.deepEqual(await everyReceiver(board, arrivals), expected.lesson1);
});

await check('a block that never came is named in both columns, for every receiver: a recorded trace that lost one', async () => {
  assert.deepEqual(await everyReceiver(newBoard(), [0, 1, 2, 3, 4, 6, 7, 7].map((k) => eight[k])), expected.trace);
});

await check('a block that never came is named in both columns, for every receiver: a UF2 without block 17 and with block 3 twice', async () => {
  const pieces = upTo(24).flatMap((k) => (k === 17 ? [] : k === 3 ? [twentyFour[3], twentyFour[3]] : [twentyFour[k]]));
  assert.deepEqual(await everyReceiver(newBoard(), pieces), expected.uf2);
});

await check('where the others do not lie in one piece, the address of a block that never came is not guessed', async () => {
  const pieces = [eight[0], changed(eight[1], { address: 0x10002000 }), ...eight.slice(3)];
  assert.deepEqual(await provedWords(newBoard(), newPlan(pieces)), ['Not completed: 1 of 8 pages is missing.', 'Block 2 never came, and its address is not known.']);
});

await check('a comment that is lost, and the receiver that counts arrivals', async () => {
  const three = upTo(3).map((k) => changed(eight[k], { total: 3, flags: k === 1 ? 0x2001 : 0x2000 }));
  const [proved, wrong] = await played(newBoard(), newPlan(three, { times: new Map([[0, 2], [1, 0]]) }), 'countsArrivals');
  assert.deepEqual(said(proved), ['Not completed: 2 of 3 blocks have been counted.', 'Block 1, a comment, has not been counted.']);
  assert.deepEqual(said(wrong), ['GREEN, AND A BLOCK WAS NOT COUNTED', 'Block 1, a comment, has not been counted.']);
});

await check('every lesson saved and opened as a file: the proved receiver ends as it did in the lesson, and no wrong one is called right', async () => {
  const kinds = {};
  for (const lesson of LESSONS) {
    const { board, plan, wrongId } = await libraries.use((library) => lessonParts(library, lesson));
    const before = await played(board, plan, wrongId);
    const after = await played(board, newPlan(arrivalList(plan).map(({ bytes }) => bytes)), wrongId);
    assert.deepEqual(after.map(({ kind }) => kind), before.map(({ kind }) => kind), lesson.id);
    kinds[lesson.id] = after.map(({ kind }) => kind).join();
  }
  assert.deepEqual(Object.values(kinds).filter((words) => words.endsWith('completed') && words.includes(',')), []);
});

// ---- Lists that the proof does not speak of

const remedy = (differ) => `The remedy is to ask every block with uf2_stands before the display says complete: ${differ}.`;
const FILE_AT_FAULT = 'The file is at fault, and not the receiver. “vantorel check” tells it before the file is sent.';

await check('a comment with the number of a data block: the page says why the proof does not speak of the list', async () => {
  const { board, plan } = await libraries.use((library) => lessonParts(library, LESSONS[2]));
  const extras = [{ kind: 'comment', after: 1, bytes: EXTRAS.comment(plan.pieces[1], 8) }];
  const why = 'A comment and a data block both have the number 7, so the proof does not speak of this list.';
  const page = 'Page of block 7, for 0x10000700: there stands 0xFF, erased.';
  const [proved, wrong] = await played(board, { ...plan, extras }, 'clearsOneMap');
  assert.deepEqual(said(proved), ['GREEN, AND A PAGE IS MISSING', why, remedy('block 7 differs'), page]);
  assert.deepEqual(said(wrong), ['GREEN, AND A PAGE IS MISSING', why, page]);
  // also where the data block is never sent
  assert.deepEqual(await provedWords(board, { ...plan, extras, times: new Map([[7, 0]]) }), ['GREEN, AND A PAGE IS MISSING', why, remedy('block 7 differs'), page]);
});

await check('two blocks with one address: told once, over the receivers of a file and in the verdict of a list', async () => {
  const pieces = (await sample(41)).map((piece, k) => (k === 40 ? changed(piece, { address: 0x10000300 }) : piece));
  const page = 'Page of block 3, for 0x10000300: there stands the page of block 40.';
  assert.equal(await faultOf(newBoard(), pieces), 'This file is not valid for this board: the proof does not speak of it. Piece 40 and piece 3 hold the same address.');
  assert.deepEqual(await provedWords(newBoard(), newPlan(pieces)), ['GREEN, AND A PAGE IS MISSING', FILE_AT_FAULT, remedy('block 3 differs'), page]);
  assert.deepEqual(await provedWords(newBoard(), listOf(pieces)), [
    'GREEN, AND A PAGE IS MISSING',
    'Block 3 and block 40 name the same address, 0x10000300, so the proof does not speak of this list.',
    remedy('block 3 differs'),
    page,
  ]);
  // a wrong receiver keeps its alarm, and the file is told for it too
  assert.deepEqual(said((await played(newBoard(), newPlan(pieces), 'countsArrivals'))[1]), ['GREEN, AND A PAGE IS MISSING', page]);
});

await check('lesson 9, two blocks with one address: the file is at fault, and the green display is not called right', async () => {
  const { board, plan } = await libraries.use((library) => lessonParts(library, LESSONS.find(({ id }) => id === 'oneAddress')));
  const [fault, verdict, lamp] = await playedSession(board, plan, null, (session) => {
    const found = verdictOf(session, session.proved);
    return [faultWords(session.checked), found, lampOf(session.proved, found)];
  });
  assert.equal(fault, 'This file is not valid for this board: the proof does not speak of it. Piece 5 and piece 2 hold the same address.');
  assert.deepEqual(said(verdict), ['GREEN, AND A PAGE IS MISSING', FILE_AT_FAULT, remedy('block 2 differs'), 'Page of block 2, for 0x10000200: there stands the page of block 5.']);
  assert.deepEqual([lamp.state, lamp.wrongly], ['done', true]);
});

await check('lesson 10, another build of the same size: Completed over a mixture, and uf2_stands tells which blocks differ', async () => {
  const { board, plan } = await libraries.use((library) => lessonParts(library, LESSONS.find(({ id }) => id === 'otherBuild')));
  const [fault, answers, verdict, lamp] = await playedSession(board, plan, null, (session) => {
    const found = verdictOf(session, session.proved);
    return [faultWords(session.checked), [...session.proved.answers], found, lampOf(session.proved, found)];
  });
  const pages = upTo(3).map((k) => `Page of block ${k}, for 0x10000${k}00: there stands the page of another block ${k}.`);
  const why = 'Two different blocks have the number 0, so the proof does not speak of this list.';
  assert.deepEqual([fault, answers], ['', [14, 14, 14, 13, 13, 13, 14, 14, 15]]);
  assert.deepEqual(said(verdict), ['GREEN, AND 3 PAGES ARE MISSING', why, remedy('blocks 0, 1, 2 differ'), ...pages]);
  assert.deepEqual([lamp.state, lamp.wrongly], ['done', true]);
  // saved and opened, the first of two blocks is the first build's, which stands: the other build's are missed all the same
  const arrivals = arrivalList(plan).map(({ bytes }) => bytes);
  assert.deepEqual(await provedWords(board, listOf(arrivals)), said(verdict));
  assert.deepEqual(await provedWords(board, newPlan(arrivals)), ['GREEN, AND 3 PAGES ARE MISSING', FILE_AT_FAULT, remedy('blocks 0, 1, 2 differ'), ...pages]);
  // a block of the first build that comes after the other is complete: green is right until then
  const late = { ...plan, extras: [{ ...plan.extras[0], after: 6 }] };
  assert.equal((await provedWords(board, late))[0], 'GREEN, AND A PAGE IS MISSING');
  const session = await Session.open(libraries, board, late, null);
  await session.moveTo(6);
  assert.equal(verdictOf(session, session.proved).kind, 'completed');
  session.close();
  // sent whole, the other build alone stands
  assert.deepEqual(await provedWords(board, { ...plan, extras: [] }), ['Completed: every page of the file stands at its address.']);
});

await check('a file of two families', async () => {
  const earlier = eight.slice(0, 2).map((piece, k) => changed(piece, { family: FAMILY.data, total: 6, address: 0x10004000 + 256 * k }));
  assert.deepEqual(await provedWords(newBoard(), newPlan([...earlier, ...eight])), [
    'GREEN, AND BYTES OUTSIDE OF THE FILE HAVE CHANGED',
    'Arrival 1 is of another file, data and 6 blocks, and what that file stored stays, so the proof does not speak of this list.',
  ]);
});

await check('what else makes a list none that the proof speaks of', async () => {
  const board = newBoard({ main: true });
  const ram = (k) => changed(eight[k], { total: 3, address: 0x20000000 + 256 * k });
  const flawOf = async (pieces) => (await provedWords(board, listOf(pieces))).find((words) => words.endsWith(', so the proof does not speak of this list.'));
  const three = upTo(3).map((k) => changed(eight[k], { total: 3 }));
  const region = (piece, start, length) => {
    const copy = changed(piece, { flags: 0x6000 });
    put32(copy, 484, start);
    put32(copy, 488, length);
    return copy;
  };
  const ends = {
    'Two different blocks have the number 1': [...three, changed(eight[5], { total: 3, number: 1 })],
    'Block 0 is for flash and block 2 for main RAM': [three[0], three[1], ram(2)],
    'The file is for RAM, and its block 2 is a comment': [ram(0), ram(1), changed(ram(2), { flags: 0x2001 })],
    'The pages of block 0 and block 1 overlap': [ram(0), changed(ram(1), { address: 0x20000001 }), ram(2)],
    'Arrival 4 has 100 bytes and not 512': [...three, three[0].subarray(0, 100)],
    'Block 1 lies in the region of block 0 and does not name the same region': [region(three[0], 0x10000000, 4096), three[1], three[2]],
    'A sector of the region that block 0 names has no block of the file': three.map((piece) => region(piece, 0x10000000, 8192)),
    "The digest in block 0 is not that of the file's pages in its region": three.map((piece) => region(piece, 0x10000000, 4096)),
  };
  for (const [words, pieces] of Object.entries(ends)) assert.equal(await flawOf(pieces), `${words}, so the proof does not speak of this list.`);
  assert.equal(await flawOf([...three, three[1], EXTRAS.otherBoard(three[0]), EXTRAS.wraps(three[2]), EXTRAS.noBlock(three[0])]), undefined);
  assert.equal(await flawOf([ram(0), ram(1), ram(2), ram(0)]), undefined);
});

// A list of chance of a small file: repeats, comments, regions, other totals, families and addresses.
function listOfChance(below) {
  const total = 1 + below(4);
  const list = [];
  for (let k = 1 + below(10); k > 0; k--) {
    const number = below(total + (below(10) === 0 ? 1 : 0));
    const address = (below(8) === 0 ? 0x20000000 + below(3) : 0x10000000) + 256 * (below(10) === 0 ? below(total) : number) + (below(6) === 0 ? 4096 : 0);
    const flags = below(10) === 0 ? 0x2001 : below(5) === 0 ? 0x6000 : 0x2000;
    const family = below(10) === 0 ? FAMILY.data : FAMILY['arm-s'];
    const block = changed(eight[below(6) === 0 ? below(8) : number], { number, total: below(10) === 0 ? total + 1 : total, address, flags, family });
    if (flags & 0x4000) block.set(stored('receive/kept.uf2').subarray(484, 508), 484);
    list.push(below(40) === 0 ? block.subarray(0, 100) : block);
    while (below(3) === 0) list.push(list[below(list.length)]);
  }
  return list;
}

await check('of 2,100 lists of chance the proved column is never called wrong, and no wrong one right that ends otherwise', async () => {
  const below = chance(39);
  const met = {};
  const isFlaw = (words) => words.endsWith(', so the proof does not speak of this list.');
  for (let k = 0; k < 2100; k++) {
    const entries = below(2) ? [] : [newEntry({ first: below(2), sectors: 2 + below(3), armS: true, data: below(2) === 1 })];
    const board = newBoard({ main: below(3) === 0, lent: ['erased', 'old'][below(2)], entries });
    const [{ kind, lines }, wrong] = await played(board, listOf(listOfChance(below)), WRONG[k % WRONG.length].id);
    met[kind] = (met[kind] ?? 0) + 1;
    assert.ok(!['falselyDone', 'misplaced'].includes(kind), `list ${k}: ${lines}`);
    if (kind === 'unspoken') assert.ok(lines.some(isFlaw), `list ${k}`);
    if (wrong.kind === 'completed' && !wrong.lines.some(isFlaw)) assert.equal(kind, 'completed', `list ${k}: ${WRONG[k % WRONG.length].id}`);
    met[`wrong ${wrong.kind}`] = (met[`wrong ${wrong.kind}`] ?? 0) + 1;
  }
  for (const kind of ['completed', 'missing', 'unspoken', 'nothing', 'noPlace', 'wrong falselyDone', 'wrong completed']) assert.ok(met[kind] > 3, `${kind}: ${JSON.stringify(met)}`);
});

// ---- Files that are not valid

await check('what the proved check says of a file, in words', async () => {
  const board = newBoard({ main: true });
  const three = upTo(3).map((k) => changed(eight[k], { total: 3 }));
  const unspoken = 'This file is not valid for this board: the proof does not speak of it.';
  const notValid = 'This file is not valid for this board.';
  const riscv = changed(three[1], { family: FAMILY.riscv });
  const guarded = three.map((piece) => changed(piece, { flags: 0x6000 }));
  for (const piece of guarded) {
    put32(piece, 484, 0x10000000);
    put32(piece, 488, 4096);
  }
  const files = [
    ['', three],
    [`${unspoken} The file's length is no multiple of 512.`, [...three, three[0].subarray(0, 100)]],
    [`${notValid} Piece 3's family is not the first piece's.`, [...three, changed(three[0], { family: FAMILY.data })]],
    [`${notValid} Piece 3's total is not the first piece's.`, [...three, changed(three[0], { total: 4 })]],
    [`${unspoken} Piece 2's memory is not the first piece's.`, [three[0], three[1], changed(three[2], { address: 0x20000000 })]],
    [`${unspoken} Piece 3 and piece 1 have the same number.`, [...three, changed(three[1], { address: 0x10000800 })]],
    [`${notValid} Piece 3 is piece 1 once more.`, [...three, three[1]]],
    [`${unspoken} Piece 2 and piece 0 hold the same address.`, [three[0], three[1], changed(three[2], { address: 0x10000000 })]],
    // a repeat and a foreign piece before it are not why the proof is silent
    [`${unspoken} Piece 4 and piece 0 hold the same address.`, [three[0], three[0], riscv, three[1], changed(three[2], { address: 0x10000000 })]],
    [`${notValid} There are fewer pieces than the total: block 1 is missing.`, [three[0], three[2]]],
    ['The file is valid, and names regions (flag 0x4000). The check does not say whether their digests are right.', guarded],
    [`${notValid} The board refuses piece 1: 8 NoPlace. ${await reasonOf(riscv)}`, [three[0], riscv, three[2]]],
    [`${notValid} The board refuses piece 0: 7 NoFamily. ${await reasonOf(changed(three[0], { flags: 0 }))}`, [changed(three[0], { flags: 0 })]],
  ];
  for (const [words, pieces] of files) assert.equal(await faultOf(board, pieces), words);
  // bad settings are told beside the board
  assert.equal(await faultOf(newBoard({ entries: [newEntry({ first: 900 })] }), three), '');
});

await check('of 1,400 files of chance: a valid one ends complete, and of one of which the proof is silent the page finds why as well', async () => {
  const below = chance(86);
  const met = {};
  for (let k = 0; k < 1400; k++) {
    const board = newBoard({ main: below(3) === 0, lent: ['erased', 'old'][below(2)] });
    const pieces = listOfChance(below);
    const wrongId = WRONG[k % WRONG.length].id;
    const [checked, kinds] = await playedSession(board, newPlan(pieces), wrongId, (session) => [session.checked, session.runs.map((run) => verdictOf(session, run).kind)]);
    const [flaws, asList] = await playedSession(board, listOf(pieces), wrongId, (session) => [
      session.files.some((file) => file.read(session.proved.receiver).flaw) || pieces.some(({ length }) => length !== 512),
      session.runs.map((run) => verdictOf(session, run).kind),
    ]);
    assert.deepEqual(kinds, asList, `file ${k}`);
    assert.ok(!['falselyDone', 'misplaced'].includes(kinds[0]), `file ${k}`);
    if (checked.answer === N.UF2_CHECK_VALID) assert.deepEqual([kinds[0], flaws], ['completed', false], `file ${k}`);
    if (checked.unspoken) assert.ok(flaws, `file ${k}: ${faultWords(checked)}`);
    const first = await libraries.use((library) => askCheck(library, board, pieces));
    assert.equal(first.answer === N.UF2_CHECK_VALID, checked.answer === N.UF2_CHECK_VALID, `file ${k}`);
    met[checked.answer] = (met[checked.answer] ?? 0) + 1;
  }
  for (const answer of [0, 80, 82, 83, 84, 85, 86, 87]) assert.ok(met[answer] > 3, JSON.stringify(met));
});

// ---- Files that the board refuses

await check('a file that is refused: the verdict has the reason that the library names', async () => {
  const nothing = 'Not completed: no block of the file was accepted.';
  const ram = eight.map((piece, k) => changed(piece, { address: 0x20000000 + 256 * k }));
  assert.deepEqual(await provedWords(newBoard(), newPlan(ram)), [nothing, `Arrival 1: 11 BadAddress. ${await reasonOf(ram[0])}`]);
  const nameless = eight.map((piece) => changed(piece, { flags: 0, family: 0 }));
  assert.deepEqual(await provedWords(newBoard(), newPlan(nameless)), [nothing, `Arrival 1: 7 NoFamily. ${await reasonOf(nameless[0])}`]);
  const riscv = eight.map((piece) => changed(piece, { family: FAMILY.riscv }));
  assert.deepEqual(await provedWords(newBoard(), newPlan(riscv)), [
    'Not completed: this board has no place for the family riscv.',
    `Arrival 1: 8 NoPlace. ${await reasonOf(riscv[0])}`,
  ]);
  assert.deepEqual(await provedWords(newBoard(), newPlan([...riscv, ...ram, ...nameless])), [
    nothing,
    `Arrival 1: 8 NoPlace. ${await reasonOf(riscv[0])}`,
    `Arrival 9: 11 BadAddress. ${await reasonOf(ram[0])}`,
    `Arrival 17: 7 NoFamily. ${await reasonOf(nameless[0])}`,
  ]);
});

await check('a page that is refused, and a wrong receiver that takes it: the right answer and its reason, and no place is blamed', async () => {
  const far = changed(eight[0], { total: 1, address: 0xffffff00 });
  const [proved, wrong] = await played(newBoard(), newPlan([far]), 'addsIn32Bits');
  const why = await reasonOf(far);
  assert.deepEqual(said(proved), ['Not completed: no block of the file was accepted.', `Arrival 1: 11 BadAddress. ${why}`]);
  assert.deepEqual(said(wrong), ['GREEN, AND THE FILE IS NOT WHERE IT BELONGS', `The right answer to block 0 is 11 BadAddress. ${why} The pages went somewhere else.`]);
  const three = upTo(3).map((k) => changed(eight[k], { total: 3, address: k === 2 ? 0x10000280 : 0x10000000 + 256 * k }));
  assert.deepEqual(await provedWords(newBoard(), newPlan(three)), [
    'Not completed: 1 of 3 pages is missing.',
    `Page of block 2, for 0x10000280: the right answer to it is 11 BadAddress. ${await reasonOf(three[2])}`,
  ]);
});

// Marking on the page: the cases read, the receiver with a switch for each mistake, its diagnosis, and smallest lists. The worker is tested in the browser; here the
// receiver with switches is played in its place.
import assert from 'node:assert/strict';
import { chance, check, libraryModule, load, storedText } from './common.mjs';

const { Libraries } = await load('wasm.js');
const { FAMILY, newBoard } = await load('board.js');
const { arrivalBytes, arrivalWord, arrivalsFrom, casesFrom, sendFrom } = await load('cases.js');
const { randomLists } = await load('chance.js');
const { MISTAKES, Mistaken } = await load('mistakes.js');
const { bytesOf, isGoodBoard, judged, marksOf, rightOf } = await load('judge.js');
const { diagnosed } = await load('diagnose.js');
const { shrunk } = await load('shrink.js');
const { ProvedReceiver } = await load('proved.js');
const { same } = await load('bytes.js');
const { changed, readBlock } = await load('block.js');

const libraries = new Libraries(await libraryModule());
const tools = await libraries.take();
const message = tools.lend(1048576);
const digest = tools.lend(16);
const md5 = (bytes) => {
  message.bytes.set(bytes);
  tools.call('uf2_md5', message.first(bytes.length), digest);
  return digest.bytes.slice();
};
const helpers = { goodSettings: true, md5 };
const library = await libraries.take();
const cases = casesFrom(storedText('teaching/cases.txt'));
const plain = cases.filter(({ table }) => !table);
const lists = [...plain, ...randomLists(200, 1).map((list) => ({ ...list, board: newBoard() }))];
const rights = new Map(lists.map((list) => [list, rightOf(library, list)]));

const isSame = (a, b) => Buffer.compare(a, b) === 0;

// A list played by a receiver with switches, as the worker would tell it.
function playedBy(list, on, answer) {
  const student = new Mistaken(list.board, helpers, on, answer);
  const before = { flash: student.bytes('flash').slice(), seen: student.bytes('seen').slice(), sectors: student.bytes('sectors').slice() };
  const steps = bytesOf(list).map((bytes) => {
    const { answer: given, discarded } = student.take(bytes);
    const flash = student.bytes('flash');
    const pages = [];
    for (let page = 0; !isSame(flash, before.flash) && page < flash.length / 256; page++) {
      const now = flash.subarray(page * 256, page * 256 + 256);
      if (!same(now, before.flash.subarray(page * 256, page * 256 + 256))) pages.push([page, now.slice()]);
    }
    before.flash.set(flash);
    const maps = !isSame(student.bytes('seen'), before.seen) || !isSame(student.bytes('sectors'), before.sectors);
    before.seen.set(student.bytes('seen'));
    before.sectors.set(student.bytes('sectors'));
    return { answer: given, discarded, ...student.said, pages, maps };
  });
  return { steps, failed: null };
}

const resultsOf = (on, answer) => lists.map((list) => judged(list, rights.get(list), playedBy(list, on, answer)));
const seenOf = (results) => lists.map((list, k) => ({ list, right: rights.get(list), key: results[k].deviation?.key ?? null }));

await check('the cases are read, and an arrival in words is read back', () => {
  assert.ok(plain.length >= 95, `${plain.length} cases`);
  assert.ok(cases.some(({ table }) => table));
  assert.deepEqual(new Set(cases.map(({ point }) => point)), new Set([1, 2, 3]));
  for (const { arrivals } of [...cases, ...randomLists(50, 3)]) {
    for (const arrival of arrivals) assert.deepEqual(arrivalBytes(arrivalsFrom(arrivalWord(arrival))[0]), arrivalBytes(arrival), arrivalWord(arrival));
  }
  assert.deepEqual(sendFrom('0-2/8 2-1/8,fam=riscv').map(({ number, fam }) => [number, fam]), [[0, undefined], [1, undefined], [2, undefined], [2, FAMILY.riscv], [1, FAMILY.riscv]]);
  for (const bad of ['', '0', '0/', 'a/3', '0/3,at=', '0/3,at=xyz', '0/3,what=3', '0/3,fam=nobody']) assert.throws(() => arrivalsFrom(bad), Error);
});

await check('every named case is one of a board that the library takes, and reaches each answer that a page can ask', () => {
  const met = new Set();
  for (const list of cases) {
    const right = rightOf(library, list);
    if (isGoodBoard(right)) for (const { answer } of right.steps) met.add(answer);
  }
  assert.deepEqual([...met].filter((answer) => [2, 3, 16, 17].includes(answer)), []);
  assert.deepEqual([...met].sort((a, b) => a - b), [1, 4, 5, 7, 8, 9, 10, 11, 12, 13, 14, 15]);
});

await check('the receiver with switches, and none on, answers and stores as the proved one on 40,000 random arrivals', () => {
  const below = chance(21);
  const words = ['0/3', '1/3', '2/3', '0/4', '3/4', '0/3,fam=data', '1/3,fam=riscv', '0/3,at=0x11FFFF00', '1/3,at=0xFFFFFF00', '2/3,at=0x10000001', '0/3,size=255', '1/3,flags=0x3000', '1/3,flags=0', '1/3,flags=0x2001', '2/3,m3=1', '3/3', '0/0', '0/129', '1/128', '0/3,cut=100', '0/16777216', '0/3,fam=absolute', '1/3,fam=rp2040'];
  const blocks = words.map((word) => arrivalBytes(arrivalsFrom(word)[0]));
  for (let list = 0; list < 2000; list++) {
    library.clear();
    const board = newBoard({ lent: ['erased', 'old'][below(2)] });
    const proved = new ProvedReceiver(library, board);
    const student = new Mistaken(board, helpers);
    for (let k = 0; k < 20; k++) {
      const piece = blocks[below(3) === 0 ? below(blocks.length) : below(5)];
      const [a, b] = [proved.take(piece), student.take(piece)];
      const { state, total, count } = proved.transfer;
      assert.deepEqual([b.answer, b.discarded, student.said], [a.answer, a.discarded, { state, total, count }], JSON.stringify(readBlock(changed(piece, {}))));
    }
    for (const name of ['flash', 'seen', 'sectors']) assert.ok(same(proved.bytes(name), student.bytes(name)), name);
  }
});

await check('without a mistake all three points are held, and random lists are of the sort that 01 answers alike', () => {
  const results = resultsOf([]);
  assert.deepEqual(marksOf(lists, results).map(({ mark }) => mark), ['held', 'held', 'held']);
  for (const list of lists.slice(plain.length)) {
    for (const [k, { answer }] of rights.get(list).steps.entries()) {
      assert.ok(![16, 17].includes(answer));
      if (answer !== 11) continue;
      const inside = { ...list, arrivals: list.arrivals.map((arrival, j) => (j === k ? { ...arrival, at: 0x10000000 } : arrival)) };
      assert.notEqual(rightOf(library, inside).steps[k].answer, 10, arrivalWord(list.arrivals[k]));
    }
  }
});

// Mistakes that show only where a request of document 02 or a partition table is asked.
const ELSEWHERE = ['takes-b-of', 'comment-refused', 'comment-stored', 'numbers-first', 'rewrites-kept'];

await check('each mistake fails a point and gets its own name', async () => {
  const unlike = [];
  for (const { id } of MISTAKES.filter((mistake) => !ELSEWHERE.includes(mistake.id))) {
    const results = resultsOf([id], 8);
    const marks = marksOf(lists, results);
    assert.ok(marks.some(({ mark }) => mark === 'notHeld'), `${id} holds all points`);
    const { explained } = await diagnosed(seenOf(results), helpers, () => {});
    assert.ok(explained.some((on) => on.join() === id), `${id}: ${JSON.stringify(explained)}`);
    if (explained.length > 1) unlike.push(explained.map((on) => on.join()).join(' = '));
  }
  // these cannot be told apart on document 01's board
  assert.deepEqual([...new Set(unlike)], ['never-erases = sectors-not-cleared']);
});

await check('two mistakes at once get both names, and one that is not known gets none', async () => {
  const pair = ['counts-arrivals', 'erases-each-page'];
  const { explained } = await diagnosed(seenOf(resultsOf(pair)), helpers, () => {});
  assert.ok(explained.some((on) => [...on].sort().join() === pair.join()), JSON.stringify(explained));
  // block 3 is always answered 13
  const odd = lists.map((list) => {
    const result = playedBy(list, []);
    const steps = result.steps.map((step, k) => (list.arrivals[k].number === 3 && step.answer >= 14 ? { ...step, answer: 13 } : step));
    return judged(list, rights.get(list), { steps, failed: null });
  });
  const told = await diagnosed(seenOf(odd), helpers, () => {});
  assert.deepEqual(told.explained, []);
});

await check('the smallest list of lost-page for a receiver that counts arrivals has two arrivals, and fewer do not fail so', async () => {
  const lost = lists.find(({ name }) => name === 'lost-page');
  const fails = (arrivals) => {
    const list = { ...lost, arrivals };
    const { faults } = judged(list, rightOf(library, list), playedBy(list, ['counts-arrivals']));
    return faults.some(({ point, kind }) => point === 3 && kind === 'falselyComplete');
  };
  const whole = { ...lost };
  assert.ok(judged(whole, rightOf(library, whole), playedBy(whole, ['counts-arrivals'])).faults.length > 0);
  const small = await shrunk(sendFrom('0-1/2 1/2 0/2'), (arrivals) => fails(arrivals));
  assert.equal(small.length, 2, small.map(arrivalWord).join(' '));
  for (const k of small.keys()) assert.ok(!fails(small.filter((_, j) => j !== k)));
});

await check('a list that does not end fails point 1 and its own, and a point whose lists were not all played is not held', () => {
  const [list] = lists;
  const { faults } = judged(list, rights.get(list), { steps: [], failed: { kind: 'end', at: 0 } });
  assert.deepEqual(faults.map(({ point, kind }) => [point, kind]), [[1, 'end'], [list.point, 'end']]);
  const results = resultsOf([]).map((result, k) => (k === 0 ? null : result));
  assert.deepEqual(marksOf(lists, results).map(({ mark }) => mark), ['notMarked', 'held', 'notMarked']);
});

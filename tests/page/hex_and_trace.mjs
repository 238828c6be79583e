// Lines of hex and traces: the library in WebAssembly beside the stored outputs, the reader of the wrong section, and orders of arrivals.
import assert from 'node:assert/strict';
import { existsSync, readdirSync } from 'node:fs';
import { check, libraryModule, load, stored, storedText } from './common.mjs';

const { Libraries } = await load('wasm.js');
const { HexFile, lineStarts } = await load('hexlines.js');
const { joinHex, plainHex } = await load('maker.js');
const { replay, readRecord, recordBytes, recordsOf, looksLikeTrace } = await load('trace.js');
const { CountsArrivals } = await load('wrong/counts_arrivals.js');
const { LESSONS, lessonParts } = await load('lessons.js');
const { arrivalList, newPlan, shuffled } = await load('arrivals.js');
const { ProvedReceiver } = await load('proved.js');
const { layoutOf, cellAt, pageAt } = await load('views/grid.js');
const { windowOf } = await load('views/table.js');
const { stride } = await load('run.js');
const { familyFrom } = await load('words.js');
const { newBoard } = await load('board.js');
const { N } = await load('numbers.js');

const libraries = new Libraries(await libraryModule());
const library = await libraries.take();

await check('the answers of tests/hexlines', async () => {
  const names = readdirSync(new URL('../hexlines/', import.meta.url)).filter((name) => name.endsWith('.hex'));
  assert.ok(names.length > 20);
  for (const file of names) {
    const name = file.replace('.hex', '');
    const argumentsFile = new URL(`../hexlines/${name}.args`, import.meta.url);
    const said = existsSync(argumentsFile) ? storedText(`tests/hexlines/${name}.args`).trim() : 'V1';
    // the program refuses a board that is neither
    if (!['V1', 'V2'].includes(said)) continue;
    const board = said.toLowerCase();
    library.clear();
    const hex = HexFile.open(library, stored(`hexlines/${file}`), 262144, 'v1');
    hex.readOn(() => false);
    const lines = Array.from({ length: hex.count }, (_, k) => {
      const position = hex.positions[board][k];
      return `${k} ${hex.answers[board][k]}${position ? ` position ${position}` : ''}`;
    });
    const expected = storedText(`tests/hexlines/${name}.out`).trimEnd().split('\n');
    assert.deepEqual(['line answer', ...lines], expected.slice(0, -1), name);
  }
});

await check('the reader of the wrong section stores what the other board should', async () => {
  const [v1, v2] = ['one', 'two'].map((words) => new TextEncoder().encode(words.repeat(20)));
  const { answer, file } = await libraries.use((one) => joinHex(one, plainHex(v1, 0), plainHex(v2, 256)));
  assert.equal(answer, 0);
  for (const own of ['v1', 'v2']) {
    library.clear();
    const hex = HexFile.open(library, file, 4096, own);
    hex.readOn(() => false);
    assert.equal(hex.answers.v1.at(-1), N.UHEX_ANSWER_ENDED);
    const other = own === 'v1' ? 'v2' : 'v1';
    assert.deepEqual(hex.readers.wrong.imageBytes, hex.readers[other].imageBytes.slice());
    assert.notDeepEqual(hex.readers.wrong.imageBytes, hex.readers[own].imageBytes.slice());
    assert.equal(hex.stored[own].at(-1), 60);
    const sections = new Set(hex.sections);
    assert.deepEqual([...sections].sort(), [0, N.UHEX_BOARD_V1, N.UHEX_BOARD_V2]);
  }
});

await check('lines end with their LF or with the file', () => {
  const bytes = new TextEncoder().encode(':a\n\n:b\r\n:c');
  assert.deepEqual(lineStarts(bytes), [0, 3, 4, 8]);
});

await check('the trace of a site that counts arrivals differs at the repeat', async () => {
  const { board, plan } = await libraries.use((one) => lessonParts(one, LESSONS[0]));
  const site = new CountsArrivals(board, { goodSettings: true });
  const records = arrivalList(plan).map(({ bytes }) => {
    const { answer, discarded } = site.take(bytes);
    return recordBytes(answer, discarded, bytes);
  });
  const trace = Uint8Array.from(records.flatMap((record) => [...record]));
  assert.ok(looksLikeTrace(trace));
  const result = await libraries.use((one) => replay(one, board, trace));
  assert.deepEqual([result.stop, result.at, result.ours.answer, result.marked], [N.UF2_STOP_DIFFERS, 3, 13, 3]);
  assert.equal(readRecord(recordsOf(trace)[3]).answer, 14);
  const short = await libraries.use((one) => replay(one, board, trace.subarray(0, 513 + 100)));
  assert.deepEqual([short.stop, short.at], [N.UF2_STOP_BAD, 1]);
  // a site with the proved receiver
  const receiver = new ProvedReceiver(await libraries.take(), board);
  const right = arrivalList(plan).flatMap(({ bytes }) => {
    const { answer, discarded } = receiver.take(bytes);
    return [...recordBytes(answer, discarded, bytes)];
  });
  const none = await libraries.use((one) => replay(one, board, Uint8Array.from(right)));
  assert.deepEqual([none.stop, none.marked, none.transfer.state], [N.UF2_STOP_NONE, 7, 'running']);
});

await check('a trace that lost a block is replayed to its end, and the replay names the block', async () => {
  const { board, plan } = lessonParts(library, LESSONS[2]);
  const sent = [0, 1, 2, 3, 4, 6, 7, 7].map((k) => plan.pieces[k]);
  const trace = Uint8Array.from(sent.flatMap((piece, k) => [...recordBytes(k === 7 ? 13 : 14, false, piece)]));
  const { stop, transfer, missing } = replay(library, board, trace);
  assert.deepEqual([stop, transfer.state, missing], [N.UF2_STOP_NONE, 'running', [5]]);
});

// The tool is held to the same in rust/cli/tests/process/replay.rs.
await check('a trace of a small flash differs on a larger board where the tool says, and stops nowhere on its own', async () => {
  const trace = stored('page/small_flash.trace');
  const on = (flash) => replay(library, newBoard({ flash }), trace);
  assert.equal(on(4096).stop, N.UF2_STOP_NONE);
  const { stop, at, ours } = on(8192);
  assert.deepEqual([stop, at, readRecord(recordsOf(trace)[at]).answer, ours.answer], [N.UF2_STOP_DIFFERS, 1, 11, 15]);
});

await check('orders of arrivals', () => {
  const pieces = [0, 1, 2, 3].map((k) => Uint8Array.of(k));
  const order = (plan) => arrivalList(plan).map(({ bytes }) => bytes[0]);
  assert.deepEqual(order(newPlan(pieces)), [0, 1, 2, 3]);
  assert.deepEqual(order(newPlan(pieces, { order: 'reversed' })), [3, 2, 1, 0]);
  assert.deepEqual(order(newPlan(pieces, { times: new Map([[1, 0], [2, 2]]) })), [0, 2, 2, 3]);
  const extras = [{ after: 0, bytes: Uint8Array.of(8) }, { after: 2, bytes: Uint8Array.of(9) }, { after: 99, bytes: Uint8Array.of(7) }];
  assert.deepEqual(order(newPlan(pieces, { extras })), [8, 0, 1, 9, 2, 3, 7]);
  assert.deepEqual(order(newPlan(pieces, { extras, order: 'list', list: [{ piece: 3 }, { extra: 1 }] })), [3, 9]);
  const mixed = shuffled([...Array(50).keys()], 5);
  assert.deepEqual(mixed.slice().sort((a, b) => a - b), [...Array(50).keys()]);
  assert.deepEqual(mixed, shuffled([...Array(50).keys()], 5));
  assert.notDeepEqual(mixed, shuffled([...Array(50).keys()], 6));
});

await check('every page has a cell of its own in a grid of any size', () => {
  for (const [pages, width] of [[16, 300], [128, 640], [128, 200], [2080, 500], [8192, 700], [131072, 640], [131072, 320]]) {
    const layout = layoutOf(pages, width);
    const known = new Set();
    for (let page = 0; page < pages; page += pages > 10000 ? 97 : 1) {
      const { x, y } = cellAt(layout, page);
      assert.equal(pageAt(layout, x, y, pages), page);
      assert.ok(x + layout.cell <= layout.width && y + layout.cell <= layout.height);
      known.add(`${x} ${y}`);
    }
  }
});

await check('windows of long tables, and snapshots that fit', () => {
  assert.deepEqual(windowOf(10, 3), { from: 0, to: 10 });
  assert.deepEqual(windowOf(1000, 0), { from: 0, to: 120 });
  assert.deepEqual(windowOf(1000, 999), { from: 880, to: 1000 });
  assert.ok((131072 / stride(131072, 34e6)) * 34e6 < 110e6);
});

await check('families by name and by number', () => {
  assert.equal(familyFrom(' ARM-S '), N.UF2_FAMILY_ARM_S);
  assert.equal(familyFrom('0x1234'), 0x1234);
  for (const words of ['', 'x', '-1', '0x', '99999999999', '4294967296']) assert.equal(familyFrom(words), null, words);
});

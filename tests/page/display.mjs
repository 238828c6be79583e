// The sample firmware and the model of the display in service: what it shows at each time, for whatever stands in the flash.
import assert from 'node:assert/strict';
import { chance, check, libraryModule, load } from './common.mjs';

const { Libraries } = await load('wasm.js');
const { FAMILY, lentFlash, newBoard } = await load('board.js');
const { AT, firmwareImage, isSamplePage, pageNames, versionOf } = await load('firmware.js');
const { SCENE, endOf, faceAt, somebodyThere, stretches, switchedOn } = await load('display.js');
const { LESSONS, lessonParts, samplePieces } = await load('lessons.js');
const { newPlan } = await load('arrivals.js');
const { EXTRAS } = await load('maker.js');
const { Session } = await load('session.js');
const { verdictOf } = await load('verdict.js');
const { WRONG } = await load('wrong/all.js');
const { changed } = await load('block.js');
const { get32, put32 } = await load('bytes.js');

globalThis.requestAnimationFrame = (act) => setTimeout(act, 0);
const libraries = new Libraries(await libraryModule());
const DONE = { state: 'done', count: 8, total: 8 };
const on = (flash, base = 0) => switchedOn(DONE, flash, base);

function flashWith(pages, timeout) {
  const flash = new Uint8Array(32768).fill(0xff);
  const image = firmwareImage(pages, 'new firmware', 2);
  flash.set(image);
  if (timeout !== undefined) put32(flash, pageNames(pages).indexOf('timeout') * 256 + AT.number, timeout);
  return flash;
}

await check('the pages of the sample have names, and page 0 says where the timeout stands', async () => {
  assert.deepEqual(pageNames(3), []);
  assert.deepEqual(pageNames(4), ['start', 'socket', 'reading', 'timeout']);
  assert.deepEqual(pageNames(9).slice(5), ['timeout', 'beeper', 'words', 'more']);
  for (const pages of [4, 5, 6, 8, 40]) {
    const image = firmwareImage(pages, 'new firmware', 2);
    const at = pageNames(pages).indexOf('timeout') * 256;
    assert.deepEqual([get32(image, AT.timeoutAt), get32(image, at + AT.number)], [at, 3000], `${pages} pages`);
    const { pieces } = await libraries.use((library) => samplePieces(library, pages));
    assert.ok(pieces.every(isSamplePage));
    assert.equal(versionOf(pieces[0]), 2);
    assert.equal(new TextDecoder().decode(image.subarray(at, at + 32)), `new firmware, page ${at / 256}: the timeout`.padEnd(32, '. ').slice(0, 32));
  }
});

await check('the face at every 100 ms is by the rule, for timeouts of 0, 1, 3000 and 4,294,967,295 ms', () => {
  for (const timeout of [0, 1, 3000, 2 ** 32 - 1]) {
    const display = on(flashWith(8, timeout));
    assert.deepEqual([display.mode, display.timeout, display.timeoutAt], ['on', timeout, 1520]);
    for (let time = 0; time <= SCENE.length; time += 100) {
      const word = Math.min(5000, Math.floor(time / 1000) * 1000);
      assert.equal(faceAt(display, time).face, time - word > timeout ? 'stale' : 'green', `${timeout} at ${time}`);
    }
    assert.equal(endOf(display), timeout > 7000 ? 'trusted' : 'stale');
  }
  assert.deepEqual([somebodyThere(5000), somebodyThere(5100)], [true, false]);
  assert.deepEqual(stretches(on(flashWith(8))).map(({ from, face }) => [from, face]), [[0, 'green'], [8100, 'stale']]);
  assert.equal(faceAt(on(flashWith(8)), 0).reading, 42);
});

await check('a running transfer, an erased first page, and a board without room: update mode, dark, and never', () => {
  const flash = flashWith(8);
  assert.deepEqual(switchedOn({ state: 'running', count: 7, total: 8 }, flash, 0), { mode: 'update', count: 7, total: 8 });
  assert.equal(switchedOn({ state: 'running', count: 7, total: 8 }, flash, 0, true).mode, 'on');
  assert.equal(on(flash.slice().fill(0xff, 0, 256)).mode, 'dark');
  assert.equal(on(flash.subarray(0, 1024)).timeout, 2 ** 32 - 1);
  assert.equal(on(new Uint8Array(0)).mode, 'dark');
});

await check('a flash of any bytes has one of the four faces at every time', () => {
  const below = chance(5);
  const met = new Set();
  for (let k = 0; k < 3000; k++) {
    const flash = below(2) ? flashWith([4, 8][below(2)]) : new Uint8Array(4096).map(() => below(256));
    for (let j = below(6); j > 0; j--) put32(flash, below(2) ? 240 + 4 * below(4) : 256 * below(8) + 240, [0, 1, 0xffffffff, 0x10000000, 3000][below(5)]);
    const display = switchedOn({ state: ['idle', 'running', 'done'][below(3)], count: 1, total: 2 }, flash, 256 * below(2), below(2) === 1);
    for (let time = 0; time <= SCENE.length; time += 700) met.add(faceAt(display, time).face);
  }
  assert.deepEqual([...met].sort(), ['dark', 'green', 'stale', 'update']);
});

// The displays of a session at its end, as the page switches them on.
function ends(session) {
  const file = session.files[0].read(session.proved.receiver);
  const place = session.proved.receiver.place(file.family);
  const base = place.answer === 0 ? place.start : 0;
  return session.runs.map(({ receiver }) => switchedOn(receiver.transfer, receiver.bytes('flash'), base));
}

async function endsOf(board, plan, wrongId, read = ends) {
  const session = await Session.open(libraries, board, plan, wrongId);
  await session.moveTo(session.arrivals.length);
  const found = read(session);
  session.close();
  return found;
}

await check('each lesson, switched on: the proved display and the wrong one', async () => {
  const expected = {
    lostPage: ['update 7 of 8', 'trusted 4294967295'],
    order: ['stale 3000', 'dark'],
    erase: ['stale 3000', 'dark'],
    foreign: ['stale 3000', 'update 2 of 6'],
    wrap: ['update 3 of 4', 'trusted 4294967295'],
    bEntry: ['stale 3000', 'stale 3000'],
    oneMap: ['stale 3000', 'update 2 of 4'],
    whole: ['stale 3000'],
    // a file of which the proof does not speak: the page of the timeout went to another's address
    oneAddress: ['trusted 4294967295'],
    otherBuild: ['stale 3000'],
  };
  const found = {};
  for (const lesson of LESSONS) {
    const { board, plan, wrongId } = await libraries.use((library) => lessonParts(library, lesson));
    const words = (display) => `${endOf(display)}${display.mode === 'on' ? ` ${display.timeout}` : display.mode === 'update' ? ` ${display.count} of ${display.total}` : ''}`;
    found[lesson.id] = (await endsOf(board, plan, wrongId)).map(words);
  }
  assert.deepEqual(found, expected);
});

await check('of 2,000 random lists of the sample the proved display is never green with nobody there, unless the proof does not speak of the list', async () => {
  const below = chance(11);
  const { pieces } = await libraries.use((library) => samplePieces(library, 8));
  const foreign = ['otherBoard', 'pastFlash', 'wraps', 'otherFile', 'noBlock'];
  const trusted = Object.fromEntries(WRONG.map(({ id }) => [id, 0]));
  let unspoken = 0;
  for (let k = 0; k < 2000; k++) {
    const list = Array.from({ length: 6 + below(14) }, () => (below(6) === 0 ? EXTRAS[foreign[below(foreign.length)]](pieces[below(8)], 8) : pieces[below(8)]));
    const wrongId = WRONG[k % WRONG.length].id;
    const [green, kind] = await endsOf(newBoard(), newPlan(list, { isFile: false }), wrongId, (session) => [ends(session).map(endOf), verdictOf(session, session.proved).kind]);
    if (green[0] === 'trusted') assert.equal(kind, 'unspoken', `list ${k}`);
    if (kind === 'unspoken') unspoken++;
    if (green[1] === 'trusted') trusted[wrongId]++;
  }
  assert.ok(trusted.countsArrivals > 20, JSON.stringify({ trusted, unspoken }));
});

await check('a file at another place starts there, and an old firmware in the flash is a firmware of its own', () => {
  const board = newBoard({ lent: 'old' });
  const old = switchedOn({ state: 'idle' }, lentFlash(board), 0);
  assert.deepEqual([old.mode, old.version, old.timeout], ['on', 1, 3000]);
  const flash = new Uint8Array(32768).fill(0xff);
  flash.set(firmwareImage(8, 'new firmware', 2), 8192);
  assert.deepEqual([on(flash, 8192).version, on(flash, 0).mode], [2, 'dark']);
});

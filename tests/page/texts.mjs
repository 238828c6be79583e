// Files of texts: what a translation may and may not change, plurals and blanks; and that the German file fits.
import assert from 'node:assert/strict';
import { check, load, storedText } from './common.mjs';

const { built, flat, overlay } = await load('texts.js');
const { ENGLISH, text, useTexts } = await load('text.js');

await check('every key of web/texts/de.json is one of the English texts, none is missing, and all blanks fit', () => {
  const { missing, unknown, unfit } = useTexts(JSON.parse(storedText('web/texts/de.json')));
  assert.deepEqual([missing, unknown, unfit], [[], [], []]);
  assert.equal(text.controls.position(1, 1000), 'Ankunft 1 von 1.000');
  assert.equal(text.verdict.notCompleted(1, 8), 'Nicht vollständig: 1 von 8 Seiten fehlt.');
  assert.match(text.reasons[1301]({ got: 2, against: 8, marks: [] }), /^Block 2 von 8 war schon da\.$/);
  useTexts();
  assert.equal(text.controls.position(1, 1000), 'Arrival 1 of 1,000');
});

await check('a text with a blank that is missing, misspelt or new stays English, also in the tables', () => {
  const own = { language: 'de', name: 'x', controls: { position: '{0}', play: 'Los {0}' }, tables: { cause: { 101: 'es hat {got bites}, nicht {against bytes}', 205: 'Partition {other} und {entry}' } }, verdict: { going: 'x', falselyDone: 'x', notCompleted: { one: 'eine', other: '{0} von {1}' } } };
  const { unfit, tree } = overlay(ENGLISH, own);
  assert.deepEqual(unfit.sort(), ['controls.play', 'controls.position', 'tables.cause.101', 'verdict.falselyDone', 'verdict.going']);
  assert.equal(tree.tables.cause[205], 'Partition {other} und {entry}');
  assert.equal(tree.controls.play, 'Play');
  assert.equal(built(ENGLISH, tree).verdict.notCompleted(1, 3), 'eine');
});

await check('what is no text at all is left out: numbers, lists, null', () => {
  const { unfit } = overlay(ENGLISH, { language: 'de', name: 'x', controls: { play: 3, step: null, end: ['x'] } });
  assert.ok(unfit.includes('controls.play') && unfit.includes('controls.step'), unfit.join());
  useTexts({ language: 'de', name: 'x', controls: { play: 3 }, page: null, units: { blocks: 'x' } });
  assert.equal(text.controls.play, 'Play');
  useTexts();
});

await check('no English sentence has more than 40 words', () => {
  for (const [key, words] of flat(ENGLISH)) {
    const forms = typeof words === 'string' ? [words] : Object.values(words);
    for (const form of forms) {
      for (const sentence of form.split(/(?<=[.?!:])\s/)) assert.ok(sentence.split(/\s+/).length <= 40, `${key}: ${sentence}`);
    }
  }
});

// A small model of the display in service. Not proved, and not the firm's display: three rules over the bytes that stand in the flash, whatever they are.
//
//   1. A transfer that runs keeps the display in update mode. Idle or done, it starts what stands in the flash.
//   2. It starts if the entry word of its first page is an address in flash. Erased flash, 0xFFFFFFFF, is none: dark.
//   3. A reading is stale exactly if no word has come for longer than the timeout, by a clock of 32 bits.
//
// Nothing here asks whether a page is missing.
import { get32 } from './bytes.js';
import { N } from './numbers.js';
import { AT } from './firmware.js';

// What comes over the socket, in milliseconds after the switch: a word each second, and after the fifth second nobody is there.
export const SCENE = { words: [0, 1000, 2000, 3000, 4000, 5000], reading: 420, dies: 5000, length: 12000, step: 100 };
const ERASED = 0xffffffff;

// A word of the flash; past its end it reads as erased flash does.
function word(flash, at) {
  return at + 4 <= flash.length ? get32(flash, at) : ERASED;
}

// What the display takes from its flash when it is switched on. `base` is where the firmware's first page belongs; `deaf` leaves out rule 1.
export function switchedOn(transfer, flash, base, deaf = false) {
  if (transfer.state === 'running' && !deaf) return { mode: 'update', count: transfer.count, total: transfer.total };
  const entry = word(flash, base + AT.entry);
  if (entry < N.UF2_FLASH_START || entry >= N.UF2_FLASH_END) return { mode: 'dark', entry };
  const timeoutAt = base + word(flash, base + AT.timeoutAt) + AT.number;
  const scaleAt = base + word(flash, base + AT.readingAt) + AT.number;
  return { mode: 'on', version: word(flash, base + AT.version), timeoutAt, timeout: word(flash, timeoutAt), scale: word(flash, scaleAt) };
}

// Whether the timeout is that of erased flash, which never comes.
export function isNever(display) {
  return display.mode === 'on' && display.timeout === ERASED;
}

// What the display shows at a time: `face` is update, dark, green or stale.
export function faceAt(display, time) {
  if (display.mode !== 'on') return { face: display.mode };
  const last = SCENE.words.filter((at) => at <= time).at(-1);
  const silent = (time - last) >>> 0;
  return { face: silent > display.timeout ? 'stale' : 'green', silent, reading: SCENE.reading / display.scale, since: last + display.timeout };
}

export function somebodyThere(time) {
  return time <= SCENE.dies;
}

// The end of the scene in a word: trusted (green with nobody there), stale, update or dark.
export function endOf(display) {
  const { face } = faceAt(display, SCENE.length);
  return face === 'green' ? 'trusted' : face;
}

// The stretches of the scene with one face each, for the strip: from, to, face.
export function stretches(display) {
  const list = [];
  for (let time = 0; time < SCENE.length; time += SCENE.step) {
    const { face } = faceAt(display, time);
    if (list.at(-1)?.face === face) list.at(-1).to = time + SCENE.step;
    else list.push({ from: time, to: time + SCENE.step, face });
  }
  return list;
}

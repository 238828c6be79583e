// The named cases of teaching/cases.txt, which `vantorel mark` reads too, and how an arrival is written in words: NUMBER/TOTAL, and with commas what is unusual.
// Right answers do not stand there: they come from the proved library. Pure functions.
import { FAMILY, newBoard, newEntry } from './board.js';
import { put32 } from './bytes.js';

const USUAL = { m1: 0x0a324655, m2: 0x9e5d5157, m3: 0x0ab16f30, flags: 0x2000, size: 256 };
const NUMBERS = ['at', 'flags', 'size', 'm1', 'm2', 'm3', 'fill', 'cut'];
const PAYLOAD = { at: 32, length: 256 };

function numberFrom(words) {
  if (!/^(0x[0-9a-f]+|\d+)$/i.test(words)) throw new Error(words);
  return Number(words);
}

// The arrivals that a word stands for: 0-2/8 is three, 2-0/8 the same backwards. Throws where it is no such word.
export function arrivalsFrom(word) {
  const [head, ...fields] = word.split(',');
  const [, first, last, total] = /^(\d+)(?:-(\d+))?\/(\d+)$/.exec(head) ?? [];
  if (first === undefined) throw new Error(word);
  const unusual = {};
  for (const field of fields) {
    const [, name, value] = /^(\w+)=(.+)$/.exec(field) ?? [];
    if (NUMBERS.includes(name)) unusual[name] = numberFrom(value);
    else if (name === 'fam') unusual.fam = FAMILY[value] ?? numberFrom(value);
    else if (name === 'text') unusual.text = value;
    else throw new Error(word);
  }
  const [from, to] = [Number(first), Number(last ?? first)];
  const step = from <= to ? 1 : -1;
  return Array.from({ length: Math.abs(to - from) + 1 }, (_, k) => ({ number: from + step * k, total: Number(total), ...unusual }));
}

export function sendFrom(words) {
  return words.split(/\s+/).filter(Boolean).flatMap(arrivalsFrom);
}

// An arrival as a word, which arrivalsFrom reads.
export function arrivalWord({ number, total, fam, text, ...numbers }) {
  const fields = Object.entries(numbers).map(([name, x]) => `${name}=${['cut', 'size'].includes(name) ? x : `0x${x.toString(16).toUpperCase()}`}`);
  const name = Object.keys(FAMILY).find((key) => FAMILY[key] === fam);
  if (fam !== undefined) fields.push(`fam=${name ?? `0x${fam.toString(16)}`}`);
  if (text !== undefined) fields.push(`text=${text}`);
  return [`${number}/${total}`, ...fields].join(',');
}

// The bytes of an arrival: a block whose address follows its number, with "page NUMBER of TOTAL. " over and over, but for what is unusual.
export function arrivalBytes(arrival) {
  const { number, total } = arrival;
  const block = new Uint8Array(512);
  const at = arrival.at ?? (0x10000000 + 256 * number) % 2 ** 32;
  const field = (name) => arrival[name] ?? USUAL[name];
  [field('m1'), field('m2'), field('flags'), at, field('size'), number, total, arrival.fam ?? FAMILY['arm-s']].forEach((x, k) => put32(block, 4 * k, x));
  put32(block, 508, field('m3'));
  const words = new TextEncoder().encode(`${arrival.text ?? 'page'} ${number} of ${total}. `);
  for (let k = 0; k < PAYLOAD.length; k++) block[PAYLOAD.at + k] = arrival.fill ?? words[k % words.length];
  return arrival.cut === undefined ? block : block.slice(0, arrival.cut);
}

// ---- Boards: settings as `vantorel settings` writes them

function listFrom(value) {
  return value.replace(/^\[|\]$/g, '').split(',').map((word) => word.trim().replace(/"/g, '')).filter(Boolean);
}

const ENTRY_KEYS = {
  first: (entry, value) => (entry.first = Number(value)),
  sectors: (entry, value) => (entry.sectors = Number(value)),
  accepts: (entry, value) => {
    for (const name of listFrom(value)) {
      const flag = { data: 'data', 'arm-s': 'armS', riscv: 'riscv', 'arm-ns': 'armNs' }[name];
      if (flag) entry[flag] = true;
      else entry.users.push(Number(name));
    }
  },
  'not-bootable': (entry, value) => listFrom(value).forEach((name) => (entry[name === 'arm' ? 'notBootableArm' : 'notBootableRiscv'] = true)),
  'b-of': (entry, value) => Object.assign(entry, { link: 'b', index: Number(value) }),
  'owned-by': (entry, value) => Object.assign(entry, { link: 'owned', index: Number(value) }),
};
const SWITCHES = { arm: 'arm', riscv: 'riscv', absolute: 'absolute', 'auto-switch': 'autoSwitch' };

// The board that settings stand for, or null where they say what a board here has not.
function boardFrom(head, lines) {
  const [, , ...words] = head.split(' ');
  const board = newBoard({ arm: false, absolute: false, entries: [] });
  if (words.some((word) => !word.startsWith('flash='))) return null;
  for (const word of words) board.flash = Number(word.slice(6));
  for (const line of lines) {
    if (line === '[[partition]]') {
      board.entries.push(newEntry({ sectors: 0, users: [] }));
      continue;
    }
    const [, key, value] = /^([\w-]+) = (.*)$/.exec(line) ?? [];
    const entry = board.entries.at(-1);
    if (entry && ENTRY_KEYS[key]) ENTRY_KEYS[key](entry, value);
    else if (!entry && SWITCHES[key]) board[SWITCHES[key]] = value === 'true';
    else if (!entry && key === 'current') board.current = value.replace(/"/g, '');
    else return null;
  }
  return board;
}

// ---- The file

// The parts of the file between empty lines, without remarks; within `lines .. end` and `settings .. end` a line stands as it is.
function partsOf(words) {
  const parts = [[]];
  let inside = false;
  for (const line of words.split('\n')) {
    if (line.startsWith('#')) continue;
    if (line === 'end') inside = false;
    else if (line === '' && !inside) parts.push([]);
    else {
      inside ||= line === 'lines' || line.startsWith('settings ');
      parts.at(-1).push(line);
    }
  }
  return parts.filter((part) => part.length > 0);
}

const PLAIN = ['case', 'point', 'asks', 'paper', 'shows', 'send', 'board'];

// The cases that a page can play: arrivals on a board that is lent whole, from the start, by document 01 alone. Each has its name, point, what it asks, the paper's
// sentence, the mistakes that it shows, its arrivals and its board.
export function casesFrom(words) {
  const parts = partsOf(words);
  const boards = new Map(parts.filter(([head]) => head.startsWith('settings ')).map(([head, ...lines]) => [head.split(' ')[1], boardFrom(head, lines)]));
  const cases = [];
  for (const part of parts) {
    if (part[0].startsWith('settings ')) continue;
    const keys = Object.fromEntries(part.map((line) => [line.split(' ')[0], line.slice(line.split(' ')[0].length + 1)]));
    if (keys.send === undefined || Object.keys(keys).some((key) => !PLAIN.includes(key)) || keys.send.includes('region=')) continue;
    const board = keys.board ? boards.get(keys.board) : newBoard();
    if (!board) continue;
    cases.push({
      name: keys.case,
      point: Number(keys.point),
      asks: keys.asks,
      paper: keys.paper,
      shows: (keys.shows ?? '').split(' ').filter(Boolean),
      arrivals: sendFrom(keys.send),
      board,
      table: keys.board !== undefined,
    });
  }
  return cases;
}

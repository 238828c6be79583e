// A scenario: a lesson, or a file, a board and a list of arrivals, with what stands beside the proved receiver, as JSON. It is saved to a file, opened again, and
// carried by a link. What somebody else wrote is read here, so that nothing in it is trusted: a wrong field is a sentence.
import { newBoard, newEntry } from './board.js';
import { changed, isBlock, piecesOf, readBlock } from './block.js';
import { same } from './bytes.js';
import { arrivalBytes, arrivalWord, sendFrom } from './cases.js';
import { LESSONS, lessonParts, samplePieces } from './lessons.js';
import { arrivalList, newPlan } from './arrivals.js';
import { familyFrom, familyName } from './words.js';
import { WRONG } from './wrong/all.js';

export const VERSION = 1;
const MOST_ARRIVALS = 4096;
const MOST_LINK = 6000;
const FIELDS = { at: 'address', fam: 'family', flags: 'flags', size: 'size', m1: 'first', m2: 'second', m3: 'last' };

// Why a scenario is refused; the view has the sentence for it.
export class Refused extends Error {}

// ---- Written

// A piece as a word over the sample's pieces: its number and total, and the fields that differ. Null where it is none of these.
function wordOf(piece, sample) {
  const block = piece.length === 512 ? readBlock(changed(piece, { first: 0x0a324655, second: 0x9e5d5157, last: 0x0ab16f30 })) : null;
  const own = block ? sample[block.number] : undefined;
  if (!own || block.total !== sample.length) return null;
  const word = { number: block.number, total: block.total };
  const made = {};
  for (const [name, field] of Object.entries(FIELDS)) {
    const at = { address: 12, family: 28, flags: 8, size: 16, first: 0, second: 4, last: 508 }[field];
    const value = (piece[at] | (piece[at + 1] << 8) | (piece[at + 2] << 16) | (piece[at + 3] << 24)) >>> 0;
    const usual = (own[at] | (own[at + 1] << 8) | (own[at + 2] << 16) | (own[at + 3] << 24)) >>> 0;
    if (value === usual) continue;
    word[name] = value;
    made[field] = value;
  }
  return same(changed(own, made), piece) ? arrivalWord(word) : null;
}

// Words in a row with one total, and nothing unusual, as one: 0/8 1/8 2/8 is 0-2/8.
function joined(words) {
  const parts = [];
  for (const word of words) {
    const [, number, total] = /^(\d+)\/(\d+)$/.exec(word) ?? [];
    const last = parts.at(-1);
    if (number !== undefined && last?.total === total && Number(number) === last.to + 1) last.to++;
    else parts.push(number === undefined ? { word } : { from: Number(number), to: Number(number), total });
  }
  return parts.map(({ word, from, to, total }) => word ?? (from === to ? `${from}/${total}` : `${from}-${to}/${total}`)).join(' ');
}

function base64(bytes) {
  let raw = '';
  for (const x of bytes) raw += String.fromCharCode(x);
  return btoa(raw);
}

// The file and the arrivals: over the sample where that says all, else the different pieces and their indices.
function listWritten(library, arrivals) {
  const first = arrivals.map(({ bytes }) => bytes).find(isBlock);
  const block = first ? readBlock(first) : null;
  if (block && block.total >= 1 && block.total <= MOST_ARRIVALS) {
    const { pieces } = samplePieces(library, block.total, block.family);
    const words = arrivals.map(({ bytes }) => wordOf(bytes, pieces));
    if (pieces.length > 0 && !words.includes(null)) return { file: { sample: { pages: block.total, family: familyName(block.family) } }, send: joined(words) };
  }
  const pieces = [];
  const send = arrivals.map(({ bytes }) => {
    let at = pieces.findIndex((piece) => same(piece, bytes));
    if (at < 0) at = pieces.push(bytes) - 1;
    return `#${at}`;
  });
  // a short piece can only be the last of a file
  if (pieces.slice(0, -1).some((piece) => piece.length !== 512)) return { file: { pieces: pieces.map(base64) }, send: send.join(' ') };
  return { file: { bytes: base64(Uint8Array.from(pieces.flatMap((piece) => [...piece]))) }, send: send.join(' ') };
}

// The scenario of what is shown. `view` has the lesson, board, plan, what stands beside, the position and the title.
export function scenarioOf(library, { title, lessonId, board, plan, wrongId, position, guess, answers }) {
  const scenario = { vantorel: 'scenario', version: VERSION, title };
  if (lessonId !== 'own') scenario.lesson = lessonId;
  else Object.assign(scenario, { board }, listWritten(library, arrivalList(plan)));
  Object.assign(scenario, { beside: wrongId === 'yours' ? null : wrongId, position });
  if (guess) scenario.guess = true;
  if (answers?.length) scenario.answers = answers;
  return scenario;
}

// ---- Read

const isObject = (x) => typeof x === 'object' && x !== null && !Array.isArray(x);

function fromBase64(words) {
  try {
    return Uint8Array.from(atob(words), (c) => c.charCodeAt(0));
  } catch {
    throw new Refused('file');
  }
}

// A board with the fields that a board has, each of its kind.
function boardFrom(said) {
  if (!isObject(said)) throw new Refused('board');
  const plain = newBoard();
  const board = { ...plain };
  for (const [name, usual] of Object.entries(plain)) {
    if (name === 'entries' || said[name] === undefined) continue;
    if (typeof said[name] !== typeof usual) throw new Refused('board');
    board[name] = said[name];
  }
  const entries = said.entries ?? [];
  if (!Array.isArray(entries) || entries.length > 16 || !entries.every(isObject)) throw new Refused('board');
  board.entries = entries.map((entry) => {
    const made = newEntry();
    for (const [name, usual] of Object.entries(made)) {
      if (entry[name] === undefined) continue;
      if (typeof entry[name] !== typeof usual || (name === 'users' && !entry.users.every(Number.isInteger))) throw new Refused('board');
      made[name] = entry[name];
    }
    return made;
  });
  const isFlash = Number.isInteger(board.flash) && board.flash >= 4096 && board.flash <= 33554432 && board.flash % 4096 === 0;
  if (!isFlash || !['erased', 'old'].includes(board.lent) || !['arm', 'riscv'].includes(board.current)) throw new Refused('board');
  return board;
}

// The plan of arrivals over the sample: its own pieces, and what is unusual as extras.
function samplePlan(library, { pages, family }, send) {
  const number = familyFrom(String(family ?? 'arm-s'));
  if (!Number.isInteger(pages) || pages < 1 || pages > MOST_ARRIVALS || number === null) throw new Refused('file');
  const { pieces } = samplePieces(library, pages, number);
  const extras = [];
  const list = arrivalsIn(send).map((arrival) => {
    const { number: k, total, ...unusual } = arrival;
    if (total !== pages || k >= pages || Object.keys(unusual).some((name) => !(name in FIELDS))) throw new Refused('send');
    if (Object.keys(unusual).length === 0) return { piece: k };
    const fields = Object.fromEntries(Object.entries(unusual).map(([name, value]) => [FIELDS[name], value]));
    return { extra: extras.push({ kind: 'other', after: 0, bytes: changed(pieces[k], fields) }) - 1 };
  });
  return newPlan(pieces, { order: 'list', list, extras });
}

function arrivalsIn(send) {
  if (typeof send !== 'string') throw new Refused('send');
  try {
    const arrivals = sendFrom(send);
    if (arrivals.length <= MOST_ARRIVALS) return arrivals;
  } catch {
    throw new Refused('send');
  }
  throw new Refused('send');
}

// The plan of pieces that are named by their index.
function piecesPlan(pieces, send) {
  if (typeof send !== 'string' || pieces.length === 0) throw new Refused('send');
  const list = send.split(/\s+/).filter(Boolean).map((word) => {
    const k = /^#\d+$/.test(word) ? Number(word.slice(1)) : -1;
    if (k < 0 || k >= pieces.length) throw new Refused('send');
    return { piece: k };
  });
  if (list.length > MOST_ARRIVALS) throw new Refused('send');
  return newPlan(pieces, { order: 'list', list, isFile: false });
}

function planFrom(library, file, send) {
  if (file === undefined) return newPlan(arrivalsIn(send).map(arrivalBytes), { isFile: false });
  if (!isObject(file)) throw new Refused('file');
  if (isObject(file.sample)) return samplePlan(library, file.sample, send);
  if (typeof file.bytes === 'string') return piecesPlan(piecesOf(fromBase64(file.bytes)), send);
  if (Array.isArray(file.pieces) && file.pieces.every((piece) => typeof piece === 'string')) return piecesPlan(file.pieces.map(fromBase64), send);
  throw new Refused('file');
}

// The parts of a scenario: a lesson's, or board and plan; what stands beside, the position, the title, and the code of a receiver that is only shown.
export function partsFrom(library, said) {
  if (!isObject(said) || said.vantorel !== 'scenario') throw new Refused('none');
  if (said.version !== VERSION) throw new Refused('newer');
  const lesson = LESSONS.find(({ id }) => id === said.lesson);
  if (said.lesson !== undefined && !lesson) throw new Refused('lesson');
  const parts = lesson ? { ...lessonParts(library, lesson), lessonId: lesson.id } : { board: boardFrom(said.board ?? {}), plan: planFrom(library, said.file, said.send), lessonId: 'own' };
  const beside = said.beside === undefined && lesson ? parts.wrongId : (WRONG.find(({ id }) => id === said.beside)?.id ?? null);
  const length = arrivalList(parts.plan).length;
  const position = Number.isInteger(said.position) ? Math.max(0, Math.min(length, said.position)) : 0;
  const answers = Array.isArray(said.answers) ? said.answers.filter((x) => Number.isInteger(x) && x >= 0 && x <= 31).slice(0, length) : [];
  const yours = typeof said.yours === 'string' ? said.yours.slice(0, 200000) : null;
  return { ...parts, wrongId: beside, position, answers, yours, guess: said.guess === true, title: typeof said.title === 'string' ? said.title.slice(0, 200) : '' };
}

export function scenarioFrom(words) {
  try {
    return JSON.parse(words);
  } catch {
    throw new Refused('none');
  }
}

// ---- Links: "#s=" and the JSON, deflated, in letters that an address may have

async function through(stream, bytes) {
  return new Uint8Array(await new Response(new Blob([bytes]).stream().pipeThrough(stream)).arrayBuffer());
}

// The part of an address that carries a scenario; null where it would be too long.
export async function linkOf(scenario) {
  const bytes = await through(new CompressionStream('deflate-raw'), new TextEncoder().encode(JSON.stringify(scenario)));
  const link = `#s=${base64(bytes).replace(/\+/g, '-').replace(/\//g, '_').replace(/=+$/, '')}`;
  return link.length > MOST_LINK ? null : link;
}

export async function scenarioFromLink(hash) {
  const words = hash.slice(3);
  if (words.length > MOST_LINK || !/^[\w-]*$/.test(words)) throw new Refused('none');
  let text;
  try {
    text = new TextDecoder().decode(await through(new DecompressionStream('deflate-raw'), fromBase64(words.replace(/-/g, '+').replace(/_/g, '/'))));
  } catch {
    throw new Refused('cut');
  }
  return scenarioFrom(text);
}

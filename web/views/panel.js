// A receiver as the class sees it: lamp, state, answer, seen map and the grids of its memories.
import { byId, element, letters, setText } from './dom.js';
import { COLOURS, Grid, borderOf, drawBits } from './grid.js';
import { STATUS_NAMES, cells, countCells } from '../pages.js';
import { PAYLOAD } from '../block.js';
import { SECTOR } from '../board.js';
import { isMarked } from '../bytes.js';
import { lampOf, verdictOf } from '../verdict.js';
import { failedWords, familyName, reasonWords } from '../words.js';
import { text } from '../text.js';

const MEMORIES = ['flash', 'main', 'xip'];

// Numbers are drawn in pages where pages are few and large.
const MOST_LABELS = 4096;
const NO_LABELS = new Map();

function labelsOf(file, memory) {
  return new Map(file.pages.filter((page) => page.storage?.memory === memory).map((page) => [Math.floor(page.storage.at / PAYLOAD), String(page.number)]));
}

// The names of the sample's pages by where they belong.
function namesOf(file, memory) {
  return new Map(file.sample ? file.pages.filter((page) => page.name && page.storage?.memory === memory).map((page) => [Math.floor(page.storage.at / PAYLOAD), page.name]) : []);
}

function gridPart(panel, memory) {
  const canvas = element('canvas', { className: 'grid', tabIndex: 0, role: 'img', 'aria-label': text.grid.title[memory] });
  const cell = element('p', { className: 'cell', 'aria-live': 'polite' });
  const size = element('span', { className: 'hint' });
  const legend = element('ul', { className: 'legend' });
  const box = element('div', { className: 'canvas-box' }, canvas);
  const part = element('div', { className: 'memory', 'data-memory': memory }, element('h3', {}, `${text.grid.title[memory]} `, size), box, legend, cell);
  const grid = new Grid(canvas, () => panel.tellCell(memory));
  return { part, canvas, cell, size, legend, grid };
}

export class Panel {
  constructor(articleId) {
    this.article = byId(articleId);
    const make = (tag, className, extra = {}) => element(tag, { className, ...extra });
    this.lamp = make('div', 'lamp', { role: 'img' });
    this.lampWords = make('p', 'lamp-words');
    this.state = make('p', 'state');
    this.stats = Object.fromEntries(['counted', 'arrived'].map((name) => [name, make('span', 'stat-number')]));
    this.number = make('span', 'number');
    this.answerName = make('span', 'answer-name');
    this.reason = make('p', 'reason');
    this.verdict = make('div', 'verdict', { role: 'status', 'aria-live': 'polite' });
    this.seenWords = make('h3', 'seen-words');
    this.seen = element('canvas', { className: 'seen', role: 'img' });
    this.grids = Object.fromEntries(MEMORIES.map((memory) => [memory, gridPart(this, memory)]));
    this.partitions = make('p', 'hint partitions');
    const shows = element('p', { className: 'hint', textContent: text.lamp.label });
    const lampRow = element('div', { className: 'lamp-row' }, this.lamp, element('div', {}, shows, this.lampWords, this.state));
    const stats = element('div', { className: 'stats' }, ...Object.entries(this.stats).map(([name, number]) => element('p', { 'data-stat': name }, number, ` ${text.state[name]}`)));
    const answer = element('div', { className: 'answer' }, element('p', {}, this.number, ' ', this.answerName), this.reason);
    const told = element('div', { className: 'told' }, lampRow, stats, answer, this.verdict);
    const { flash, main, xip } = this.grids;
    const seenBox = element('div', { className: 'canvas-box' }, this.seen);
    const drawn = element('div', { className: 'drawn' }, this.seenWords, seenBox, flash.part, this.partitions, main.part, xip.part);
    this.article.querySelector('.slot').replaceChildren(element('div', { className: 'panel' }, told, drawn));
  }

  // Shows a run of a session at its position.
  show(session, run) {
    this.run = run;
    const file = session.fileOf(run);
    const verdict = verdictOf(session, run);
    this.showLamp(lampOf(run, verdict));
    this.showState(run);
    this.showAnswer(run, run === session.wrong);
    this.verdict.dataset.kind = verdict.kind;
    this.verdict.replaceChildren(element('p', { className: 'words', textContent: verdict.words }), ...verdict.lines.map((words) => element('p', { className: 'page', textContent: words })));
    this.showSeen(run, file);
    this.names = Object.fromEntries(MEMORIES.map((memory) => [memory, namesOf(file, memory)]));
    for (const memory of MEMORIES) this.showGrid(memory, run, file, run.atEnd && run.position > 0);
    return verdict;
  }

  // Another board: the borders of its partitions, and their words.
  setBoard({ entries }) {
    this.grids.flash.grid.partition((sector) => entries.findIndex((entry) => sector >= entry.first && sector < entry.first + entry.sectors));
    const items = entries.map((entry, k) => {
      const swatch = element('span', { className: 'swatch', textContent: String(k), 'aria-hidden': 'true' });
      swatch.style.border = `0.25em solid ${borderOf(k)}`;
      return element('span', { className: 'partition' }, swatch, ` ${text.grid.partition[entry.link](entry.first, entry.first + entry.sectors - 1, entry.index)} `);
    });
    this.partitions.replaceChildren(...(items.length ? [`${text.grid.partitions}: `, ...items] : []));
  }

  showLamp(lamp) {
    this.lamp.dataset.state = lamp.state;
    this.lamp.dataset.wrongly = lamp.wrongly;
    setText(this.lamp, lamp.mark);
    this.lamp.setAttribute('aria-label', lamp.words);
    setText(this.lampWords, lamp.words);
  }

  showState(run) {
    const { state, family, total, count, kind } = run.receiver.transfer;
    const idle = state === 'idle';
    setText(this.state, idle ? text.state.names.idle : `${text.state.names[state]}: ${text.state.of(familyName(family), text.state.into[kind])}`);
    setText(this.stats.counted, idle ? text.state.number(0) : text.state.countOf(count, total));
    setText(this.stats.arrived, text.state.number(run.position));
  }

  // What a wrong receiver answers is what it says, and not what is so.
  showAnswer(run, wrong) {
    const { last, reason } = run;
    if (run.receiver.failed) return this.showFailed(run.receiver.failed);
    setText(this.number, last ? String(last.answer) : '');
    setText(this.answerName, last ? (text.answer.names[last.answer] ?? '') : text.answer.none);
    this.answerName.dataset.accepted = last ? last.answer >= 14 : '';
    const why = last ? reasonWords(last.answer, reason) : '';
    const said = wrong && why ? text.wrong.says(why) : why;
    setText(this.reason, last?.discarded ? `${said} (${text.answer.discarded})` : said);
    this.reason.title = reason ? text.reasonNumber(reason.cause) : '';
  }

  // A receiver of one's own that gave no answer.
  showFailed(failed) {
    setText(this.number, '–');
    setText(this.answerName, text.yours.noAnswer);
    setText(this.reason, failedWords(failed));
    this.reason.title = '';
  }

  showSeen(run, file) {
    const { transfer } = run.receiver;
    const total = transfer.state === 'idle' ? file.total : transfer.total;
    const map = run.receiver.bytes('seen');
    const bits = Math.min(total, map.length * 8);
    const few = [];
    let count = 0;
    for (let k = 0; k < bits; k++) {
      if (!isMarked(map, k)) continue;
      if (++count <= 200) few.push(k);
    }
    setText(this.seenWords, total ? text.state.seenOf(count, total) : text.state.seen(count));
    this.seen.setAttribute('aria-label', text.state.seenLabel(count > 200 ? text.state.number(count) : few.join(', ') || text.state.seenNone));
    drawBits(this.seen, (k) => isMarked(map, k), bits, this.seen.parentElement.clientWidth);
  }

  showGrid(memory, run, file, ended) {
    const { part, canvas, size, legend, grid } = this.grids[memory];
    const length = run.receiver.bytes(memory).length;
    part.hidden = length === 0;
    if (length === 0) return;
    const status = cells(run, file, memory, ended);
    grid.draw(status, status.length > MOST_LABELS ? NO_LABELS : labelsOf(file, memory));
    const counts = countCells(status).flatMap((count, k) => (count > 0 ? [[STATUS_NAMES[k], count]] : []));
    setText(size, memory === 'flash' ? text.grid.sizeIn(status.length, length / SECTOR) : text.grid.size(status.length));
    canvas.setAttribute('aria-label', text.grid.label(text.grid.title[memory], counts.map(([name, k]) => text.grid.count(text.grid.status[name], k)).join(', ')));
    legend.replaceChildren(
      ...counts.map(([name, k]) => {
        const swatch = element('span', { className: 'swatch', textContent: text.grid.marks[name], 'aria-hidden': 'true' });
        swatch.style.background = COLOURS[name].fill;
        swatch.style.color = COLOURS[name].ink;
        return element('li', { 'data-status': name, 'data-count': k }, swatch, ` ${text.grid.count(text.grid.status[name], k)}`);
      }),
    );
    this.tellCell(memory);
  }

  // What the chosen page of a memory is, in words.
  tellCell(memory) {
    const { grid, cell } = this.grids[memory];
    const page = grid.chosen;
    if (page < 0 || page >= grid.cells.length) {
      setText(cell, '');
      return;
    }
    const at = page * PAYLOAD;
    const bytes = this.run.receiver.bytes(memory).subarray(at, at + 24);
    const status = text.grid.status[STATUS_NAMES[grid.cells[page]]];
    const words = memory === 'flash' ? text.grid.cellIn(page, at, status, Math.floor(at / SECTOR)) : text.grid.cell(page, at, status);
    const named = this.names[memory].get(page);
    setText(cell, [words, named ? text.grid.cellName(text.pages[named]) : '', text.grid.bytes(letters(bytes))].filter(Boolean).join(' '));
  }
}

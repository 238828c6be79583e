// What is printed: one page for the class, one for the trainer, or all that is shown.
import { byId, element } from './dom.js';
import { PAYLOAD } from '../block.js';
import { SECTOR } from '../board.js';
import { cells, STATUS_NAMES } from '../pages.js';
import { endOf, switchedOn } from '../display.js';
import { N } from '../numbers.js';
import { LEAST_PAGES } from '../firmware.js';
import { verdictOf } from '../verdict.js';
import { answerWords, blockWords } from '../words.js';
import { text } from '../text.js';

const ROWS = 24;
const SECTORS = 4;
const PER_SECTOR = SECTOR / PAYLOAD;

// The sectors of the flash that the file's pages belong to, at most four.
function usedSectors(file) {
  const used = file.pages.filter((page) => page.storage?.memory === 'flash').map((page) => Math.floor(page.storage.at / SECTOR));
  const sectors = [...new Set(used)].sort((a, b) => a - b);
  return (sectors.length > 0 ? sectors : [0]).slice(0, SECTORS);
}

function sectorFigure(sector, file, status) {
  const numbers = new Map(file.pages.filter((page) => page.storage?.memory === 'flash').map((page) => [page.storage.at / PAYLOAD, page.number]));
  const boxes = Array.from({ length: PER_SECTOR }, (_, k) => {
    const page = sector * PER_SECTOR + k;
    const name = status ? STATUS_NAMES[status[page]] : '';
    const number = numbers.get(page) ?? '';
    if (!status) return element('span', { className: 'page-box' }, element('small', { textContent: number }));
    return element('span', { className: 'page-box', 'data-status': name }, name === 'stored' ? String(number) : text.grid.marks[name]);
  });
  return element('figure', { className: 'sector' }, element('div', { className: 'sector-boxes' }, ...boxes), element('figcaption', { textContent: text.print.sector(sector) }));
}

function arrivalsTable(session, filled) {
  const { arrivals } = session;
  const heads = [text.log.columns.arrival, text.log.columns.block, text.log.columns.address, text.log.columns.answer, ...(session.wrong ? [text.log.columns.wrong] : [])];
  const rows = arrivals.slice(0, ROWS).map(({ bytes }, k) => {
    const { block, address } = blockWords(bytes);
    const answers = session.runs.map((run) => (filled ? answerWords(run.answers[k], run.discards[k] === 1) : ''));
    return element('tr', {}, ...[String(k + 1), block, address, ...answers].map((words) => element('td', { textContent: words })));
  });
  const more = arrivals.length > ROWS ? [element('p', { textContent: text.verdict.more(arrivals.length - ROWS) })] : [];
  return [element('table', {}, element('thead', {}, element('tr', {}, ...heads.map((words) => element('th', { textContent: words })))), element('tbody', {}, ...rows)), ...more];
}

// What the display in service comes to, in a sentence; none where the file is no sample.
function serviceWords(session, run, file) {
  if (!file.sample || file.total < LEAST_PAGES) return null;
  const place = session.proved.receiver.place(file.family);
  const display = switchedOn(run.receiver.transfer, run.receiver.bytes('flash'), place.answer === N.UF2_ANSWER_FOUND ? place.start : 0);
  return text.print.ends[endOf(display)];
}

function trainerPart(session, name, run, file) {
  const verdict = verdictOf(session, run);
  const service = serviceWords(session, run, file);
  const lines = [verdict.words, ...verdict.lines, ...(service ? [`${text.service.title}: ${service}`] : [])];
  return element('div', { className: 'print-run' }, element('h3', { textContent: name }), ...lines.map((words) => element('p', { textContent: words })));
}

// One page: the lesson's text, the arrivals, the flash and the three questions; for the trainer filled in. The session is at its end then.
export function handoutPage(session, { title, words, wrongName, filled }) {
  const file = session.fileOf(session.proved);
  const status = filled ? cells(session.proved, file, 'flash', true) : null;
  const figures = usedSectors(file).map((sector) => sectorFigure(sector, file, status));
  const lineTo = () => element('p', { className: 'write-here' });
  const questions = Object.values(text.print.questions).flatMap((question) => [element('p', { className: 'question', textContent: question }), ...(filled ? [] : [lineTo(), lineTo()])]);
  const runs = filled ? [trainerPart(session, text.proved.title, session.proved, file), ...(session.wrong ? [trainerPart(session, wrongName, session.wrong, file)] : [])] : [];
  const claim = filled ? [element('h3', { textContent: text.proved.what }), element('p', { textContent: text.proved.claim }), element('p', { className: 'hint', textContent: text.print.model })] : [];
  return [
    element('h1', { textContent: title }),
    element('p', { className: 'hint', textContent: filled ? text.print.trainerHead : text.print.handoutHead }),
    element('p', { className: 'print-text', textContent: words }),
    element('h3', { textContent: text.log.title }),
    ...arrivalsTable(session, filled),
    element('h3', { textContent: filled ? text.print.flashProved : text.print.flash }),
    element('div', { className: 'sectors' }, ...figures),
    ...(filled ? [element('div', { className: 'print-runs' }, ...runs)] : []),
    ...questions,
    ...claim,
  ];
}

// Asks what is to be printed, and prints it.
export class PrintChoice {
  // `page(filled)` makes the page for the class or the trainer; null where the view has none.
  constructor(page) {
    this.page = page;
    const dialog = byId('print-choice');
    for (const what of ['handout', 'trainer', 'all']) byId(`print-${what}`).addEventListener('click', () => this.print(what));
    byId('print-cancel').addEventListener('click', () => dialog.close());
  }

  ask() {
    byId('print-choice').showModal();
  }

  async print(what) {
    byId('print-choice').close();
    const page = what === 'all' ? null : await this.page(what === 'trainer');
    document.body.dataset.print = page ? 'page' : 'all';
    byId('handout').replaceChildren(...(page ?? []));
    // not every browser waits here until the page is printed
    window.addEventListener('afterprint', () => delete document.body.dataset.print, { once: true });
    window.print();
  }
}

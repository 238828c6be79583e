// "Your receiver": an editor, the marks on the three points, which known mistake answers alike, and smallest lists.
import { byId, element, onFile, saveFile, setText } from './dom.js';
import { CASES } from '../teaching.js';
import { casesFrom, arrivalBytes } from '../cases.js';
import { randomLists } from '../chance.js';
import { newBoard } from '../board.js';
import { PAYLOAD, isBlock, readBlock } from '../block.js';
import { KINDS, bytesOf, isGoodBoard, judged, marksOf, rightOf } from '../judge.js';
import { MISTAKES } from '../mistakes.js';
import { diagnosed } from '../diagnose.js';
import { shrunk } from '../shrink.js';
import { listFor, playYours } from '../yours.js';
import { nextFrame } from '../slices.js';
import { TEMPLATE } from '../template.js';
import { answerWords, failedWords, reasonWords } from '../words.js';
import { text } from '../text.js';

const RANDOM = { lists: 200, seed: 1 };
const MOST_CODE = 200000;
const SMALLEST = 3;
const STORED = 'vantorel-receiver';

const hexBytes = (bytes) => Array.from(bytes.subarray(0, 8), (x) => x.toString(16).toUpperCase().padStart(2, '0')).join(' ');

// What somebody typed is kept where the browser allows it.
function stored() {
  try {
    return localStorage.getItem(STORED);
  } catch {
    return null;
  }
}

function store(code) {
  try {
    localStorage.setItem(STORED, code);
  } catch {
    // a browser that keeps nothing is as good
  }
}

function stateWords({ state, total, count }) {
  return state === 'idle' ? text.state.idle : state === 'done' ? text.state.done(total) : text.state.running(count, total);
}

function arrivalWords(bytes) {
  if (!isBlock(bytes)) return text.yours.piece(bytes.length);
  const { number, total, address } = readBlock(bytes);
  return text.yours.block(number, total, address);
}

export class YoursView {
  // `show(code)` puts the receiver beside the proved one, `play(code, list)` opens a list with it.
  constructor(libraries, { show, play }) {
    Object.assign(this, { libraries, play });
    this.checked = 0;
    this.area = byId('yours-code');
    this.area.value = stored() ?? TEMPLATE;
    this.area.addEventListener('input', () => this.typed());
    this.area.addEventListener('scroll', () => (byId('yours-lines').scrollTop = this.area.scrollTop));
    this.area.addEventListener('keydown', (event) => this.key(event));
    byId('yours-check').addEventListener('click', () => this.check());
    byId('yours-show').addEventListener('click', () => show(this.area.value));
    byId('yours-save').addEventListener('click', () => saveFile(text.yours.name, [this.area.value]));
    byId('yours-template').addEventListener('click', () => this.setCode(TEMPLATE, ''));
    onFile('yours-file', (file) => this.openFile(file));
    this.numberLines();
  }

  typed() {
    store(this.area.value);
    this.numberLines();
  }

  numberLines() {
    const lines = this.area.value.split('\n').length;
    setText(byId('yours-lines'), Array.from({ length: lines }, (_, k) => k + 1).join('\n'));
  }

  // Tab indents, until Escape is pressed: then the next Tab leaves the field.
  key(event) {
    if (event.key === 'Escape') this.leaving = true;
    else if (event.key !== 'Tab') this.leaving = false;
    else if (!this.leaving && !event.shiftKey) {
      event.preventDefault();
      this.area.setRangeText('  ', this.area.selectionStart, this.area.selectionEnd, 'end');
      this.typed();
    }
  }

  setCode(code, note) {
    this.area.value = code;
    byId('yours-result').replaceChildren();
    setText(byId('yours-note'), note);
    this.typed();
  }

  async openFile(file) {
    const code = await file.text().catch(() => null);
    if (code === null) return setText(byId('yours-note'), text.files.unreadable(file.name));
    if (code.length > MOST_CODE) return setText(byId('yours-note'), text.yours.tooLong(file.name));
    return this.setCode(code, text.yours.opened(file.name));
  }

  // ---- Marking

  // The lists that are asked: the named cases, with a partition table where that is wanted, and random ones. They are made once.
  async lists() {
    if (!this.all) {
      const random = randomLists(RANDOM.lists, RANDOM.seed).map((list) => ({ ...list, asks: null, board: newBoard(), table: false }));
      const lists = [...casesFrom(CASES), ...random];
      this.all = await this.libraries.use((library) => lists.map((list) => ({ list, right: rightOf(library, list) })).filter(({ right }) => isGoodBoard(right)));
    }
    return this.all.filter(({ list }) => byId('yours-table').checked || !list.table);
  }

  async check() {
    const run = ++this.checked;
    const isOld = () => run !== this.checked;
    const code = this.area.value;
    byId('yours-result').replaceChildren();
    const asked = await this.lists();
    const told = (k) => {
      setText(byId('yours-note'), text.yours.checking(k, asked.length));
      return !isOld();
    };
    told(0);
    const { broken, results } = await playYours(code, asked.map(({ list }) => listFor(list.board, bytesOf(list))), { told });
    if (isOld()) return;
    if (broken) return this.showBroken(broken);
    const found = asked.map(({ list, right }, k) => (results[k] ? judged(list, right, results[k]) : null));
    this.showMarks(asked, found);
    await this.showDiagnosis(asked, found, isOld);
    await this.showSmallest(code, asked, found, isOld);
    if (!isOld()) setText(byId('yours-note'), '');
  }

  say(...parts) {
    byId('yours-result').append(...parts);
  }

  showBroken(broken) {
    setText(byId('yours-note'), '');
    this.say(element('p', { className: 'verdict', 'data-kind': 'falselyDone' }, element('span', { className: 'words', textContent: failedWords({ at: 0, ...broken }) })));
  }

  showMarks(asked, found) {
    const marks = marksOf(asked.map(({ list }) => list), found);
    const boxes = marks.map(({ point, asked: all, failed, mark }) =>
      element(
        'p',
        { className: 'mark', 'data-mark': mark, 'data-point': point },
        element('strong', { textContent: `${text.yours.signs[mark]} ${text.yours.marks[mark]}` }),
        ` ${text.yours.points[point]} `,
        element('small', { textContent: text.yours.asked(all, all - failed) }),
      ),
    );
    this.say(...boxes, element('p', { className: 'hint', textContent: text.yours.pass(asked.length) }));
    if (found.includes(null)) this.say(element('p', { className: 'note', textContent: text.yours.stopped }));
  }

  // Which known mistakes answer alike; nothing where all is right or nothing could be compared.
  async showDiagnosis(asked, found, isOld) {
    const seen = asked.flatMap(({ list, right }, k) => (found[k] && !found[k].faults.some(({ failed }) => failed) ? [{ list, right, key: found[k].deviation?.key ?? null }] : []));
    if (!seen.some(({ key }) => key !== null)) return;
    setText(byId('yours-note'), text.yours.looking);
    let last = performance.now();
    const pause = async () => {
      if (performance.now() - last < 30) return;
      await nextFrame();
      last = performance.now();
    };
    const told = await diagnosed(seen, { goodSettings: true, md5: () => new Uint8Array(16) }, pause);
    if (isOld()) return;
    this.say(element('div', { className: 'diagnosis' }, ...this.diagnosisLines(told)));
  }

  diagnosisLines({ wrong, explained, nearest }) {
    const line = (words, className = '') => element('p', { textContent: words, className });
    const mistakeOf = (id) => MISTAKES.find((mistake) => mistake.id === id);
    const named = (on) => on.map((id) => text.teaching.mistakes[id].name).reduce((a, b) => text.yours.and(a, b));
    if (explained.length === 0) {
      if (!nearest) return [line(text.yours.unknown(MISTAKES.length), 'note')];
      return [line(text.yours.nearest(named(nearest.on), nearest.explains, wrong, nearest.against), 'note')];
    }
    const [first, ...others] = explained;
    const about = first.map(mistakeOf).flatMap(({ id, edit, promise }) => [
      line(text.teaching.mistakes[id].does),
      line(text.yours.right(text.teaching.mistakes[id].right)),
      line(text.yours.danger(text.teaching.mistakes[id].danger)),
      ...(edit ? [line(text.yours.editOf(edit, promise), 'hint')] : []),
    ]);
    const also = others.length > 0 ? text.yours.alsoAs(others.map(named).join('; ')) : text.yours.only(MISTAKES.length);
    return [line(text.yours.diagnosis(named(first)), 'note'), line(`${text.yours.explainsAll(wrong)} ${also}`), ...about];
  }

  // ---- Smallest lists

  // One list of each point and kind, the worst kinds first.
  worst(asked, found) {
    const firsts = new Map();
    found.forEach((result, k) =>
      (result?.faults ?? []).forEach((fault) => {
        const key = `${fault.kind}`;
        if (!firsts.has(key)) firsts.set(key, { ...asked[k], fault });
      }),
    );
    return [...firsts.values()].sort((a, b) => KINDS.indexOf(a.fault.kind) - KINDS.indexOf(b.fault.kind)).slice(0, SMALLEST);
  }

  async showSmallest(code, asked, found, isOld) {
    for (const { list, fault } of this.worst(asked, found)) {
      if (isOld()) return;
      setText(byId('yours-note'), text.yours.shrinking);
      const failing = (arrivals) => this.faultOf(code, { ...list, arrivals }, fault);
      const arrivals = fault.kind === 'end' ? list.arrivals.slice(0, fault.at + 1) : await shrunk(list.arrivals, async (some) => !isOld() && (await failing(some)) !== null, 200);
      const small = { ...list, arrivals };
      const again = await this.faultOf(code, small, fault, true);
      if (isOld()) return;
      if (again) this.say(this.smallestPart(code, small, again));
    }
  }

  // How a list fails in the kind of a fault, with what is right and what was played; or null.
  async faultOf(code, list, { point, kind }) {
    const { results } = await playYours(code, [listFor(list.board, bytesOf(list))]);
    if (!results[0]) return null;
    const right = await this.libraries.use((library) => rightOf(library, list));
    const fault = judged(list, right, results[0]).faults.find((one) => one.point === point && one.kind === kind);
    return fault ? { fault, right, steps: results[0].steps } : null;
  }

  smallestPart(code, list, { fault, right, steps }) {
    const head = text.yours.point(fault.point, list.name, text.yours.kinds[fault.kind]);
    const asks = element('p', { className: 'hint', textContent: text.teaching.cases[list.name] ?? text.yours.random });
    const end = fault.kind === 'contents' ? list.arrivals.length : fault.at + 1;
    const items = list.arrivals.slice(0, end).map((arrival, k) => element('li', { textContent: text.yours.arrival(k + 1, arrivalWords(arrivalBytes(arrival)), this.stepWords(fault, right, steps, k)) }));
    if (fault.kind === 'contents') items.push(element('li', { textContent: this.pageWords(list, fault, right, steps) }));
    const open = element('button', { textContent: text.yours.openList });
    open.addEventListener('click', () => this.play(code, list));
    return element('div', { className: 'smallest', 'data-kind': fault.kind }, element('h3', { textContent: head }), asks, element('ol', { className: 'plain' }, ...items), open);
  }

  stepWords(fault, right, steps, k) {
    if (fault.failed && k === fault.at) return failedWords(fault.failed);
    const { answer, discarded } = steps[k];
    const gave = answerWords(answer, discarded);
    if (k !== fault.at) return text.yours.gave(gave);
    if (fault.kind === 'refusal') return text.yours.refusalChanged(gave);
    const good = right.steps[k];
    if (fault.kind === 'state') return text.yours.stateWrong(gave, stateWords(steps[k]), stateWords(good));
    return text.yours.wrongly(gave, answerWords(good.answer, good.discarded), reasonWords(good.answer, good.reason));
  }

  pageWords(list, { page }, right, steps) {
    let own = listFor(list.board, []).lent.subarray(page * PAYLOAD, (page + 1) * PAYLOAD);
    for (const { pages } of steps) for (const [k, bytes] of pages) if (k === page) own = bytes;
    return text.yours.pageWrong(page, hexBytes(own), hexBytes(right.flash.subarray(page * PAYLOAD, (page + 1) * PAYLOAD)));
  }
}

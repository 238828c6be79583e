// The view of a transfer: the lesson, the two receivers, the blocks, the log, and what can be set.
import { byId, element, fileBytes, fillSelect, onFile, refuser, saveFile, setText } from './dom.js';
import { GuessView } from './guess.js';
import { handoutPage } from './handout.js';
import { BoardForm } from './boardform.js';
import { Panel } from './panel.js';
import { Player } from './player.js';
import { ServiceView } from './service.js';
import { fillTable } from './table.js';
import { Session } from '../session.js';
import { newPlan } from '../arrivals.js';
import { arrivalBytes } from '../cases.js';
import { isBlock, piecesOf, readBlock } from '../block.js';
import { LESSONS, lessonParts, samplePieces } from '../lessons.js';
import { Refused, linkOf, partsFrom, scenarioFrom, scenarioFromLink, scenarioOf } from '../scenario.js';
import { pageNames } from '../firmware.js';
import { EXTRAS } from '../maker.js';
import { FAMILY } from '../board.js';
import { N } from '../numbers.js';
import { WRONG } from '../wrong/all.js';
import { answerWords, blockWords, commandLine, familyFrom, faultWords } from '../words.js';
import { text } from '../text.js';

const BLOCKS = 96;
const NAMED = 8;
const MOST_FILE = 128 * 1024 * 1024;
const LIMITS = { letters: 8, depth: 10, tries: 60000 };
const SEARCH_FLASH = 1048576;

function timesWords(times) {
  return times === 1 ? text.blocks.once : times === 2 ? text.blocks.twice : text.blocks.times(times);
}

function blockLabel(number, times, name) {
  if (times === 0) return name ? text.blocks.buttonDroppedNamed(number, name) : text.blocks.buttonDropped(number);
  return name ? text.blocks.buttonNamed(number, timesWords(times), name) : text.blocks.button(number, timesWords(times));
}

export class TransferView {
  constructor(libraries, say) {
    this.libraries = libraries;
    this.say = say;
    this.refuse = refuser(say, 'file-note');
    this.panels = { proved: new Panel('proved'), wrong: new Panel('wrong') };
    this.form = new BoardForm(libraries, (board) => this.setBoard(board));
    this.player = new Player({ start: 'to-start', back: 'back', play: 'play', step: 'step', end: 'to-end', speed: 'speed' }, this);
    this.service = new ServiceView(() => this.sendAgain());
    this.guess = new GuessView(this);
    this.gone = new AbortController();
    this.answers = [];
    this.firstBlock = 0;
    this.opened = 0;
    this.fillChoices();
    this.listen();
  }

  fillChoices() {
    fillSelect(byId('lesson'), [...LESSONS.map(({ id }) => [id, text.lesson.items[id].name]), ['own', text.lesson.own]]);
    this.fillWrong();
    fillSelect(byId('goal'), Object.entries(text.wrong.goals));
    fillSelect(byId('mix-kind'), Object.keys(EXTRAS).map((kind) => [kind, text.setup.extras[kind]]));
    byId('family-names').replaceChildren(...Object.keys(FAMILY).map((name) => element('option', { value: name })));
  }

  // The receivers that may stand beside the proved one; the one of one's own where it was shown once.
  fillWrong() {
    const own = this.yours ? [['yours', text.yours.title]] : [];
    fillSelect(byId('wrong-choice'), [...own, ...WRONG.map(({ id }) => [id, text.wrong.items[id].name]), ['', text.wrong.none]], this.wrongId ?? '');
  }

  // The code of one's own receiver beside the proved one, in the list that is open.
  showYours(code) {
    this.yours = code;
    this.fillWrong();
    return this.change({ wrongId: 'yours' }, this.lessonId);
  }

  listen() {
    const on = (id, event, act) => byId(id).addEventListener(event, act);
    on('lesson', 'change', () => byId('lesson').value !== 'own' && this.openLesson(byId('lesson').value));
    on('wrong-choice', 'change', () => this.change({ wrongId: byId('wrong-choice').value || null }, this.lessonId));
    on('find', 'click', () => this.find());
    on('blocks-before', 'click', () => this.pageBlocks(-BLOCKS));
    on('blocks-after', 'click', () => this.pageBlocks(BLOCKS));
    on('blocks-once', 'click', () => this.changePlan({ times: new Map(), order: this.plainOrder }));
    on('order', 'change', () => this.changePlan({ order: byId('order').value }));
    on('seed', 'change', () => this.changePlan({ seed: Math.max(0, Math.floor(Number(byId('seed').value))) }));
    on('mix-add', 'click', () => this.mix());
    on('pages', 'change', () => this.makeSample());
    on('family', 'change', () => this.makeSample());
    onFile('file', (file) => this.openFile(file));
    on('save', 'click', () => saveFile(text.setup.savedName, this.session.arrivals.map((arrival) => arrival.bytes)));
    on('scenario-save', 'click', () => this.saveScenario());
    on('scenario-link', 'click', () => this.copyLink());
    onFile('scenario-file', (file) => this.openScenarioFile(file));
    window.addEventListener('resize', () => this.session && this.render(), { signal: this.gone.signal });
  }

  // This view is not used any more.
  close() {
    this.gone.abort();
    this.player.pause();
    this.service.stop();
    this.session?.close();
  }

  get plainOrder() {
    return this.plan.order === 'list' ? 'file' : this.plan.order;
  }

  // ---- What is played

  // A list that was marked, with the receiver of one's own beside the proved one, at its end.
  async openYours(code, list) {
    this.yours = code;
    this.wrongId = 'yours';
    this.fillWrong();
    this.firstBlock = 0;
    this.ownFlash = list.board.flash;
    const pieces = list.arrivals.map(arrivalBytes);
    await this.change({ board: list.board, plan: newPlan(pieces, { isFile: false }), wrongId: 'yours', fileWords: text.files.loaded(list.name, pieces.length) });
    await this.goTo(pieces.length);
  }

  async openLesson(id) {
    const lesson = LESSONS.find((item) => item.id === id);
    const parts = await this.libraries.use((library) => lessonParts(library, lesson));
    this.firstBlock = 0;
    this.ownFlash = parts.board.flash;
    await this.change({ ...parts, fileWords: '' }, id);
  }

  // A board from the form. A flash that is only as large as an open file needs was not set by anybody.
  setBoard(board) {
    if (board.flash !== this.board.flash) this.ownFlash = board.flash;
    return this.change({ board });
  }

  changePlan(fields) {
    return this.change({ plan: { ...this.plan, ...fields } });
  }

  // Another board, plan or wrong receiver: the list begins anew. A change that is overtaken by a later one is dropped.
  // `fileWords` are those beside the field for a file.
  async change({ board = this.board, plan = this.plan, wrongId = this.wrongId, fileWords = this.fileWords, title = '', answers = [] }, lessonId = 'own') {
    const opened = ++this.opened;
    this.player.pause();
    const session = await Session.open(this.libraries, board, plan, wrongId, this.yours);
    if (opened !== this.opened) {
      session.close();
      return;
    }
    this.session?.close();
    Object.assign(this, { session, board, plan, wrongId, lessonId, fileWords, title, answers });
    for (const panel of Object.values(this.panels)) panel.setBoard(board);
    this.form.show(board);
    const bad = [N.UF2_ANSWER_BAD_BUFFERS, N.UF2_ANSWER_BAD_SETTINGS].includes(session.proved.receiver.place(FAMILY.data).answer);
    if (bad) this.form.note(text.setup.badSettings);
    setText(byId('find-result'), '');
    setText(byId('file-note'), fileWords);
    this.showFault(session);
    this.say('');
    this.showChoices();
    this.showBlocks();
    this.render();
    if (this.guess.on) this.guess.restart();
    this.followAddress();
  }

  // Everything drawn anew, after it was out of the document.
  redraw() {
    if (this.session) this.render();
  }

  // The display in service, where the file is the sample.
  switchOn() {
    if (!byId('to-service').disabled) this.service.start();
  }

  // ---- Scenarios

  async scenario() {
    const { title, lessonId, board, plan, wrongId, position, answers } = this;
    return this.libraries.use((library) => scenarioOf(library, { title, lessonId, board, plan, wrongId, position, answers, guess: this.guess.on }));
  }

  async saveScenario() {
    const scenario = await this.scenario();
    const whole = this.wrongId === 'yours' ? { ...scenario, yours: this.yours } : scenario;
    saveFile('scenario.json', [JSON.stringify(whole, null, 2), '\n']);
  }

  // The address follows what is shown, where that is short enough, so that a reload keeps it.
  async followAddress() {
    if (this.length > 256) return;
    const { session } = this;
    const link = await linkOf({ ...(await this.scenario()), position: 0 });
    if (session !== this.session || this.gone.signal.aborted) return;
    try {
      history.replaceState(null, '', link ?? '#');
    } catch {
      // a browser that keeps no address of a file is as good
    }
  }

  async copyLink() {
    const link = await linkOf(await this.scenario());
    if (!link) return setText(byId('scenario-note'), text.scenario.tooLong);
    const whole = location.href.split('#')[0] + link;
    const copied = await navigator.clipboard.writeText(whole).then(() => true, () => false);
    setText(byId('scenario-note'), copied ? text.scenario.copied(whole.length) : text.scenario.notCopied(whole));
  }

  async openScenarioFile(file) {
    const words = await file.text().catch(() => '');
    await this.openScenarioWords(words, file.name);
  }

  async openScenarioWords(words, name) {
    try {
      await this.openScenario(scenarioFrom(words));
    } catch (error) {
      if (!(error instanceof Refused)) throw error;
      const said = text.scenario.badFile(name, text.scenario.why[error.message]);
      this.say(text.files.refused(said));
      setText(byId('scenario-note'), said);
    }
  }

  // Opens what an address carries; whether it could be opened.
  async openLink(hash) {
    try {
      await this.openScenario(await scenarioFromLink(hash));
      return true;
    } catch (error) {
      if (!(error instanceof Refused)) throw error;
      await this.openLesson('lostPage');
      this.say(text.scenario.badLink(text.scenario.why[error.message]));
      return false;
    }
  }

  // Code in a scenario is only shown: a button runs it.
  async openScenario(said) {
    const parts = await this.libraries.use((library) => partsFrom(library, said));
    const { board, plan, wrongId, lessonId, title, answers, position, yours } = parts;
    this.firstBlock = 0;
    this.ownFlash = board.flash;
    this.guess.set(false);
    await this.change({ board, plan, wrongId, title, answers, fileWords: title }, lessonId);
    if (position > 0) await this.goTo(position);
    if (parts.guess) this.guess.set(true);
    setText(byId('scenario-note'), '');
    if (yours !== null) {
      this.onYours(yours);
      this.say(text.scenario.hasYours);
    }
  }

  // The page for the class, or the trainer's, which has what comes out.
  async handout(filled) {
    const { session } = this;
    if (filled) await this.goTo(this.length);
    const isLesson = this.lessonId !== 'own';
    const title = isLesson ? text.lesson.items[this.lessonId].name : this.title || text.lesson.own;
    const words = isLesson ? text.lesson.items[this.lessonId].text : '';
    return handoutPage(session, { title, words, filled, wrongName: byId('wrong-name').textContent });
  }

  async openFile(file) {
    if (file.size > MOST_FILE) return this.refuse(text.files.tooLong(file.name));
    const bytes = await fileBytes(file).catch(() => null);
    if (!bytes) return this.refuse(text.files.unreadable(file.name));
    return this.openPieces(piecesOf(bytes), file.name);
  }

  // Pieces of a file, or a list of arrivals; or a sentence where none of them is a block.
  async openPieces(pieces, name, isFile = true) {
    if (pieces.length === 0) return this.refuse(text.files.empty(name));
    const good = pieces.filter(isBlock).length;
    if (good === 0) return this.refuse(text.files.noUf2(name));
    this.firstBlock = 0;
    const bad = pieces.length - good;
    const fileWords = `${text.files.loaded(name, pieces.length)}${bad ? ` ${text.files.someUf2(bad, pieces.length)}` : ''}`;
    await this.change({ board: this.boardFor(pieces), plan: newPlan(pieces, { isFile }), fileWords });
  }

  // The board with the flash that was set, or a larger one where the file needs it.
  boardFor(pieces) {
    return { ...this.board, flash: Math.max(this.ownFlash, this.need(pieces)) };
  }

  // How large a flash must be so that it holds every page of the file, as `vantorel load` reckons it.
  need(pieces) {
    let need = 32768;
    for (const piece of pieces) {
      const block = readBlock(piece);
      if (!block || block.address < N.UF2_FLASH_START || block.address >= N.UF2_FLASH_END) continue;
      need = Math.max(need, block.address - N.UF2_FLASH_START + 256, block.total * 256);
    }
    return Math.min(N.UF2_FLASH_MAX_SIZE, Math.ceil(need / N.UF2_SECTOR_SIZE) * N.UF2_SECTOR_SIZE);
  }

  async makeSample() {
    const family = familyFrom(byId('family').value);
    if (family === null) {
      setText(byId('file-note'), text.setup.badFamily);
      return;
    }
    const pages = Math.max(1, Math.min(131072, Math.floor(Number(byId('pages').value)) || 1));
    const { pieces } = await this.libraries.use((library) => samplePieces(library, pages, family));
    this.firstBlock = 0;
    await this.change({ board: this.boardFor(pieces), plan: newPlan(pieces), fileWords: text.files.loaded(text.setup.sample, pieces.length) });
  }

  mix() {
    const kind = byId('mix-kind').value;
    const after = Math.max(0, Math.floor(Number(byId('mix-after').value)) || 0);
    const { pieces } = this.plan;
    const piece = pieces[Math.min(after, pieces.length - 1)];
    const bytes = EXTRAS[kind](piece, readBlock(piece)?.total ?? 1);
    return this.changePlan({ extras: [...this.plan.extras, { kind, after, bytes }], order: this.plainOrder });
  }

  async find() {
    const result = byId('find-result');
    const { session } = this;
    if (!session.wrong || this.board.flash > SEARCH_FLASH || session.arrivals.length === 0) {
      setText(result, text.wrong.tooLarge);
      return;
    }
    this.player.pause();
    byId('find').disabled = true;
    const found = await session.search(byId('goal').value, LIMITS, ({ tried, depth }) => {
      setText(result, text.wrong.searching(tried, depth));
      return session === this.session;
    });
    byId('find').disabled = false;
    if (session !== this.session) return;
    if (!found) {
      setText(result, text.wrong.notFound(LIMITS.depth));
      return;
    }
    const extras = [...new Set([...this.plan.extras, ...found.flatMap(({ extra }) => (extra ? [extra] : []))])];
    const list = found.map(({ piece, extra }) => (extra ? { extra: extras.indexOf(extra) } : { piece }));
    await this.changePlan({ order: 'list', extras, list });
    await this.goTo(found.length);
    setText(result, text.wrong.found(found.length));
  }

  // ---- The list, for the player

  get length() {
    return this.session ? this.session.arrivals.length : 0;
  }

  get position() {
    return this.session ? this.session.position : 0;
  }

  async goTo(target) {
    const { session } = this;
    await session.moveTo(target, () => {
      setText(byId('position'), text.controls.busy(session.position, this.length));
      return session === this.session;
    });
    if (session === this.session && !session.moving) this.render();
  }

  // ---- What is seen

  showChoices() {
    byId('lesson').value = this.lessonId;
    byId('wrong-choice').value = this.wrongId ?? '';
    setText(byId('lesson-text'), this.lessonId === 'own' ? this.title || text.lesson.ownText : text.lesson.items[this.lessonId].text);
    const orders = Object.entries(text.setup.orders).filter(([id]) => id !== 'list' || this.plan.order === 'list');
    fillSelect(byId('order'), orders, this.plan.order);
    byId('seed').value = this.plan.seed;
    byId('seed').disabled = this.plan.order !== 'shuffled';
    const items = this.plan.extras.map((extra, k) => this.mixItem(extra, k));
    byId('mix-list').replaceChildren(...(items.length ? items : [element('li', { textContent: text.setup.mixNone })]));
    const line = commandLine(text.setup.savedName, this.board);
    setText(byId('save-hint'), line ? text.setup.saveHint(line) : '');
    const wrong = this.session.chosen;
    byId('wrong').hidden = !wrong;
    if (!wrong) return;
    const isYours = wrong.id === 'yours';
    byId('wrong-about').hidden = byId('wrong-find').hidden = isYours;
    setText(byId('wrong-stamp'), isYours ? text.yours.mark : text.wrong.mark);
    byId('wrong').classList.toggle('yours', isYours);
    this.service.stampWrong(isYours);
    const words = isYours ? { name: text.yours.title, does: text.yours.beside, promise: '' } : text.wrong.items[wrong.id];
    setText(byId('wrong-name'), words.name);
    setText(byId('wrong-does'), words.does);
    setText(byId('wrong-edit'), wrong.edit ?? '');
    setText(byId('wrong-promise'), words.promise);
  }

  // What is wrong with the file itself, for all receivers.
  showFault({ checked }) {
    const fault = byId('file-fault');
    setText(fault, faultWords(checked));
    fault.hidden = fault.textContent === '';
  }

  mixItem(extra, k) {
    const name = text.setup.mixItem(text.setup.extras[extra.kind], extra.after);
    const remove = element('button', { textContent: '✕', 'aria-label': text.setup.mixRemove(name), title: text.setup.mixRemove(name) });
    remove.addEventListener('click', () => this.changePlan({ extras: this.plan.extras.filter((_, i) => i !== k), order: this.plainOrder }));
    return element('li', {}, `${name} `, remove);
  }

  pageBlocks(step) {
    const { length } = this.plan.pieces;
    this.firstBlock = Math.max(0, Math.min(Math.floor((length - 1) / BLOCKS) * BLOCKS, this.firstBlock + step));
    this.showBlocks();
  }

  // How often a piece of the file is sent.
  timesOf(k) {
    if (this.plan.order === 'list') return this.plan.list.filter((item) => item.piece === k).length;
    return this.plan.times.get(k) ?? 1;
  }

  showBlocks() {
    const { pieces } = this.plan;
    const to = Math.min(pieces.length, this.firstBlock + BLOCKS);
    const file = this.session.files[0].read(this.session.proved.receiver);
    // the first pages alone have names of their own
    this.pageNames = file.sample ? pageNames(file.total).slice(0, NAMED) : [];
    const buttons = [];
    for (let k = this.firstBlock; k < to; k++) buttons.push(this.blockButton(k));
    byId('blocks').replaceChildren(...buttons);
    byId('block-pager').hidden = pieces.length <= BLOCKS;
    setText(byId('blocks-range'), text.blocks.range(this.firstBlock, to - 1, pieces.length));
  }

  blockButton(k) {
    const times = this.timesOf(k);
    const number = readBlock(this.plan.pieces[k])?.number ?? k;
    const name = this.pageNames[number] ? text.pages[this.pageNames[number]] : '';
    const label = blockLabel(number, times, name);
    const mark = times === 0 ? '✕' : times === 1 ? '' : `×${times}`;
    const parts = [element('span', {}, String(number), element('small', { textContent: mark })), ...(name ? [element('small', { className: 'page-name', textContent: name })] : [])];
    const button = element('button', { className: 'block', 'aria-label': label, title: label, 'data-times': times, 'data-block': number }, ...parts);
    button.addEventListener('click', async () => {
      const all = this.plan.order === 'list' ? new Map(this.plan.pieces.map((_, i) => [i, this.timesOf(i)])) : new Map(this.plan.times);
      all.set(k, times === 1 ? 2 : times === 0 ? 1 : 0);
      await this.changePlan({ times: all, order: this.plainOrder });
      byId('blocks').querySelectorAll('button')[k - this.firstBlock]?.focus();
    });
    return button;
  }

  render() {
    const { session } = this;
    if (byId('view-transfer').hidden) return;
    setText(byId('position'), text.controls.position(this.position, this.length));
    this.panels.proved.show(session, session.proved);
    if (session.wrong) this.panels.wrong.show(session, session.wrong);
    const difference = session.firstDifference();
    setText(byId('wrong-difference'), difference < 0 ? text.wrong.noDifference : text.wrong.firstDifference(difference + 1));
    this.showLog();
    this.player.refresh();
    this.service.reset(session);
  }

  // The whole file once more, after what was sent already.
  async sendAgain() {
    const before = this.session.arrivals.map(({ piece, extra }) => (piece === undefined ? { extra } : { piece }));
    const list = [...before, ...this.plan.pieces.map((_, piece) => ({ piece }))];
    await this.changePlan({ order: 'list', list });
    await this.goTo(list.length);
    this.service.start();
  }

  // What a hand-in answered, which a scenario of the marker tells.
  handInAnswer(k) {
    if (k >= this.position || this.answers[k] === undefined) return text.log.notYet;
    const words = answerWords(this.answers[k], false);
    return this.answers[k] === this.session.proved.answers[k] ? words : `${words} ≠`;
  }

  showLog() {
    const { session } = this;
    const columns = text.log.columns;
    const heads = [columns.arrival, columns.block, columns.family, columns.address, columns.answer, columns.count];
    if (session.wrong) heads.push(session.chosen.id === 'yours' ? columns.yours : columns.wrong);
    if (this.answers.length > 0) heads.push(columns.handIn);
    const answer = (run, k) => (k < this.position ? answerWords(run.answers[k], run.discards[k] === 1) : text.log.notYet);
    const { from, to } = fillTable(byId('log'), heads, this.length, this.position, (k) => {
      const { block, family, address } = blockWords(session.arrivals[k].bytes);
      const came = k < this.position;
      const cells = [String(k + 1), block, family, address, answer(session.proved, k), came ? String(session.proved.counts[k]) : text.log.notYet];
      let differs = false;
      if (session.wrong) {
        differs = came && (session.proved.answers[k] !== session.wrong.answers[k] || session.proved.discards[k] !== session.wrong.discards[k]);
        cells.push(differs ? `${answer(session.wrong, k)} ≠` : answer(session.wrong, k));
      }
      if (this.answers.length > 0) cells.push(this.handInAnswer(k));
      return { cells, classes: `${came ? 'came' : 'to-come'}${differs ? ' differs' : ''}`, now: k === this.position - 1 };
    });
    setText(byId('log-shown'), to - from < this.length ? text.log.shown(from + 1, to, this.length) : '');
  }
}

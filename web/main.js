// The page: its tabs, its keys, files that are dropped on it, and the views.
import { byId, element, fillTexts, fileBytes, forgetAside, setText } from './views/dom.js';
import { PrintChoice } from './views/handout.js';
import { LanguageView, useKept } from './views/language.js';
import { TransferView } from './views/transfer.js';
import { HexView } from './views/hex.js';
import { TraceView } from './views/trace.js';
import { YoursView } from './views/yours.js';
import { looksLikeTrace } from './trace.js';
import { isBlock, piecesOf } from './block.js';
import { newBoard } from './board.js';
import { Libraries, fromBase64 } from './wasm.js';
import { isWorker, serve } from './worker.js';
import { text } from './text.js';

const NAMES = ['transfer', 'hex', 'trace', 'yours'];
const MOST_DROPPED = 256 * 1024 * 1024;

function say(words) {
  setText(byId('notice-words'), words);
  byId('notice').hidden = words === '';
}

class Page {
  constructor(libraries) {
    this.shown = 'transfer';
    const transfer = new TransferView(libraries, say);
    const show = (pieces, name) => {
      this.open('transfer');
      return transfer.openPieces(pieces, name, false);
    };
    const trace = new TraceView(libraries, say, () => transfer.board ?? newBoard(), show);
    const yours = new YoursView(libraries, {
      show: (code) => {
        this.open('transfer');
        return transfer.showYours(code);
      },
      play: (code, list) => {
        this.open('transfer');
        return transfer.openYours(code, list);
      },
    });
    this.views = { transfer, hex: new HexView(libraries, say), trace, yours };
    for (const name of NAMES) byId(`tab-${name}`).addEventListener('click', () => this.open(name));
    byId('tabs').addEventListener('keydown', (event) => this.tabKey(event));
    byId('notice-close').addEventListener('click', () => say(''));
    const choice = new PrintChoice((filled) => (this.shown === 'transfer' ? transfer.handout(filled) : null));
    byId('print').addEventListener('click', () => (this.shown === 'transfer' ? choice.ask() : window.print()));
    transfer.onYours = (code) => yours.setCode(code, text.yours.opened(text.scenario.itsFile));
    byId('smaller').addEventListener('click', () => this.resize(1 / 1.1));
    byId('larger').addEventListener('click', () => this.resize(1.1));
    byId('keys').replaceChildren(...Object.values(text.help.keys).flatMap(({ key, does }) => [element('dt', {}, element('kbd', { textContent: key })), element('dd', { textContent: does })]));
  }

  open(name) {
    this.shown = name;
    for (const other of NAMES) {
      const tab = byId(`tab-${other}`);
      tab.setAttribute('aria-selected', other === name);
      tab.tabIndex = other === name ? 0 : -1;
      byId(`view-${other}`).hidden = other !== name;
      if (other !== name) this.views[other].player?.pause();
    }
    say('');
    if (name === 'transfer' && this.views.transfer.session) this.views.transfer.render();
    if (name === 'hex') {
      if (this.views.hex.bytes) this.views.hex.render();
      else this.views.hex.openSample();
    }
  }

  tabKey(event) {
    const step = { ArrowLeft: -1, ArrowRight: 1 }[event.key];
    if (!step) return;
    event.preventDefault();
    event.stopPropagation();
    const next = NAMES[(NAMES.indexOf(this.shown) + step + NAMES.length) % NAMES.length];
    this.open(next);
    byId(`tab-${next}`).focus();
  }

  // Keys of the player, wherever no field or button needs them.
  key(event) {
    if (event.ctrlKey || event.metaKey || event.altKey) return;
    const { tagName, type } = event.target;
    if (['SELECT', 'TEXTAREA'].includes(tagName) || (tagName === 'INPUT' && type !== 'checkbox')) return;
    if (event.key === ' ' && ['BUTTON', 'INPUT', 'SUMMARY', 'CANVAS'].includes(tagName)) return;
    this.views[this.shown].player?.key(event);
  }

  resize(factor) {
    const root = document.documentElement;
    const size = parseFloat(getComputedStyle(root).fontSize) * factor;
    root.style.fontSize = `${Math.max(12, Math.min(40, size))}px`;
    window.dispatchEvent(new Event('resize'));
  }

  // A dropped file is opened by what it is: hex, UF2 or a trace; where it is none, the view that is shown says so.
  async drop(event) {
    event.preventDefault();
    const file = event.dataTransfer?.files[0];
    if (!file) return;
    if (file.size > MOST_DROPPED) return say(text.files.tooLong(file.name));
    const bytes = await fileBytes(file).catch(() => null);
    if (!bytes) return say(text.files.unreadable(file.name));
    await this.openBytes(bytes, file.name);
  }

  // JSON is a scenario or a file of texts.
  async openJson(words, name) {
    let said = null;
    try {
      said = JSON.parse(words);
    } catch {
      said = null;
    }
    this.open('transfer');
    if (said && typeof said.language === 'string' && said.vantorel === undefined) return this.language.openWords(words);
    return this.views.transfer.openScenarioWords(words, name);
  }

  async openBytes(bytes, name) {
    if (bytes[0] === 123) return this.openJson(new TextDecoder().decode(bytes), name);
    const { transfer, hex, trace } = this.views;
    const pieces = piecesOf(bytes.subarray(0, 64 * 512));
    const isUf2 = pieces.some(isBlock);
    const kind = bytes[0] === 58 ? 'hex' : isUf2 ? 'transfer' : looksLikeTrace(bytes) ? 'trace' : this.shown;
    this.open(kind);
    if (kind === 'hex') return hex.openBytes(bytes, name);
    if (kind === 'trace') return trace.openBytes(bytes, name);
    return transfer.openPieces(piecesOf(bytes), name);
  }
}

// The page drawn in the language that is in use, in place of what was drawn before.
class Drawn {
  constructor(libraries) {
    this.libraries = libraries;
    this.blank = byId('page').cloneNode(true);
    document.addEventListener('keydown', (event) => this.page.key(event));
    document.addEventListener('dragover', (event) => event.preventDefault());
    document.addEventListener('drop', (event) => this.page.drop(event));
    window.addEventListener('hashchange', () => location.hash.startsWith('#s=') && this.page.views.transfer.openLink(location.hash));
  }

  draw() {
    forgetAside();
    byId('page').replaceWith(this.blank.cloneNode(true));
    fillTexts(document);
    document.title = text.page.title;
    document.documentElement.lang = text.language;
    this.page = new Page(this.libraries);
    this.page.language = new LanguageView(() => this.again());
    this.page.open('transfer');
    return this.page;
  }

  // In another language: the same lesson or list at the same position.
  async again() {
    const before = this.page.views.transfer;
    const { board, plan, wrongId, lessonId, title, answers, position, ownFlash, yours, fileWords } = before;
    before.close();
    const { transfer } = this.draw().views;
    Object.assign(transfer, { board, ownFlash, yours, wrongId: null });
    transfer.fillWrong();
    await transfer.change({ board, plan, wrongId, title, answers, fileWords }, lessonId);
    await transfer.goTo(position);
    byId('languages').open = true;
    return this.page.language;
  }
}

async function startPage() {
  useKept();
  fillTexts(document);
  window.addEventListener('unhandledrejection', ({ reason }) => say(text.page.trouble(String(reason))));
  window.addEventListener('error', ({ message }) => say(text.page.trouble(message)));
  if (typeof WebAssembly !== 'object') return say(text.page.noWasm);
  const module = await WebAssembly.compile(fromBase64(byId('library').textContent.trim())).catch(() => null);
  if (!module) return say(text.page.noWasm);
  const { transfer } = new Drawn(new Libraries(module)).draw().views;
  if (location.hash.startsWith('#s=')) await transfer.openLink(location.hash);
  else await transfer.openLesson('lostPage');
  document.documentElement.dataset.ready = 'yes';
}

export function start() {
  if (isWorker()) serve();
  else startPage();
}

// The language of the page: one of those inside it, or a file of texts that is opened. Kept in this browser where that is allowed.
import { byId, fillSelect, onFile, saveFile, setText } from './dom.js';
import { ENGLISH, LANGUAGES, text, useTexts } from '../text.js';

const STORED = 'vantorel-language';
const MOST_FILE = 1048576;
const NAMED = 6;

function kept() {
  try {
    return JSON.parse(localStorage.getItem(STORED));
  } catch {
    return null;
  }
}

function keep(own) {
  try {
    localStorage.setItem(STORED, JSON.stringify(own));
  } catch {
    // a browser that keeps nothing is as good
  }
}

// Why a file is none of texts, or ''.
function faultOf(own) {
  if (typeof own !== 'object' || own === null || typeof own.language !== 'string' || typeof own.name !== 'string') return text.languages.none;
  try {
    return Intl.NumberFormat.supportedLocalesOf(own.language) ? '' : text.languages.none;
  } catch {
    return text.languages.none;
  }
}

let opened = null;

// The language that was used last in this browser. What does not fit stays English.
export function useKept() {
  const own = kept();
  if (own && faultOf(own) === '') {
    opened = own;
    useTexts(own);
  }
}

// What is said of a file whose texts are not all there.
function fitWords({ missing, unknown, unfit }) {
  const named = (keys) => keys.slice(0, NAMED).join(', ') + (keys.length > NAMED ? ', ..' : '');
  const lines = [];
  if (missing.length > 0) lines.push(text.languages.missing(missing.length, named(missing)));
  if (unknown.length > 0) lines.push(text.languages.unknown(unknown.length, named(unknown)));
  if (unfit.length > 0) lines.push(text.languages.unfit(unfit.length, named(unfit)));
  return lines.join(' ');
}

export class LanguageView {
  // `rebuild()` draws the page anew in the language that is in use.
  constructor(rebuild) {
    this.rebuild = rebuild;
    const inside = LANGUAGES.map(({ language, name }) => [language, name]);
    const own = opened && !inside.some(([code]) => code === opened.language) ? [[opened.language, opened.name]] : [];
    fillSelect(byId('language'), [...inside, ...own], opened?.language ?? 'en');
    byId('language').addEventListener('change', () => this.use(LANGUAGES.find(({ language }) => language === byId('language').value) ?? opened));
    onFile('language-file', (file) => this.open(file));
    byId('language-save').addEventListener('click', () => saveFile('texts.json', [JSON.stringify(ENGLISH, null, 2), '\n']));
  }

  say(words) {
    setText(byId('language-note'), words);
  }

  async open(file) {
    if (file.size > MOST_FILE) return this.say(text.languages.none);
    const words = await file.text().catch(() => '');
    return this.openWords(words);
  }

  async openWords(words) {
    let own = null;
    try {
      own = JSON.parse(words);
    } catch {
      own = null;
    }
    const fault = faultOf(own);
    if (fault) return this.say(fault);
    return this.use(own);
  }

  async use(own) {
    const fit = useTexts(own);
    opened = own;
    keep(own);
    const next = await this.rebuild();
    next.say(fitWords(fit));
  }
}

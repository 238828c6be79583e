// Every word that the page shows: those of web/texts/en.json and words/answers.tsv, and over them those of another language's file (texts.js). What the files have
// no word for (numbers of answers, hex, names of families and edits) is the same in all languages.
import { TEXTS } from './alltexts.js';
import { TABLES } from './answers.js';
import { reasonsOf, sentencesOf } from './sentences.js';
import { built, overlay } from './texts.js';
import { CASES, MISTAKES } from './teaching.js';
import { casesFrom } from './cases.js';

const SHOWN = ['answer', 'line', 'store', 'cause', 'mark', 'lacks'];

// What is said of the known mistakes and of the cases that a page plays.
function teachingWords() {
  const mistakes = MISTAKES.filter(({ forms }) => forms.includes('page')).map(({ id, name, does, right, danger }) => [id, { name, does, right, danger }]);
  return { mistakes: Object.fromEntries(mistakes), cases: Object.fromEntries(casesFrom(CASES).map(({ name, asks }) => [name, asks])) };
}

// The English texts, with the words of the tables and of teaching/ in them, so that these can be translated as well.
function withTables(tree) {
  const wordsOf = (table) => Object.fromEntries(Object.entries(TABLES[table]).map(([number, { words }]) => [number.replace('.', ' '), words]));
  const tables = Object.fromEntries(SHOWN.map((table) => [table, wordsOf(table)]));
  return { ...tree, tables: { unit: { byte: 'byte', bytes: 'bytes' }, ...tables }, teaching: teachingWords() };
}

export const ENGLISH = withTables(TEXTS.en);

const namesOf = (table) => Object.fromEntries(Object.entries(TABLES[table]).flatMap(([number, { name }]) => (/^\d+$/.test(number) ? [[number, name]] : [])));

// The words in use; `useTexts` fills it anew, so that no module may keep a part of it.
export const text = {};

// Uses the texts of a language's file, or the English ones. Returns what does not fit: the keys that are missing, unknown or have other blanks.
export function useTexts(own = null) {
  const { tree, missing, unknown, unfit } = overlay(ENGLISH, own ?? ENGLISH, ['teaching']);
  const { tables } = tree;
  const words = built(ENGLISH, tree);
  words.answer = { ...words.answer, names: namesOf('answer'), meanings: sentencesOf(tables.answer) };
  words.hex = { ...words.hex, names: namesOf('line'), meanings: sentencesOf(tables.line) };
  words.setup = { ...words.setup, storeRefused: Object.fromEntries(Object.entries(sentencesOf(tables.store)).map(([k, why]) => [k, words.setup.storeNotRead(why)])) };
  words.reasons = reasonsOf(tables, tree.language);
  for (const name of Object.keys(text)) delete text[name];
  Object.assign(text, words);
  return { missing, unknown, unfit };
}

// The languages inside the page, by their names for themselves.
export const LANGUAGES = Object.values(TEXTS);

useTexts();

// How a file of texts becomes the words of the page. A text may have blanks: {0} is the first value, {0.total} a part of it, and after a colon stands how it is
// written ({0:hex}). A text by number has a form for each plural that the language has: { "one": "..", "other": ".." }, by {0} or by what "by" names. Pure functions.
import { hex } from './bytes.js';

const BLANK = /\{(\d+)((?:\.\w+)*)(?::(\w+))?\}/g;

const FORMS = ['by', 'zero', 'one', 'two', 'few', 'many', 'other'];

export function isPlural(part) {
  return typeof part === 'object' && part !== null && typeof part.other === 'string' && Object.keys(part).every((form) => FORMS.includes(form));
}

// The blanks of a text in the order of the alphabet, each once.
export function blanksOf(words) {
  return [...new Set([...words.matchAll(BLANK)].map(([blank]) => blank))].sort();
}

// Everything between braces, so that the blanks of the tables ({got bytes}) are held too.
function bracesOf(words) {
  return [...new Set(words.match(/\{[^{}]*\}/g) ?? [])].sort();
}

// Every text of a tree by its path, such as "verdict.going": a string, or the forms of a text by number.
export function flat(tree, path = '') {
  const found = new Map();
  for (const [name, part] of Object.entries(tree)) {
    const key = path ? `${path}.${name}` : name;
    if (typeof part === 'string' || isPlural(part)) found.set(key, part);
    else if (typeof part === 'object' && part !== null) for (const [inner, words] of flat(part, key)) found.set(inner, words);
    else found.set(key, null);
  }
  return found;
}

// Whether a translation has the blanks of the text: all of them, and in a form of a text by number some of them.
function fits(own, english) {
  if (isPlural(english)) {
    if (!isPlural(own)) return false;
    const known = new Set(Object.entries(english).flatMap(([form, words]) => (form === 'by' ? [] : bracesOf(words))));
    return Object.entries(own).every(([form, words]) => form === 'by' || (typeof words === 'string' && bracesOf(words).every((blank) => known.has(blank))));
  }
  return typeof own === 'string' && bracesOf(own).join() === bracesOf(english).join();
}

// The texts of another language over the English ones: the tree, and the keys that it lacks, that are unknown, and whose blanks do not fit. These stay English.
// Keys under a part that is `optional` may be lacking without a word.
export function overlay(english, own, optional = []) {
  const known = flat(english);
  const said = flat(own);
  const told = { missing: [], unknown: [], unfit: [] };
  for (const [key, words] of said) {
    if (!known.has(key)) told.unknown.push(key);
    else if (!fits(words, known.get(key))) told.unfit.push(key);
  }
  const unfit = new Set(told.unfit);
  for (const key of known.keys()) if (!said.has(key) && !optional.some((part) => key.startsWith(`${part}.`))) told.missing.push(key);
  const merged = (tree, path) =>
    Object.fromEntries(
      Object.entries(tree).map(([name, part]) => {
        const key = path ? `${path}.${name}` : name;
        if (!known.has(key)) return [name, merged(part, key)];
        const words = said.get(key);
        return [name, words === undefined || unfit.has(key) ? part : isPlural(part) ? { ...(part.by ? { by: part.by } : {}), ...words } : words];
      }),
    );
  return { tree: merged(english, ''), ...told };
}

// How values are written in a language. `units` are texts by number that a blank may name, `into` the words for a memory.
function writers(language, tree) {
  const decimal = new Intl.NumberFormat(language);
  const tenths = new Intl.NumberFormat(language, { minimumFractionDigits: 1, maximumFractionDigits: 1 });
  const plain = (x) => (typeof x === 'number' || typeof x === 'bigint' ? decimal.format(x) : String(x));
  return {
    default: plain,
    plain: String,
    hex: (x) => (typeof x === 'number' ? hex(x) : String(x)),
    hex4: (x) => hex(x, 4),
    seconds: (x) => tenths.format(x / 1000),
    tenths: (x) => tenths.format(x),
    into: (memory) => tree.state.into[memory],
  };
}

// The tree with a function for each text that has blanks in English, and for each text by number.
export function built(english, tree) {
  const write = writers(tree.language, tree);
  const plurals = new Intl.PluralRules(tree.language);
  const valueOf = (args, at, path) => path.split('.').filter(Boolean).reduce((part, name) => part?.[name], args[Number(at)]);
  const fill = (words, args) => words.replace(BLANK, (_, at, path, how) => (write[how] ?? write.default)(valueOf(args, at, path)));
  const counted = (forms) => (...args) => {
    const [at, ...path] = (forms.by ?? '0').split('.');
    const number = Number(valueOf(args, at, path.join('.')));
    return fill(forms[plurals.select(number)] ?? forms.other, args);
  };
  for (const [name, forms] of Object.entries(tree.units)) write[name] = counted(forms);
  const make = (part, words) => {
    if (isPlural(part)) return counted(words);
    if (typeof part === 'string') return blanksOf(part).length > 0 ? (...args) => fill(words, args) : words;
    return Object.fromEntries(Object.entries(part).map(([name, inner]) => [name, make(inner, words[name])]));
  };
  return make(english, tree);
}

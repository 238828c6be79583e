// The words of answers, causes and refusals, which the tool prints too (words/answers.tsv), as sentences in the page's language. Pure functions of the tables.
import { FAMILY } from './board.js';
import { hex } from './bytes.js';

// A sentence of the table with its capital letter and its full stop.
function sentence(words) {
  return `${words[0].toUpperCase()}${words.slice(1)}.`;
}

// A table by its numbers; of those with two meanings, such as 36.output, the first.
function column(table, of) {
  return Object.fromEntries(Object.entries(table).flatMap(([number, words]) => (/^\d+$/.test(number) ? [[number, of(words)]] : [])));
}

export const sentencesOf = (table) => column(table, sentence);

function familyWords(number) {
  const name = Object.keys(FAMILY).find((key) => BigInt(FAMILY[key]) === number);
  return name ? `${name} (${hex(number)})` : hex(number);
}

// Why an arrival was answered as it was, by the number of the condition that decided (row x 100 + condition). What stands between braces in a sentence is a
// number that is told, as the words after its name say.
export function reasonsOf(tables, language) {
  const decimal = new Intl.NumberFormat(language);
  const bytes = (x) => `${decimal.format(x)} ${x === 1n ? tables.unit.byte : tables.unit.bytes}`;
  // where an address in no window is a RAM's, the board lacks that RAM
  const lacks = (address) => {
    if (address >= 0x20000000n && address < 0x20082000n) return tables.lacks.main;
    return address >= 0x13ffc000n && address < 0x14000000n ? tables.lacks.xip : '';
  };
  const written = { bytes, hex: (x) => hex(x), flag: (x) => hex(x, 4), family: familyWords, lacks };
  const changed = { page: (x) => x + 0x10000000n - 256n, pages: (x) => x / 256n };
  const markWords = (marks) =>
    marks
      .map((mark, k) => (mark === 0 ? '' : (tables.mark[mark] ?? `partition {entry} has the UNKNOWN MARK ${mark}`).replace('{entry}', k)))
      .filter((part) => part !== '')
      .join(', ');
  const valueWords = (what, reason) => {
    const [name, ...filters] = what.split(' ');
    if (name === 'marks') return markWords(reason.marks);
    let x = BigInt(reason[name]);
    for (const filter of filters) {
      if (filter in written) return written[filter](x);
      x = changed[filter](x);
    }
    return decimal.format(x);
  };
  return column(tables.cause, (words) => (reason) => sentence(words.replace(/\{([^}]*)\}/g, (_, what) => valueWords(what, reason))));
}

// A long table of which a window of rows around the current one is shown.
import { element } from './dom.js';

const ROWS = 120;

// The rows to be shown, of so many, around a current one.
export function windowOf(count, current) {
  if (count <= ROWS) return { from: 0, to: count };
  const from = Math.max(0, Math.min(count - ROWS, current - Math.floor(ROWS / 2)));
  return { from, to: from + ROWS };
}

// Fills a table: heads, and for each row of the window an object of { cells, classes, current }.
export function fillTable(table, heads, count, current, row) {
  const { from, to } = windowOf(count, current);
  const rows = [];
  for (let k = from; k < to; k++) {
    const { cells, classes = '', now = false } = row(k);
    const made = element('tr', { className: classes }, ...cells.map((cell) => element('td', typeof cell === 'string' ? { textContent: cell } : cell)));
    if (now) made.setAttribute('aria-current', 'true');
    rows.push(made);
  }
  table.replaceChildren(element('thead', {}, element('tr', {}, ...heads.map((head) => element('th', { textContent: head, scope: 'col' })))), element('tbody', {}, ...rows));
  const now = table.querySelector('[aria-current]');
  const box = table.parentElement;
  if (now) box.scrollTop = Math.max(0, now.offsetTop - box.clientHeight / 2);
  else box.scrollTop = 0;
  return { from, to };
}

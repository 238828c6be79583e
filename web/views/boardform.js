// The form for a board: flash, RAM, switches and partitions, or a packed store.
import { byId, element, fileBytes, fillSelect, onFile, setText } from './dom.js';
import { LINK, SECTOR, newEntry, settingsFrom } from '../board.js';
import { N } from '../numbers.js';
import { familyFrom, familyName } from '../words.js';
import { text } from '../text.js';

const SWITCHES = { main: 'main', xip: 'xip', arm: 'arm', riscv: 'riscv', autoSwitch: 'auto-switch', absolute: 'absolute' };

function numberBox(value, label) {
  return element('input', { type: 'number', min: 0, value, 'aria-label': label });
}

function tick(checked, label) {
  const box = element('input', { type: 'checkbox', checked });
  return { box, label: element('label', {}, box, ` ${label}`) };
}

export class BoardForm {
  constructor(libraries, onApply) {
    this.libraries = libraries;
    fillSelect(byId('lent'), Object.entries(text.setup.lents));
    fillSelect(byId('current'), Object.entries(text.setup.archs));
    byId('add-entry').addEventListener('click', () => {
      this.entries.push(newEntry({ first: this.entries.reduce((end, e) => Math.max(end, e.first + e.sectors), 0) }));
      this.showEntries();
    });
    byId('apply').addEventListener('click', () => {
      const board = this.read();
      if (board) onApply(board);
    });
    onFile('store', (file) => this.readStore(file));
  }

  note(words) {
    setText(byId('board-note'), words);
  }

  show(board) {
    byId('flash').value = board.flash;
    byId('lent').value = board.lent;
    byId('current').value = board.current;
    for (const [name, id] of Object.entries(SWITCHES)) byId(id).checked = board[name];
    this.entries = board.entries.map((entry) => ({ ...entry }));
    this.showEntries();
    this.note('');
  }

  showEntries() {
    const table = byId('entries');
    this.rows = [];
    if (this.entries.length === 0) {
      table.replaceChildren(element('tbody', {}, element('tr', {}, element('td', { textContent: text.setup.tableNone }))));
      return;
    }
    const heads = Object.values(text.setup.entry).filter((words) => words !== text.setup.entry.index);
    table.replaceChildren(
      element('thead', {}, element('tr', {}, ...heads.map((words) => element('th', { textContent: words, scope: 'col' })), element('th', {}))),
      element('tbody', {}, ...this.entries.map((entry, k) => this.entryRow(entry, k))),
    );
  }

  entryRow(entry, k) {
    const words = text.setup.entry;
    const first = numberBox(entry.first, `${words.first} ${k}`);
    const sectors = numberBox(entry.sectors, `${words.sectors} ${k}`);
    const accepts = Object.entries(text.setup.accepts).map(([name, label]) => [name, tick(entry[name], label)]);
    const marks = Object.entries(text.setup.notBootable).map(([name, label]) => [name, tick(entry[name], label)]);
    const users = element('input', { value: entry.users.map(familyName).join(' '), 'aria-label': `${words.users} ${k}`, size: 12 });
    const link = element('select', { 'aria-label': `${words.link} ${k}` });
    fillSelect(link, Object.entries(text.setup.links), entry.link);
    const index = numberBox(entry.index, `${words.link} ${words.index} ${k}`);
    const remove = element('button', { textContent: '✕', 'aria-label': text.setup.removeEntry(k), title: text.setup.removeEntry(k) });
    remove.addEventListener('click', () => {
      this.entries = this.readEntries();
      this.entries.splice(k, 1);
      this.showEntries();
    });
    this.rows.push({ entry, first, sectors, accepts, marks, users, link, index });
    const cell = (...parts) => element('td', {}, ...parts);
    const labels = (ticks) => ticks.map(([, { label }]) => label);
    const cells = [[String(k)], [first], [sectors], labels(accepts), [users], labels(marks), [link, index], [remove]];
    return element('tr', {}, ...cells.map((parts) => cell(...parts)));
  }

  readEntries() {
    return this.rows.map((row) =>
      newEntry({
        ...row.entry,
        first: Number(row.first.value),
        sectors: Number(row.sectors.value),
        ...Object.fromEntries([...row.accepts, ...row.marks].map(([name, { box }]) => [name, box.checked])),
        users: row.users.value.split(/[\s,]+/).filter(Boolean).map(familyFrom),
        link: row.link.value in LINK ? row.link.value : 'none',
        index: Number(row.index.value) & 255,
      }),
    );
  }

  // The board that the form says, or null with a sentence beside it.
  read() {
    const flash = Number(byId('flash').value);
    if (!(flash >= SECTOR && flash <= N.UF2_FLASH_MAX_SIZE && flash % SECTOR === 0)) {
      this.note(text.setup.badFlash);
      return null;
    }
    const entries = this.readEntries();
    if (entries.some((entry) => entry.users.includes(null))) {
      this.note(text.setup.badFamily);
      return null;
    }
    const board = { flash, lent: byId('lent').value, current: byId('current').value, entries };
    for (const [name, id] of Object.entries(SWITCHES)) board[name] = byId(id).checked;
    this.note('');
    return board;
  }

  // Settings from a packed store, by the proved library, for the flash that the form says.
  async readStore(file) {
    const bytes = await fileBytes(file);
    await this.libraries.use((library) => this.readStoreWith(library, bytes));
  }

  readStoreWith(library, bytes) {
    if (!library.has('uf2_store_read')) {
      this.note(text.setup.storeMissing);
      return;
    }
    const store = library.lend(bytes.length);
    store.bytes.set(bytes);
    const settings = library.lend(N.UF2_SETTINGS_SIZE);
    const answer = library.call('uf2_store_read', store, BigInt(byId('flash').value), settings);
    if (answer !== 0) {
      this.note(text.setup.storeRefused[answer]);
      return;
    }
    const read = settingsFrom(settings.bytes);
    this.show({ ...this.read(), ...read });
    this.note(text.setup.storeRead(read.entries.length));
  }
}

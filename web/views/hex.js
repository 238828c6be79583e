// The view of a Universal Hex file: each line, the section it is in, what each reader answers and where the data goes.
import { byId, element, fileBytes, fillSelect, letters, onFile, refuser, setText } from './dom.js';
import { Player } from './player.js';
import { fillTable } from './table.js';
import { HexFile } from '../hexlines.js';
import { joinHex, plainHex } from '../maker.js';
import { inSlices } from '../slices.js';
import { N } from '../numbers.js';
import { text } from '../text.js';

const READERS = ['v1', 'v2', 'wrong'];

function sampleFile(library) {
  const encoder = new TextEncoder();
  const program = (board, count) => encoder.encode(`Firmware for board ${board}. `.repeat(count));
  return joinHex(library, plainHex(program('V1', 4), 0), plainHex(program('V2', 5), 0)).file;
}

export class HexView {
  constructor(libraries, say) {
    this.libraries = libraries;
    this.say = say;
    this.refuse = refuser(say, 'hex-note');
    this.position = 0;
    this.opened = 0;
    this.panels = Object.fromEntries(READERS.map((name) => [name, this.panel(`hex-${name}`)]));
    this.player = new Player({ start: 'hex-start', back: 'hex-back', play: 'hex-play', step: 'hex-step', end: 'hex-end', speed: 'hex-speed' }, this);
    fillSelect(byId('hex-own'), Object.entries(text.hex.boards));
    byId('hex-sample').addEventListener('click', () => this.openSample());
    onFile('hex-file', (file) => this.openFile(file));
    for (const id of ['hex-own', 'hex-image']) byId(id).addEventListener('change', () => this.read());
  }

  panel(id) {
    const parts = { number: element('span', { className: 'number' }), name: element('span', { className: 'answer-name' }), reason: element('p', { className: 'reason' }) };
    parts.stored = element('p', { className: 'state' });
    parts.end = element('p', { className: 'verdict', role: 'status' });
    parts.image = element('p', { className: 'image-words' });
    byId(id)
      .querySelector('.slot')
      .replaceChildren(element('div', { className: 'answer' }, element('p', {}, parts.number, ' ', parts.name), parts.reason), parts.stored, parts.end, parts.image);
    return parts;
  }

  async openSample() {
    this.bytes = await this.libraries.use(sampleFile);
    this.name = text.hex.sample;
    await this.read();
  }

  async openFile(file) {
    if (file.size > N.UHEX_FILE_MAX_SIZE + 1) return this.refuse(text.files.longHex(file.name));
    const bytes = await fileBytes(file).catch(() => null);
    if (!bytes) return this.refuse(text.files.unreadable(file.name));
    return this.openBytes(bytes, file.name);
  }

  async openBytes(bytes, name) {
    if (bytes.length === 0) return this.refuse(text.files.empty(name));
    if (bytes[0] !== 58) return this.refuse(text.files.noHex(name));
    if (bytes.length > N.UHEX_FILE_MAX_SIZE + 1) return this.refuse(text.files.longHex(name));
    this.bytes = bytes;
    this.name = name;
    this.say('');
    return this.read();
  }

  // Reads the whole file in slices; the position then moves over what was answered.
  async read() {
    if (!this.bytes) return;
    const opened = ++this.opened;
    this.player.pause();
    const size = Math.max(1, Math.min(N.UHEX_IMAGE_MAX_SIZE, Math.floor(Number(byId('hex-image').value)) || 1));
    const library = await this.libraries.take();
    const file = HexFile.open(library, this.bytes, size, byId('hex-own').value);
    const whole = await inSlices(
      (stop) => file.readOn(stop),
      () => {
        setText(byId('hex-position'), text.hex.position(file.read, file.count));
        return opened === this.opened;
      },
    );
    if (!whole || opened !== this.opened) {
      this.libraries.give(library);
      return;
    }
    if (this.library) this.libraries.give(this.library);
    Object.assign(this, { file, library });
    setText(byId('hex-note'), this.name);
    await this.goTo(0);
  }

  get length() {
    return this.file ? this.file.count : 0;
  }

  async goTo(target) {
    this.position = Math.max(0, Math.min(this.length, target));
    this.render();
  }

  sectionWords(k) {
    const { sections, states } = this.file;
    if (sections[k]) return { [N.UHEX_BOARD_V1]: text.hex.boards.v1, [N.UHEX_BOARD_V2]: text.hex.boards.v2 }[sections[k]] ?? text.hex.otherBoard(sections[k]);
    return { [N.UHEX_STATE_OPENED]: text.hex.opened, [N.UHEX_STATE_ENDED]: text.hex.ended, [N.UHEX_STATE_FAILED]: text.hex.failed }[states[k]] ?? text.hex.between;
  }

  answerWords(name, k) {
    const answer = this.file.answers[name][k];
    const position = this.file.positions[name][k];
    const words = `${answer} ${text.hex.names[answer]}`;
    return position ? text.hex.characterAt(words, position) : words;
  }

  render() {
    if (!this.file || byId('view-hex').hidden) return;
    setText(byId('hex-position'), text.hex.position(this.position, this.length));
    const k = this.position - 1;
    setText(byId('hex-line'), k < 0 ? text.hex.nothing : letters(this.file.line(k)).replace(/\.+$/, ''));
    for (const name of READERS) this.showReader(name, k);
    this.showLines();
    this.player.refresh();
  }

  showReader(name, k) {
    const panel = this.panels[name];
    const { file } = this;
    const answer = k < 0 ? null : file.answers[name][k];
    setText(panel.number, answer === null ? '' : String(answer));
    setText(panel.name, answer === null ? text.answer.none : text.hex.names[answer]);
    setText(panel.reason, answer === null ? '' : text.hex.meanings[answer]);
    panel.name.dataset.accepted = answer >= 32 && answer <= 35;
    setText(panel.stored, text.hex.stored(file.stored[name][this.position]));
    setText(panel.end, this.endWords(name, answer));
    const whole = this.position === this.length;
    const stored = file.stored[name][this.length];
    const image = whole ? (stored > 0 ? text.hex.image(letters(file.readers[name].imageBytes.subarray(0, 48))) : text.hex.imageNone) : '';
    setText(panel.image, image);
  }

  endWords(name, answer) {
    if (this.position < this.length || answer === null) return '';
    const { file } = this;
    const parts = [];
    if (answer === N.UHEX_ANSWER_ENDED) parts.push(text.hex.end.whole);
    else if (answer >= N.UHEX_ANSWER_OUTSIDE && answer <= N.UHEX_ANSWER_PASSED) parts.push(text.hex.end.open);
    else parts.push(text.hex.end.failed(answer, text.hex.names[answer], file.answers[name].indexOf(answer) + 1));
    if (file.outside[name][this.length]) parts.push(text.hex.outside(file.outside[name][this.length]));
    if (name === 'wrong' && file.stored.wrong[this.length] > 0) {
      const own = byId('hex-own').value;
      parts.push(text.hex.verdictWrong(text.hex.boards[own], text.hex.boards[own === 'v1' ? 'v2' : 'v1']));
    }
    return parts.join(' ');
  }

  showLines() {
    const { file } = this;
    const columns = text.hex.columns;
    const heads = [columns.line, columns.text, columns.section, columns.goes, columns.v1, columns.v2, columns.wrong];
    const own = byId('hex-own').value;
    const { from, to } = fillTable(byId('hex-lines'), heads, file.count, this.position, (k) => {
      const came = k < this.position;
      const answers = READERS.map((name) => (came ? this.answerWords(name, k) : text.log.notYet));
      const differs = came && file.answers.wrong[k] !== file.answers[own][k];
      if (differs) answers[2] += ' ≠';
      const goes = came && file.addresses[k] >= 0 ? text.hex.goes(file.addresses[k], file.lengths[k]) : '';
      const line = { textContent: letters(file.line(k).subarray(0, 90)).replace(/\.+$/, ''), className: 'code' };
      return { cells: [String(k + 1), line, came ? this.sectionWords(k) : '', goes, ...answers], classes: `${came ? 'came' : 'to-come'}${differs ? ' differs' : ''}`, now: k === this.position - 1 };
    });
    setText(byId('hex-shown'), to - from < file.count ? text.hex.shown(from + 1, to, file.count) : '');
  }
}

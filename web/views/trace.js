// The view of a site's trace: where the replay stops, what was recorded there and what we answer.
import { byId, element, fileBytes, onFile, refuser, setText } from './dom.js';
import { fillTable } from './table.js';
import { CountsArrivals } from '../wrong/counts_arrivals.js';
import { isBlock } from '../block.js';
import { lessonParts, LESSONS } from '../lessons.js';
import { arrivalList } from '../arrivals.js';
import { looksLikeTrace, readRecord, recordBytes, recordsOf } from '../trace.js';
import { replayAside } from '../worker.js';
import { N } from '../numbers.js';
import { answerWords, blockWords, reasonWords, stateWords } from '../words.js';
import { text } from '../text.js';

const MOST_TRACE = 256 * 1024 * 1024;

// What a site with a receiver that counts arrivals would have recorded of lesson 1.
function sampleTrace(library) {
  const { board, plan } = lessonParts(library, LESSONS[0]);
  const site = new CountsArrivals(board, { goodSettings: true, md5: () => new Uint8Array(16) });
  const records = arrivalList(plan).map(({ bytes }) => {
    const { answer, discarded } = site.take(bytes);
    return recordBytes(answer, discarded, bytes);
  });
  return { board, trace: Uint8Array.from(records.flatMap((record) => [...record])) };
}

export class TraceView {
  // `board()` is the board that is set; `show(pieces, name)` shows arrivals in the view of a transfer.
  constructor(libraries, say, board, show) {
    Object.assign(this, { libraries, say, board, show });
    this.opened = 0;
    this.refuse = refuser(say, 'trace-note');
    byId('trace-sample').addEventListener('click', () => this.openSample());
    onFile('trace-file', (file) => this.openFile(file));
    byId('trace-show').addEventListener('click', () => this.show(this.records.map((record) => record.subarray(1)), text.trace.name));
    setText(byId('trace-note'), text.trace.none);
  }

  async openSample() {
    const { board, trace } = await this.libraries.use(sampleTrace);
    await this.replay(trace, text.trace.sampleName, board);
  }

  async openFile(file) {
    if (file.size > MOST_TRACE) return this.refuse(text.files.tooLong(file.name));
    const bytes = await fileBytes(file).catch(() => null);
    if (!bytes) return this.refuse(text.files.unreadable(file.name));
    return this.openBytes(bytes, file.name);
  }

  async openBytes(bytes, name) {
    if (bytes.length === 0) return this.refuse(text.files.empty(name));
    if (isBlock(bytes.subarray(0, N.UF2_ARRIVAL_SIZE))) return this.refuse(text.files.isUf2(name));
    if (!looksLikeTrace(bytes)) return this.refuse(text.files.noTrace(name));
    return this.replay(bytes, name, this.board());
  }

  async replay(trace, name, board) {
    const opened = ++this.opened;
    this.say('');
    setText(byId('trace-note'), text.trace.busy);
    const result = await replayAside(this.libraries, board, trace);
    if (opened !== this.opened) return;
    this.records = recordsOf(trace);
    this.result = result;
    setText(byId('trace-note'), text.trace.records(name, this.records.length));
    this.render();
  }

  render() {
    const { result, records } = this;
    byId('trace-result').hidden = false;
    setText(byId('trace-stop'), this.stopWords());
    byId('trace-stop').dataset.kind = result.stop === N.UF2_STOP_NONE && result.transfer.state === 'done' ? 'completed' : 'missing';
    const record = result.stop === N.UF2_STOP_NONE ? null : readRecord(records[result.at]);
    this.showAnswer('trace-recorded', record && { ...record, why: record.short ? text.trace.shortRecord : '' });
    this.showAnswer('trace-ours', result.ours && { ...result.ours, why: reasonWords(result.ours.answer, result.reason) });
    const { block, family, address } = record ? blockWords(record.arrival) : {};
    setText(byId('trace-at'), record ? text.trace.at([block, family, address].filter(Boolean).join(', ')) : '');
    setText(byId('trace-state'), `${stateWords(result.transfer)}. ${text.trace.seen(result.marked)}`);
    this.showRecords();
  }

  // Where the replay stops; and where it stops nowhere, whether the update was complete.
  stopWords() {
    const { stop, at, transfer, missing } = this.result;
    if (stop !== N.UF2_STOP_NONE) return text.trace.stop[stop](at);
    const list = missing.slice(0, 8).map(text.state.number).join(', ');
    const never = text.trace.never(missing.length, transfer.total, missing.length > 8 ? text.trace.neverMore(list) : list);
    const end = { idle: text.trace.nothing, running: never, done: '' }[transfer.state];
    return `${text.trace.stop[stop]} ${end}`.trim();
  }

  showAnswer(id, said) {
    if (!said) {
      byId(id).replaceChildren(element('p', { textContent: '–' }));
      return;
    }
    const number = element('span', { className: 'number', textContent: said.answer });
    const name = element('span', { className: 'answer-name', textContent: text.answer.names[said.answer] ?? '' });
    const why = `${said.why}${said.discarded ? ` (${text.answer.discarded})` : ''}`;
    byId(id).replaceChildren(element('p', {}, number, ' ', name), element('p', { className: 'reason', textContent: why }));
  }

  showRecords() {
    const { result, records } = this;
    const columns = text.trace.columns;
    const { from, to } = fillTable(byId('trace-records'), Object.values(columns), records.length, result.at, (k) => {
      const record = readRecord(records[k]);
      const before = result.stop === N.UF2_STOP_NONE || k < result.at;
      const here = !before && k === result.at;
      const ours = before ? text.trace.same : here && result.ours ? answerWords(result.ours.answer, result.ours.discarded) : text.trace.notReplayed;
      const recorded = answerWords(record.answer, record.discarded);
      return { cells: [String(k), blockWords(record.arrival).block, recorded, ours], classes: here ? 'differs' : before ? 'came' : 'to-come', now: here };
    });
    setText(byId('trace-shown'), to - from < records.length ? text.trace.shown(from, to - 1, records.length) : '');
  }
}

// A hex file read line by line: by the proved reader for V1 and for V2, and by the reader of the wrong section. What each line did is kept.
import { N } from './numbers.js';
import { get16 } from './bytes.js';
import { recordOf } from './hexrecord.js';
import { WrongSectionReader } from './wrong/other_board_stored.js';

const LF = 10;

// Where each line begins; a line ends with its LF or with the file. A line longer than the library needs to see is cut there.
export function lineStarts(bytes) {
  const starts = [];
  for (let at = 0; at < bytes.length; ) {
    starts.push(at);
    const end = bytes.indexOf(LF, at);
    at = end < 0 ? bytes.length : end + 1;
  }
  return starts;
}

// The proved reader of a board, with its image.
class ProvedReader {
  constructor(library, board, imageSize) {
    this.library = library;
    this.board = board;
    this.reader = library.lend(N.UHEX_READER_SIZE);
    this.image = library.lend(imageSize);
    this.line = library.lend(N.UHEX_LINE_SIZE);
    this.image.bytes.fill(0xff);
    library.call('uhex_new', board, this.reader);
  }

  get imageBytes() {
    return this.image.bytes;
  }

  // Where the reader stands.
  get state() {
    const bytes = this.reader.bytes;
    return {
      state: bytes[N.UHEX_READER_STATE_AT],
      upper: get16(bytes, N.UHEX_READER_UPPER_AT),
      board: get16(bytes, N.UHEX_READER_BOARD_AT),
    };
  }

  // A line as it stands in the file, with its ending.
  read(line) {
    const handed = line.subarray(0, N.UHEX_LINE_SIZE);
    this.line.bytes.set(handed);
    const result = this.library.call('uhex_line', this.reader, this.line.first(handed.length), this.image);
    this.last = { answer: result & 255, position: result >>> 8, state: this.state };
    return this.last;
  }
}

// What each line did: for each reader the answers, the positions of bad characters and the bytes stored so far; the section and the address of its data.
export class HexFile {
  // `library` is lent until the file is not used any more.
  static open(library, bytes, imageSize, ownBoard) {
    const v1 = new ProvedReader(library, N.UHEX_BOARD_V1, imageSize);
    const v2 = new ProvedReader(library, N.UHEX_BOARD_V2, imageSize);
    const wrong = new WrongSectionReader(ownBoard === 'v1' ? N.UHEX_BOARD_V1 : N.UHEX_BOARD_V2, imageSize, ownBoard === 'v1' ? v1 : v2);
    return new HexFile(bytes, { v1, v2, wrong });
  }

  constructor(bytes, readers) {
    this.bytes = bytes;
    this.readers = readers;
    this.starts = lineStarts(bytes);
    this.count = this.starts.length;
    this.answers = {};
    this.positions = {};
    this.stored = {};
    this.outside = {};
    for (const name of Object.keys(readers)) {
      this.answers[name] = new Uint8Array(this.count);
      this.positions[name] = new Uint16Array(this.count);
      this.stored[name] = new Uint32Array(this.count + 1);
      this.outside[name] = new Uint32Array(this.count + 1);
    }
    this.sections = new Uint16Array(this.count);
    this.states = new Uint8Array(this.count);
    this.addresses = new Float64Array(this.count).fill(-1);
    this.lengths = new Uint8Array(this.count);
    this.read = 0;
  }

  line(k) {
    return this.bytes.subarray(this.starts[k], this.starts[k + 1] ?? this.bytes.length);
  }

  // Reads on until `stop()`; whether every line has been read.
  readOn(stop) {
    while (this.read < this.count) {
      this.readLine(this.read++);
      if (stop()) break;
    }
    return this.read === this.count;
  }

  readLine(k) {
    const line = this.line(k);
    const record = recordOf(line);
    const before = this.sectionNow();
    for (const [name, reader] of Object.entries(this.readers)) {
      const { answer, position } = reader.read(line);
      this.answers[name][k] = answer;
      this.positions[name][k] = position;
      this.stored[name][k + 1] = this.stored[name][k] + (answer === N.UHEX_ANSWER_STORED ? record.length : 0);
      this.outside[name][k + 1] = this.outside[name][k] + (answer === N.UHEX_ANSWER_OUTSIDE ? 1 : 0);
    }
    // both proved readers stand at the same place of the file
    const { state, upper } = this.readers.v1.state;
    this.states[k] = state;
    // the record that closes a section belongs to it
    this.sections[k] = this.sectionNow() || (state === N.UHEX_STATE_BETWEEN ? before : 0);
    const passed = this.answers.v1[k] >= N.UHEX_ANSWER_OUTSIDE && this.answers.v1[k] <= N.UHEX_ANSWER_PASSED;
    if (passed && record && (record.type === 0 || record.type === 13) && record.length > 0) {
      this.addresses[k] = upper * 65536 + record.address;
      this.lengths[k] = record.length;
    }
  }

  // The board of the section that the reading stands in, or 0.
  sectionNow() {
    const { state, board } = this.readers.v1.state;
    return state === N.UHEX_STATE_INSIDE || state === N.UHEX_STATE_PADDED ? board : 0;
  }
}

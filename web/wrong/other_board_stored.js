// WRONG. Reads the wrong board's section: data of the other board is stored, and its own is passed over. It leans on the proved reader for the lines
// themselves, so that this one error is all that it has.
import { N } from '../numbers.js';
import { recordOf } from '../hexrecord.js';

export class WrongSectionReader {
  // `own` is the panel's board; `proved` the proved reader of the same board, which has read each line before.
  constructor(own, imageSize, proved) {
    this.own = own;
    this.proved = proved;
    this.image = new Uint8Array(imageSize).fill(0xff);
  }

  get imageBytes() {
    return this.image;
  }

  read(line) {
    const { answer, position, state } = this.proved.last;
    const record = recordOf(line);
    const isData = record && (record.type === 0 || record.type === 13) && record.length > 0;
    if (answer < N.UHEX_ANSWER_OUTSIDE || answer > N.UHEX_ANSWER_PASSED || !isData) return { answer, position };
    const section = state.board;
    if (section === this.own) return { answer: N.UHEX_ANSWER_PASSED, position: 0 };
    const at = state.upper * 65536 + record.address;
    if (at + record.length > this.image.length) return { answer: N.UHEX_ANSWER_OUTSIDE, position: 0 };
    for (let k = 0; k < record.length; k++) this.image[at + k] = parseInt(String.fromCharCode(line[9 + 2 * k], line[10 + 2 * k]), 16);
    return { answer: N.UHEX_ANSWER_STORED, position: 0 };
  }
}

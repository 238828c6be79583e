// WRONG. A block that has no place or a bad address throws the running transfer away.
import { Student } from './student.js';

export class ForeignBlockDiscards extends Student {
  refuse(answer) {
    if (answer === 8 || answer === 11) this.transfer = { state: 'idle', family: 0, total: 0, count: 0, kind: 'flash' };
    return super.refuse(answer);
  }
}

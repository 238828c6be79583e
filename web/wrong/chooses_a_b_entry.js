// WRONG. Chooses a "B of" entry: every entry that accepts the family may be the place.
import { Student } from './student.js';

export class ChoosesABEntry extends Student {
  isCandidate(_entry) {
    return true;
  }
}

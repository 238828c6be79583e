// WRONG. Trusts file order: the n-th block that is accepted is marked as block n, whatever number it has.
import { Student } from './student.js';

export class TrustsFileOrder extends Student {
  markFor(_number, countBefore) {
    return countBefore;
  }
}

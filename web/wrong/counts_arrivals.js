// WRONG. Counts arrivals: a block that came before is counted again.
import { Student } from './student.js';

export class CountsArrivals extends Student {
  came(_number) {
    return false;
  }
}

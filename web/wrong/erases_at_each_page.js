// WRONG. Erases the sector at each page, so that of a sector's pages only the last stays.
import { Student } from './student.js';

export class ErasesAtEachPage extends Student {
  mustErase(_sector) {
    return true;
  }
}

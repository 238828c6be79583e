// WRONG. Clears the sector map but not the seen map when a new transfer begins.
import { Student } from './student.js';

export class ClearsOneMap extends Student {
  clearMaps() {
    this.memory.sectors.fill(0);
  }
}

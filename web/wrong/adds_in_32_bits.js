// WRONG. Adds address and size in 32 bits: 0xFFFFFF00 + 256 is 0, which looks small. The flash takes the low bits of the address that comes out.
import { Student } from './student.js';

export class AddsIn32Bits extends Student {
  end(address) {
    return super.end(address) % 2 ** 32;
  }

  storageAddress(address, kind, place) {
    return super.storageAddress(address, kind, place) % this.memory[kind].length;
  }
}

// The wrong receivers, each with the must-fail edit of the proved code that makes the same error.
import { CountsArrivals } from './counts_arrivals.js';
import { TrustsFileOrder } from './trusts_file_order.js';
import { ErasesAtEachPage } from './erases_at_each_page.js';
import { ForeignBlockDiscards } from './foreign_block_discards.js';
import { AddsIn32Bits } from './adds_in_32_bits.js';
import { ChoosesABEntry } from './chooses_a_b_entry.js';
import { ClearsOneMap } from './clears_one_map.js';

// The promise that turns each away is in text.js, as docs/HAND-INS.md has it.
export const WRONG = [
  { id: 'countsArrivals', make: CountsArrivals, edit: 'transfer/counts_arrivals' },
  { id: 'trustsFileOrder', make: TrustsFileOrder, edit: 'arrival/trusts_file_order' },
  { id: 'erasesAtEachPage', make: ErasesAtEachPage, edit: 'flash_plan/erases_at_each_page' },
  { id: 'foreignBlockDiscards', make: ForeignBlockDiscards, edit: 'uf2_commit/refusal_discards' },
  { id: 'addsIn32Bits', make: AddsIn32Bits, edit: 'uf2_checks/address_in_32_bits' },
  { id: 'choosesABEntry', make: ChoosesABEntry, edit: 'placement/takes_b_of' },
  { id: 'clearsOneMap', make: ClearsOneMap, edit: 'uf2_commit/seen_map_not_cleared' },
];

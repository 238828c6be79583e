// What the proof asks of a file whose blocks name regions (flag 0x4000): every data block in a region names that same region, every sector of it has one, and
// the digest is that of the final bytes.
import { N } from './numbers.js';
import { FLAG, PAYLOAD, payloadOf, readRegion } from './block.js';
import { SECTOR } from './board.js';
import { same } from './bytes.js';

// The region that a page's block names: its first sector, counted from the place's start, its sectors and its digest. Null where it names none that counts.
function regionOf(page, place) {
  if (page.storage?.memory !== 'flash' || !(page.flags & FLAG.region)) return null;
  const { start, length, digest } = readRegion(page.piece);
  const from = start - N.UF2_FLASH_START;
  const isWhole = from >= 0 && from % SECTOR === 0 && length > 0 && length % SECTOR === 0 && from + length <= place.length;
  const isAround = start <= page.address && page.address + PAYLOAD <= start + length;
  return isWhole && isAround ? { first: from / SECTOR, sectors: length / SECTOR, digest } : null;
}

const offsetOf = (page) => page.address - N.UF2_FLASH_START;
const sectorOf = (page) => Math.floor(offsetOf(page) / SECTOR);
const isSame = (a, b) => a !== null && b !== null && a.first === b.first && a.sectors === b.sectors;

// The pages that name regions, by the sectors of these; or two of which one lies in the region of the other and does not name it.
function ownersOf(named) {
  const owners = new Map();
  for (const one of named.filter(({ region }) => region)) {
    const { first, sectors } = one.region;
    if (owners.has(first) && isSame(owners.get(first).region, one.region)) continue;
    for (let sector = first; sector < first + sectors; sector++) {
      if (owners.has(sector)) return { apart: [owners.get(sector).page, one.page] };
      owners.set(sector, one);
    }
  }
  const stray = named.find(({ page, region }) => owners.has(sectorOf(page)) && !isSame(owners.get(sectorOf(page)).region, region));
  return stray ? { apart: [owners.get(sectorOf(stray.page)).page, stray.page] } : { owners };
}

// The final bytes of a region: the payloads, and 0xFF beside them.
function finalBytes({ first, sectors }, pages) {
  const bytes = new Uint8Array(sectors * SECTOR).fill(0xff);
  for (const page of pages) bytes.set(payloadOf(page.piece), offsetOf(page) - first * SECTOR);
  return bytes;
}

// What is wrong with the regions of a file's data pages, or null. `whole` says that a block of each number is at hand; `md5` is the library's.
export function regionFlaw(pages, place, whole, md5) {
  if (!pages.some((page) => page.flags & FLAG.region)) return null;
  const named = pages.filter((page) => page.storage).map((page) => ({ page, region: regionOf(page, place) }));
  const { apart, owners } = ownersOf(named);
  if (apart) return { what: 'regions', pages: apart };
  if (!whole) return null;
  const inSector = new Map();
  for (const one of named) inSector.set(sectorOf(one.page), [...(inSector.get(sectorOf(one.page)) ?? []), one]);
  for (const { page, region } of new Set(owners.values())) {
    const sectors = Array.from({ length: region.sectors }, (_, k) => inSector.get(region.first + k));
    if (sectors.includes(undefined)) return { what: 'emptySector', pages: [page] };
    const digest = md5(finalBytes(region, sectors.flat().map((one) => one.page)));
    const other = sectors.flat().find((one) => !same(one.region.digest, digest));
    if (other) return { what: 'digest', pages: [other.page] };
  }
  return null;
}

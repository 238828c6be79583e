// A board: its flash, its RAM and its settings, as a plain object, and as the bytes that the library takes.
import { N } from './numbers.js';
import { get32, put32 } from './bytes.js';
import { VERSION, firmwareImage } from './firmware.js';

export const SECTOR = N.UF2_SECTOR_SIZE;
export const LINK = { none: N.UF2_LINK_NONE, owned: N.UF2_LINK_OWNED_BY, b: N.UF2_LINK_B_OF };
export const FAMILY = {
  rp2040: N.UF2_FAMILY_RP2040,
  absolute: N.UF2_FAMILY_ABSOLUTE,
  data: N.UF2_FAMILY_DATA,
  'arm-s': N.UF2_FAMILY_ARM_S,
  riscv: N.UF2_FAMILY_RISCV,
  'arm-ns': N.UF2_FAMILY_ARM_NS,
};

export function newEntry(fields = {}) {
  return {
    first: 0,
    sectors: 1,
    data: false,
    armS: false,
    riscv: false,
    armNs: false,
    users: [],
    notBootableArm: false,
    notBootableRiscv: false,
    noRestart: false,
    link: 'none',
    index: 0,
    ...fields,
  };
}

// The board of the program `receive`: 32,768 bytes of flash, Arm alone, absolute allowed, no table, no RAM.
export function newBoard(fields = {}) {
  return {
    flash: 32768,
    lent: 'erased',
    main: false,
    xip: false,
    arm: true,
    riscv: false,
    current: 'arm',
    autoSwitch: false,
    absolute: true,
    entries: [],
    ...fields,
  };
}

function putEntry(bytes, at, entry) {
  put32(bytes, at + N.UF2_ENTRY_FIRST_AT, entry.first);
  put32(bytes, at + N.UF2_ENTRY_SECTORS_AT, entry.sectors);
  entry.users.slice(0, 4).forEach((family, k) => put32(bytes, at + N.UF2_ENTRY_USERS_AT + 4 * k, family));
  bytes[at + N.UF2_ENTRY_DATA_AT] = entry.data;
  bytes[at + N.UF2_ENTRY_ARM_S_AT] = entry.armS;
  bytes[at + N.UF2_ENTRY_RISCV_AT] = entry.riscv;
  bytes[at + N.UF2_ENTRY_ARM_NS_AT] = entry.armNs;
  bytes[at + N.UF2_ENTRY_USER_COUNT_AT] = entry.users.length;
  bytes[at + N.UF2_ENTRY_NOT_BOOTABLE_ARM_AT] = entry.notBootableArm;
  bytes[at + N.UF2_ENTRY_NOT_BOOTABLE_RISCV_AT] = entry.notBootableRiscv;
  bytes[at + N.UF2_ENTRY_LINK_AT] = LINK[entry.link];
  bytes[at + N.UF2_ENTRY_LINK_INDEX_AT] = entry.link === 'none' ? 0 : entry.index;
  if (N.UF2_ENTRY_NO_RESTART_AT !== undefined) bytes[at + N.UF2_ENTRY_NO_RESTART_AT] = entry.noRestart;
}

export function settingsBytes(board) {
  const bytes = new Uint8Array(N.UF2_SETTINGS_SIZE);
  bytes[N.UF2_SETTINGS_ARM_AT] = board.arm;
  bytes[N.UF2_SETTINGS_RISCV_AT] = board.riscv;
  bytes[N.UF2_SETTINGS_CURRENT_AT] = board.current === 'riscv';
  bytes[N.UF2_SETTINGS_AUTO_SWITCH_AT] = board.autoSwitch;
  bytes[N.UF2_SETTINGS_ABSOLUTE_AT] = board.absolute;
  bytes[N.UF2_SETTINGS_COUNT_AT] = board.entries.length;
  board.entries
    .slice(0, N.UF2_MAX_ENTRIES)
    .forEach((entry, k) => putEntry(bytes, N.UF2_SETTINGS_TABLE_AT + N.UF2_ENTRY_SIZE * k, entry));
  return bytes;
}

function getEntry(bytes, at) {
  const users = [0, 1, 2, 3].map((k) => get32(bytes, at + N.UF2_ENTRY_USERS_AT + 4 * k));
  const link = Object.keys(LINK).find((name) => LINK[name] === bytes[at + N.UF2_ENTRY_LINK_AT]);
  return newEntry({
    first: get32(bytes, at + N.UF2_ENTRY_FIRST_AT),
    sectors: get32(bytes, at + N.UF2_ENTRY_SECTORS_AT),
    data: bytes[at + N.UF2_ENTRY_DATA_AT] !== 0,
    armS: bytes[at + N.UF2_ENTRY_ARM_S_AT] !== 0,
    riscv: bytes[at + N.UF2_ENTRY_RISCV_AT] !== 0,
    armNs: bytes[at + N.UF2_ENTRY_ARM_NS_AT] !== 0,
    users: users.slice(0, bytes[at + N.UF2_ENTRY_USER_COUNT_AT]),
    notBootableArm: bytes[at + N.UF2_ENTRY_NOT_BOOTABLE_ARM_AT] !== 0,
    notBootableRiscv: bytes[at + N.UF2_ENTRY_NOT_BOOTABLE_RISCV_AT] !== 0,
    noRestart: N.UF2_ENTRY_NO_RESTART_AT !== undefined && bytes[at + N.UF2_ENTRY_NO_RESTART_AT] !== 0,
    link: link ?? 'none',
    index: bytes[at + N.UF2_ENTRY_LINK_INDEX_AT],
  });
}

// The switches and entries that settings as bytes stand for.
export function settingsFrom(bytes) {
  const entries = [];
  for (let k = 0; k < bytes[N.UF2_SETTINGS_COUNT_AT]; k++) {
    entries.push(getEntry(bytes, N.UF2_SETTINGS_TABLE_AT + N.UF2_ENTRY_SIZE * k));
  }
  return {
    arm: bytes[N.UF2_SETTINGS_ARM_AT] !== 0,
    riscv: bytes[N.UF2_SETTINGS_RISCV_AT] !== 0,
    current: bytes[N.UF2_SETTINGS_CURRENT_AT] !== 0 ? 'riscv' : 'arm',
    autoSwitch: bytes[N.UF2_SETTINGS_AUTO_SWITCH_AT] !== 0,
    absolute: bytes[N.UF2_SETTINGS_ABSOLUTE_AT] !== 0,
    entries,
  };
}

// What the flash holds before the first arrival: erased, or an older firmware of eight pages with text behind it.
export function lentFlash(board) {
  const flash = new Uint8Array(board.flash).fill(0xff);
  if (board.lent === 'old') {
    const words = new TextEncoder().encode('old firmware. ');
    for (let k = 0; k < flash.length; k++) flash[k] = words[k % words.length];
    flash.set(firmwareImage(8, 'old firmware', VERSION.old).subarray(0, flash.length));
  }
  return flash;
}

// Numbers in bytes, lowest byte first, and maps of bits, most significant bit first.

export function get16(bytes, at) {
  return bytes[at] | (bytes[at + 1] << 8);
}

export function get32(bytes, at) {
  return (bytes[at] | (bytes[at + 1] << 8) | (bytes[at + 2] << 16) | (bytes[at + 3] << 24)) >>> 0;
}

export function get64(bytes, at) {
  return BigInt(get32(bytes, at)) | (BigInt(get32(bytes, at + 4)) << 32n);
}

export function put32(bytes, at, x) {
  bytes[at] = x & 255;
  bytes[at + 1] = (x >>> 8) & 255;
  bytes[at + 2] = (x >>> 16) & 255;
  bytes[at + 3] = (x >>> 24) & 255;
}

export function isMarked(map, k) {
  return (map[k >> 3] & (128 >> (k & 7))) !== 0;
}

export function mark(map, k) {
  map[k >> 3] |= 128 >> (k & 7);
}

export function same(a, b) {
  if (a.length !== b.length) return false;
  for (let k = 0; k < a.length; k++) if (a[k] !== b[k]) return false;
  return true;
}

// Whether `length` bytes of `a` from `at` on are those of `b` from `from` on.
export function sameAt(a, at, b, from, length) {
  for (let k = 0; k < length; k++) if (a[at + k] !== b[from + k]) return false;
  return true;
}

export function hex(x, digits = 8) {
  return '0x' + x.toString(16).toUpperCase().padStart(digits, '0');
}

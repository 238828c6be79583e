// What the editor holds at first: a receiver with checks 1 and 4 done. Its words are code, and stay English.
export const TEMPLATE = `// board: { flash, arm, riscv, current, autoSwitch, absolute, entries }
// t: { state: 'idle' | 'running' | 'done', family, total, count }
// arrival: the bytes that came; flash, seen and sectors: what you may change, and t
// Nothing else is kept between two arrivals: keep what you need in t, seen and sectors.
function take(board, t, arrival, flash, seen, sectors) {
  const word = (at) => (arrival[at] | (arrival[at + 1] << 8) | (arrival[at + 2] << 16) | (arrival[at + 3] << 24)) >>> 0;
  const refuse = (answer) => ({ answer, discarded: false });

  // check 1: an arrival has 512 bytes
  if (arrival.length !== 512) return refuse(1);
  // check 4: three magic numbers
  if (word(0) !== 0x0a324655 || word(4) !== 0x9e5d5157 || word(508) !== 0x0ab16f30) return refuse(4);

  const block = { flags: word(8), address: word(12), size: word(16), number: word(20), total: word(24), family: word(28) };
  // checks 5 and 7 to 13, and then 14 or 15, are yours
  return refuse(8);
}
`;

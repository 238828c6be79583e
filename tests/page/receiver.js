// A receiver for "Your receiver" that holds all three points: document 01, check by check. yours.py edits it, one mistake at a time.
function take(board, t, arrival, flash, seen, sectors) {
  const word = (at) => (arrival[at] | (arrival[at + 1] << 8) | (arrival[at + 2] << 16) | (arrival[at + 3] << 24)) >>> 0;
  const refuse = (answer) => ({ answer, discarded: false });
  if (arrival.length !== 512) return refuse(1);
  if (word(0) !== 0x0a324655 || word(4) !== 0x9e5d5157 || word(508) !== 0x0ab16f30) return refuse(4);
  const block = { flags: word(8), address: word(12), size: word(16), number: word(20), total: word(24), family: word(28) };
  if (block.flags & 0x1000) return refuse(5);
  if (!(block.flags & 0x2000)) return refuse(7);
  const place = placeOf(board, block.family);
  if (!place) return refuse(8);
  if (block.size !== 256) return refuse(9);
  if (block.total === 0 || block.total * 256 > place.length || block.number >= block.total) return refuse(10);
  if (block.address < 0x10000000 || block.address % 256 !== 0 || block.address - 0x10000000 + 256 > place.length) return refuse(11);
  if (t.state === 'done') return refuse(12);
  const going = t.state === 'running' && t.family === block.family && t.total === block.total;
  if (going && seen[block.number] === 1) return refuse(13);
  const discarded = t.state === 'running' && !going;
  if (!going) {
    seen.fill(0);
    sectors.fill(0);
    Object.assign(t, { state: 'running', family: block.family, total: block.total, count: 0 });
  }
  const at = place.start + block.address - 0x10000000;
  const sector = Math.floor(at / 4096);
  if (sectors[sector] !== 1) flash.fill(0xff, sector * 4096, sector * 4096 + 4096);
  sectors[sector] = 1;
  flash.set(arrival.subarray(32, 288), at);
  seen[block.number] = 1;
  t.count += 1;
  if (t.count < t.total) return { answer: 14, discarded };
  t.state = 'done';
  return { answer: 15, discarded };
}

const FAMILY = { absolute: 0xe48bff57, data: 0xe48bff58, arm: 0xe48bff59, riscv: 0xe48bff5a, armNs: 0xe48bff5b, rp2040: 0xe48bff56 };

function placeOf(board, family) {
  const whole = { start: 0, length: board.flash };
  if (family === FAMILY.absolute) return board.absolute ? whole : null;
  if (family === FAMILY.rp2040) return null;
  if (board.entries.length === 0) {
    return family === FAMILY.data || (family === FAMILY.arm && board.arm) || (family === FAMILY.riscv && board.riscv) ? whole : null;
  }
  const accepts = (entry) => ({ [FAMILY.data]: entry.data, [FAMILY.arm]: entry.armS, [FAMILY.riscv]: entry.riscv, [FAMILY.armNs]: entry.armNs })[family] ?? entry.users.includes(family);
  const a = board.entries.filter((entry) => entry.link !== 'b' && accepts(entry));
  const unowned = a.filter((entry) => entry.link === 'none');
  const boots = (arch, on) => unowned.find((entry) => on && family === FAMILY[arch] && !(arch === 'arm' ? entry.notBootableArm : entry.notBootableRiscv));
  const other = board.current === 'arm' ? 'riscv' : 'arm';
  const entry = boots(board.current, true) ?? boots(other, board.autoSwitch && board[other]) ?? unowned[0] ?? a[0];
  return entry ? { start: entry.first * 4096, length: entry.sectors * 4096 } : null;
}

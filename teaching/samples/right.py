#!/usr/bin/env python3
"""A student's receiver, as document 01's program: arrivals on standard input, a line for each. Its flash goes to the file that VANTOREL_FLASH names."""
import os, struct, sys
FLASH = 32768
flash = bytearray(b"\xff" * FLASH)
seen, sectors = set(), set()
state, family, total, count = "idle", 0, 0, 0

def place(fam):
    return FLASH if fam in (0xE48BFF57, 0xE48BFF58, 0xE48BFF59) else None

def take(a):
    global state, family, total, count
    if len(a) != 512:
        return 1, 0
    m1, m2, flags, addr, size, num, tot, fam = struct.unpack("<8I", a[:32])
    if (m1, m2, struct.unpack("<I", a[508:])[0]) != (0x0A324655, 0x9E5D5157, 0x0AB16F30):
        return 4, 0
    if flags & 0x1000: return 5, 0
    if flags & 0x1: return 6, 0
    if not flags & 0x2000: return 7, 0
    room = place(fam)
    if room is None: return 8, 0
    if size != 256: return 9, 0
    if tot == 0 or tot * 256 > room or num >= tot: return 10, 0
    if addr < 0x10000000 or addr % 256 or addr - 0x10000000 + 256 > room: return 11, 0
    if state == "done": return 12, 0
    same = state == "running" and family == fam and total == tot
    if same and num in seen: return 13, 0
    discarded = 0
    if not same:
        discarded = int(state == "running")
        seen.clear(); sectors.clear(); count = 0
    at = addr - 0x10000000
    if at // 4096 not in sectors:
        flash[at // 4096 * 4096:at // 4096 * 4096 + 4096] = b"\xff" * 4096
        sectors.add(at // 4096)
    flash[at:at + 256] = a[32:288]
    seen.add(num); count += 1
    state, family, total = ("done" if count >= tot else "running"), fam, tot
    return (15 if state == "done" else 14), discarded

print("arrival answer discarded")
data, k = sys.stdin.buffer.read(), 0
for at in range(0, len(data), 512):
    print(k, *take(data[at:at + 512]))
    k += 1
print("state", state, "total", total, "seen", count)
if os.environ.get("VANTOREL_FLASH"):
    open(os.environ["VANTOREL_FLASH"], "wb").write(flash)

#!/usr/bin/env python3
"""A student's reader of Universal Hex, as the program hexlines: lines on standard input, an answer for each. Its image goes to the file that VANTOREL_IMAGE names."""
import os, sys
own = {"V1": 0x9900, "V2": 0x9903}[sys.argv[1] if len(sys.argv) > 1 else "V1"]
image = bytearray(b"\xff" * 262144)
stand, board, failed, offset, upper = "between", 0, 0, 0, 0
sections, gave = set(), set()

def put(data, address):
    at = upper * 65536 + address
    if at + len(data) > len(image): return False
    image[at:at + len(data)] = data
    return True

def check(line):
    global stand, board, upper
    text = line[:-1] if line.endswith(b"\n") else line
    if text.endswith(b"\r"): text = text[:-1]
    if offset + len(line) > 4194304: return 36
    if not text.startswith(b":"): return 20
    if len(text) < 11 or len(text) > 521 or len(text) % 2 == 0: return 21
    if any(c not in b"0123456789abcdefABCDEF" for c in text[1:]): return 22
    raw = bytes.fromhex(text[1:].decode())
    if raw[0] > 32: return 23
    if len(raw) != 5 + raw[0]: return 24
    if sum(raw) % 256 != 0: return 25
    kind, address, data = raw[3], raw[1] * 256 + raw[2], raw[4:-1]
    if stand == "between":
        if kind == 4 and len(data) == 2:
            if offset % 512 != 0: return 27
            upper = data[0] * 256 + data[1]
            stand = "opened"
            return 34
        if kind == 1 and not data:
            if not gave >= {0x9900, 0x9903}: return 30
            stand = "ended"
            return 35
        return 26
    if stand == "opened":
        if kind != 10 or len(data) < 2: return 26
        name = data[0] * 256 + data[1]
        if name in (0x9900, 0x9903) and name in sections: return 28
        sections.add(name)
        stand, board = "inside", name
        return 34
    if kind == 11:
        stand = "between"
        return 34
    if kind == 12:
        stand = "padded"
        return 34
    if kind == 14: return 34
    if stand == "padded": return 26
    if kind == 4 and len(data) == 2:
        upper = data[0] * 256 + data[1]
        return 34
    if kind != (0 if board == 0x9900 else 13): return 26
    if address + len(data) > 65536: return 29
    if not data: return 34
    gave.add(board)
    if board != own: return 34
    return 33 if put(data, address) else 32

print("line answer")
for k, line in enumerate(sys.stdin.buffer):
    if stand == "failed": answer = failed
    elif stand == "ended": answer = 31
    else:
        answer = check(line)
        if answer < 31 or answer == 36: stand, failed = "failed", answer
        else: offset += len(line)
    print(k, answer)
print("state", stand + (f" {failed}" if stand == "failed" else ""), "offset", offset, "v1", int(0x9900 in gave), "v2", int(0x9903 in gave))
if os.environ.get("VANTOREL_IMAGE"):
    open(os.environ["VANTOREL_IMAGE"], "wb").write(image)

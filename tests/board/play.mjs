// Plays on target/wasm/receiver.wasm: play.c, compiled to WebAssembly beside it, lives in its memory and calls what it exports, as a page does.
//
//     node play.mjs RECEIVER.wasm PLAY.wasm HEADER..
//
// With BOARD_FIGURES set it writes the sizes of the receiver, and the most of the stack in its memory that the calls used, instead.
// Ends with status 1 where the receiver imports something, lacks a call of a header, or the play fails.
import { readFileSync } from "node:fs";

const [receiverFile, playFile, ...headers] = process.argv.slice(2);
const module = new WebAssembly.Module(readFileSync(receiverFile));
const imports = WebAssembly.Module.imports(module);
if (imports.length > 0) {
  console.log(`receiver.wasm imports ${imports.map((i) => i.name).join(", ")}`);
  process.exit(1);
}
const receiver = new WebAssembly.Instance(module).exports;
for (const header of headers)
  for (const [, name] of readFileSync(header, "utf8").matchAll(/^(?!static)[a-z][^(\n]* ([a-z0-9_]+)\(/gm))
    if (typeof receiver[name] !== "function") {
      console.log(`receiver.wasm does not export ${name}, which is in ${header}`);
      process.exit(1);
    }

// The play's data begins at 1 MiB: beyond the receiver's own, which ends at __heap_base.
const memory = receiver.memory;
if (receiver.__heap_base.value > 1 << 20) {
  console.log("receiver.wasm has over 1 MiB of its own");
  process.exit(1);
}
memory.grow((4 << 20) / 65536);

// The stack that the calls share is the first 64 KiB: painted before, and what is no longer painted was used.
const stackSize = 65536;
new Uint8Array(memory.buffer).fill(0xa5, 0, stackSize);

const say = (at) => {
  if (process.env.BOARD_FIGURES) return;
  const bytes = new Uint8Array(memory.buffer);
  process.stdout.write(Buffer.from(bytes.subarray(at, bytes.indexOf(0, at))));
};
const play = new WebAssembly.Instance(new WebAssembly.Module(readFileSync(playFile)), { env: { ...receiver, memory, say } });
process.exitCode = play.exports.board_main();

if (process.env.BOARD_FIGURES) {
  const used = stackSize - new Uint8Array(memory.buffer).findIndex((byte) => byte !== 0xa5);
  console.log(`receiver.wasm: ${sectionBytes(10)} bytes of code, ${sectionBytes(11)} of read-only data, ${readFileSync(receiverFile).length} in all`);
  console.log(`the most of any call: ${used} bytes of stack`);
}

// The bytes of the sections of one kind.
function sectionBytes(kind) {
  const bytes = readFileSync(receiverFile);
  let at = 8;
  let sum = 0;
  while (at < bytes.length) {
    const id = bytes[at++];
    let size = 0;
    for (let shift = 0; ; shift += 7) {
      const byte = bytes[at++];
      size |= (byte & 127) << shift;
      if (byte < 128) break;
    }
    if (id === kind) sum += size;
    at += size;
  }
  return sum;
}

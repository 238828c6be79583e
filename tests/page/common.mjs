// What the tests in node share: the modules that tools/page wrote, the library, and a count of what passed.
import { readFileSync } from 'node:fs';
import { fileURLToPath } from 'node:url';

const root = new URL('../../', import.meta.url);

export const load = (name) => import(new URL(`target/web/modules/${name}`, root));
export const libraryModule = () => WebAssembly.compile(readFileSync(fileURLToPath(new URL('target/wasm/receiver.wasm', root))));
export const stored = (name) => new Uint8Array(readFileSync(fileURLToPath(new URL(`tests/${name}`, root))));
export const storedText = (name) => readFileSync(fileURLToPath(new URL(name, root)), 'utf8');

export async function check(name, test) {
  try {
    await test();
    console.log(`page, ${name} ... ok`);
  } catch (error) {
    console.error(`page, ${name} ... FAILED\n${error.stack}`);
    process.exitCode = 1;
  }
}

// Numbers of chance that a seed fixes.
export function chance(seed) {
  let state = seed >>> 0;
  return (below) => {
    state = (Math.imul(state, 1664525) + 1013904223) >>> 0;
    return Math.floor((state / 2 ** 32) * below);
  };
}

// The replay of a trace in a worker, so that a long one does not hold up the page. The worker has the same code as the page.
import { replay } from './trace.js';
import { Library } from './wasm.js';

export function isWorker() {
  return typeof document === 'undefined';
}

// What the worker does: one replay.
export function serve() {
  self.onmessage = async ({ data }) => {
    try {
      self.postMessage({ result: replay(await Library.open(data.module), data.board, data.trace) });
    } catch (error) {
      self.postMessage({ error: String(error) });
    }
  };
}

// A replay in a worker made of the page's own code; here where the browser allows no worker.
export function replayAside(libraries, board, trace) {
  const code = document.getElementById('code').textContent;
  return new Promise((done, fail) => {
    let worker;
    const here = () => libraries.use((library) => replay(library, board, trace)).then(done, fail);
    try {
      worker = new Worker(URL.createObjectURL(new Blob([code], { type: 'text/javascript' })));
    } catch {
      here();
      return;
    }
    worker.onmessage = ({ data }) => {
      worker.terminate();
      if (data.error) fail(new Error(data.error));
      else done(data.result);
    };
    worker.onerror = () => {
      worker.terminate();
      here();
    };
    worker.postMessage({ module: libraries.module, board, trace });
  });
}

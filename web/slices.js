// Long work in slices of some milliseconds, with a frame drawn between two slices.

const SLICE = 12;

export function nextFrame() {
  return new Promise((done) => {
    // a page that is not shown draws no frames
    const timer = setTimeout(done, 100);
    requestAnimationFrame(() => {
      clearTimeout(timer);
      done();
    });
  });
}

// Calls `work(stop)` until it returns true. `stop()` says that the slice is over. `between()` is called after each slice; the work ends where that returns false.
export async function inSlices(work, between = () => true) {
  for (;;) {
    const until = performance.now() + SLICE;
    if (work(() => performance.now() > until)) return true;
    if (between() === false) return false;
    await nextFrame();
  }
}

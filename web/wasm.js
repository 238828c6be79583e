// The proved library as WebAssembly. One `Library` is one instance with memory of its own.

// A part of an instance's memory. In the library a length is 64 bits wide, so JavaScript hands it over as a BigInt.
class Slice {
  constructor(library, at, length) {
    this.library = library;
    this.at = at;
    this.length = length;
    this.words = [at, BigInt(length)];
    this.view = null;
  }

  // The bytes, as they stand now. Memory that grows has a new buffer, and then the view is made anew.
  get bytes() {
    const { buffer } = this.library.memory;
    if (this.view === null || this.view.buffer !== buffer) this.view = new Uint8Array(buffer, this.at, this.length);
    return this.view;
  }

  // The first bytes of the slice, as a slice.
  first(length) {
    return new Slice(this.library, this.at, length);
  }
}

// The words of a call: a slice is its address and its length, any other argument stays.
export function wordsOf(args) {
  return args.flatMap((arg) => (arg instanceof Slice ? arg.words : [arg]));
}

const PAGE = 65536;

export class Library {
  static async open(module) {
    return new Library(await WebAssembly.instantiate(module));
  }

  constructor(instance) {
    this.calls = instance.exports;
    this.memory = instance.exports.memory;
    this.base = this.memory.buffer.byteLength;
    this.end = this.base;
  }

  // Takes back everything that was lent.
  clear() {
    this.end = this.base;
  }

  has(name) {
    return typeof this.calls[name] === 'function';
  }

  // So many bytes of memory, zeros, that nothing else uses.
  lend(length) {
    const at = this.end;
    this.end += Math.max(16, Math.ceil(length / 16) * 16);
    const missing = this.end - this.memory.buffer.byteLength;
    if (missing > 0) this.memory.grow(Math.ceil(missing / PAGE));
    const slice = new Slice(this, at, length);
    slice.bytes.fill(0);
    return slice;
  }

  // A call of the library.
  call(name, ...args) {
    return this.calls[name](...wordsOf(args));
  }
}

// Instances that are used again: a browser sets aside gigabytes of addresses for the memory of each, and has room for few.
export class Libraries {
  constructor(module) {
    this.module = module;
    this.free = [];
  }

  async take() {
    return this.free.pop() ?? Library.open(this.module);
  }

  give(library) {
    library.clear();
    this.free.push(library);
  }

  // Lends an instance to `act` and takes it back.
  async use(act) {
    const library = await this.take();
    try {
      return await act(library);
    } finally {
      this.give(library);
    }
  }
}

export function fromBase64(text) {
  const raw = atob(text);
  return Uint8Array.from(raw, (c) => c.charCodeAt(0));
}

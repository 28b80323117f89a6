// Copies of memories in the module. A carrier has room for a whole memory, and only the pages of it that are needed.

/** What is copied at a time: pages of 1024 bytes. */
const PAGE_BITS = 10;
const PAGE = 2 ** PAGE_BITS;

/** The least room of a carrier. */
const LEAST = 65536;

/** Room for so many bytes. There are four sizes between two powers of two, as the module's heap has them. */
function roomFor(length) {
  const step = 2 ** Math.max(Math.floor(Math.log2(Math.max(length, LEAST))) - 2, PAGE_BITS);
  return Math.max(Math.ceil(length / step) * step, LEAST);
}

export class Carrier {
  #core;
  #bytes;
  #copied;
  #turn = 0;

  /**
   * @param {import("./core.js").Core} core
   * @param {number} length
   */
  constructor(core, length) {
    this.size = roomFor(length);
    this.at = core.allocate(this.size);
    this.#core = core;
    // For each page the number of the turn in which it was copied.
    this.#copied = new Uint32Array(this.size / PAGE);
  }

  /** Begins a turn: nothing of this memory is there. */
  begin(bytes) {
    this.#bytes = bytes;
    this.#turn = (this.#turn + 1) >>> 0;
    if (this.#turn > 0) return this;
    this.#copied.fill(0);
    this.#turn = 1;
    return this;
  }

  /** The length of the memory. */
  get length() {
    return this.#bytes.length;
  }

  /** The module's memory as numbers. The carrier's addresses begin at `at`. */
  get view() {
    return this.#core.view;
  }

  /** Copies the pages of a range within the memory that aren't there yet. */
  need(at, size) {
    const copied = this.#copied;
    const turn = this.#turn;
    const end = size === 0 ? 0 : ((at + size - 1) >>> PAGE_BITS) + 1;
    for (let page = at >>> PAGE_BITS; page < end; page++) {
      if (copied[page] === turn) continue;
      const first = page;
      while (page < end && copied[page] !== turn) copied[page++] = turn;
      this.#core.bytes.set(this.#bytes.subarray(first * PAGE, page * PAGE), this.at + first * PAGE);
    }
  }

  /** Copies a range of the memory, and not what is beside it. */
  fetch(at, size) {
    this.#core.bytes.set(this.#bytes.subarray(at, at + size), this.at + at);
  }

  /** Copies a range back into the memory. */
  store(at, size) {
    this.#bytes.set(this.#core.bytes.subarray(this.at + at, this.at + at + size), at);
  }

  /** Forgets the memory. */
  end() {
    this.#bytes = undefined;
  }
}

/** The carriers of an instance that are not in use. A call that runs within another one takes its own. */
export class Carriers {
  #core;
  #free = [];

  /** @param {import("./core.js").Core} core */
  constructor(core) {
    this.#core = core;
  }

  /** The smallest one that has room, or a new one. */
  take(bytes) {
    const free = this.#free;
    let best = -1;
    for (let place = 0; place < free.length; place++) {
      if (free[place].size >= bytes.length && (best < 0 || free[place].size < free[best].size)) best = place;
    }
    const found = best < 0 ? new Carrier(this.#core, bytes.length) : free.splice(best, 1)[0];
    return found.begin(bytes);
  }

  give(carrier) {
    carrier.end();
    this.#free.push(carrier);
  }
}

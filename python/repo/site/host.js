// @ts-check
/**
 * Calls a module that `scripts/launcher/build.bash` has made of a program, as a shell calls the program: with words and a text, for a
 * status and two streams of bytes. It works wherever WebAssembly takes and gives BigInt: in pages, workers and Node. A call
 * keeps whoever makes it waiting, so pages call by a worker (wsc.js).
 */

/** Bytes of a page of memory, and the pages that a module has at first (scripts/launcher/build.bash: --initial-memory). */
export const PAGE = 65536;
const FIRST_PAGES = 256;
/** The most bytes that a call may use where nothing is said: 2 GiB. */
export const MOST = 2 ** 31;
/** A memory that has grown beyond so many bytes isn't kept for the next call. */
const KEPT = 64 * 2 ** 20;
const ENCODER = new TextEncoder(), DECODER = new TextDecoder("utf-8", {ignoreBOM: true});

export const TOO_OLD = "This browser can't run the program: it has no WebAssembly, or one without BigInt. Chrome and Edge " +
  "from 85 on have it, Firefox from 114 on and Safari from 15 on.";

/**
 * What a call answers.
 * @typedef {{status: number, out: Uint8Array, err: Uint8Array}} Answer
 */

/** The program called `_exit`. */
class Exit {
  /** @param {number} status */
  constructor(status) { this.status = status; }
}

/** The program was ended by a trap: it has an end, but no status. */
export class Trapped extends Error {}

/**
 * Whether the module can be called here.
 * @returns {boolean}
 */
export const isAble = () => typeof WebAssembly === "object" && typeof BigInt64Array === "function";

/**
 * @param {number} most bytes of memory at most
 * @returns {WebAssembly.Memory}
 */
function memoryOf(most) {
  return new WebAssembly.Memory({initial: FIRST_PAGES, maximum: Math.max(FIRST_PAGES, Math.floor(most / PAGE))});
}

/**
 * @param {Uint8Array[]} pieces
 * @returns {Uint8Array}
 */
function joined(pieces) {
  const all = new Uint8Array(pieces.reduce((sum, it) => sum + it.length, 0));
  let at = 0;
  for (const it of pieces) { all.set(it, at); at += it.length; }
  return all;
}

/** Calls of one module, one after the other. */
export class Host {
  /**
   * @param {WebAssembly.Module} module
   * @param {string} name the program's name, which is the first of its words
   * @param {number} [most] bytes of memory that a call may use
   */
  constructor(module, name, most = MOST) {
    this.module = module;
    this.name = name;
    this.most = most;
    /** @type {WebAssembly.Memory | null} */
    this.memory = null;
  }

  /**
   * Calls the program with a text, as calls.js has it.
   * @param {string[]} words
   * @param {string} text
   */
  ask(words, text) {
    const {status, out, err} = this.call(words, ENCODER.encode(text));
    return {status, out: DECODER.decode(out), err: DECODER.decode(err)};
  }

  /** A memory of zeros. It is that of the last call where that one hasn't grown much, since browsers free them late. */
  fresh() {
    const it = this.memory || memoryOf(this.most);
    if (this.memory) new Uint8Array(it.buffer).fill(0);
    this.memory = null;
    return it;
  }

  /**
   * Calls the program.
   * @param {string[]} words what stands behind its name
   * @param {Uint8Array} input what it reads
   * @returns {Answer}
   * @throws {Trapped} where its stack or its code came to no end of its own
   */
  call(words, input) {
    const memory = this.fresh(), told = [this.name, ...words].map(it => ENCODER.encode(it));
    /** @type {Uint8Array[][]} */
    const streams = [[], [], []];
    let at = 0, status = 0;
    const part = (/** @type {bigint} */ from, /** @type {number} */ count) =>
      new Uint8Array(memory.buffer, Number(from), count);
    const env = {
      memory,
      read: (/** @type {number} */ _, /** @type {bigint} */ to, /** @type {bigint} */ most) => {
        const count = Math.min(Number(most), input.length - at);
        part(to, count).set(input.subarray(at, at + count));
        at += count;
        return BigInt(count);
      },
      write: (/** @type {number} */ stream, /** @type {bigint} */ from, /** @type {bigint} */ count) => {
        streams[stream].push(part(from, Number(count)).slice());
        return count;
      },
      exit: (/** @type {number} */ status) => { throw new Exit(status); },
      arg: (/** @type {bigint} */ place, /** @type {bigint} */ to, /** @type {bigint} */ most) => {
        const word = told[Number(place)];
        if (!word) return -1n;
        if (word.length > Number(most)) return -2n;
        part(to, word.length).set(word);
        return BigInt(word.length);
      },
    };
    try {
      const instance = new WebAssembly.Instance(this.module, {env});
      status = /** @type {() => number} */ (instance.exports.__original_main)();
    } catch (end) {
      if (!(end instanceof Exit)) throw trapped(end);
      status = end.status;
    }
    if (memory.buffer.byteLength <= KEPT) this.memory = memory;
    return {status, out: joined(streams[1]), err: joined(streams[2])};
  }
}

/**
 * @param {unknown} end
 * @returns {unknown}
 */
function trapped(end) {
  const isTrap = end instanceof WebAssembly.RuntimeError || end instanceof RangeError;
  return isTrap ? new Trapped(`The program was ended: ${end.message}.`) : end;
}

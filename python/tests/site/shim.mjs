// Tries shim.c, for test_shim.py: `node shim.mjs MODULE`. Blocks of many sizes and alignments are taken, given back and made larger or
// smaller in a random order from a seed; none may lie in another, none may lose what is in it, and memory may not grow far beyond
// what is in use. Where memory can't grow, calls say so, and all is as it was. Arithmetic of 128 bits is compared with BigInt.
import {readFileSync} from "node:fs";

const PAGE = 65536, STEPS = 60000, MOST_PAGES = 4096, SEEDS = [1, 2, 3, 4];
// So many times of what was in use at most, and beside it so many pages, memory may have.
const SHARE = 1.5, ROOM = 300;
const module = new WebAssembly.Module(readFileSync(process.argv[2]));
const refuse = () => { throw new Error("the memory calls the system"); };
const wrong = [];

// Numbers at random, from a seed (xorshift).
function chance(seed) {
  let it = seed * 2654435761 >>> 0 || 1;
  return below => {
    it ^= it << 13; it >>>= 0;
    it ^= it >>> 17;
    it ^= it << 5; it >>>= 0;
    return it % below;
  };
}
function fresh() {
  const memory = new WebAssembly.Memory({initial: 256, maximum: MOST_PAGES});
  const env = {memory, read: refuse, write: refuse, exit: refuse, arg: refuse};
  return {memory, ...new WebAssembly.Instance(module, {env}).exports};
}
// A block's stamp, at both of its ends.
const stamp = (view, {at, size, mark}) => { view[at] = mark; view[at + size - 1] = mark; };
const isWhole = (view, {at, size, mark}) => view[at] === mark && view[at + size - 1] === mark;
// Whether blocks lie in each other.
function overlaps(blocks) {
  const sorted = [...blocks].sort((a, b) => a.at - b.at);
  return sorted.some((it, k) => k && sorted[k - 1].at + sorted[k - 1].size > it.at);
}
// The calls of the kit's programs, which give back two words: whether there is memory, and where.
function pairs({memory, malloc, rattle_alloc, rattle_realloc}) {
  const to = malloc(16n), told = () => new BigUint64Array(memory.buffer, Number(to), 2);
  const place = ([is, at]) => {
    if (is !== BigInt(at !== 0n)) wrong.push(`a call says ${is} of a block at ${at}`);
    return Number(at);
  };
  return {
    take: (size, align) => { rattle_alloc(to, BigInt(size), BigInt(align)); return place(told()); },
    change: (at, size, align) => { rattle_realloc(to, BigInt(at), 0n, BigInt(size), BigInt(align)); return place(told()); },
  };
}
function tried(seed) {
  const all = fresh(), {memory, malloc, free} = all, {take, change} = pairs(all), below = chance(seed), blocks = [];
  let used = 0, most = 0;
  // most have the alignment of a word
  const alignOf = () => 8 << (below(6) ? 0 : below(10));
  const sizeOf = () => 1 + below(below(8) ? below(5) ? 200 : 5000 : below(6) ? 100000 : 2000000);
  const view = () => new Uint8Array(memory.buffer);
  for (let k = 0; k < STEPS; k++) {
    const does = below(10), it = blocks[below(blocks.length || 1)];
    if (!it || does < 4 && blocks.length < 400) {
      const size = sizeOf(), align = alignOf(), at = take(size, align);
      if (!at) continue;
      if (at % align || at % 16) wrong.push(`${seed}: a block of the alignment ${align} at ${at}`);
      const made = {at, size, align, mark: 1 + below(255)};
      blocks.push(made);
      stamp(view(), made);
      used += size;
    } else if (does < 7) {
      const size = sizeOf(), at = change(it.at, size, it.align);
      if (!at) continue;
      if (at % it.align) wrong.push(`${seed}: a block of the alignment ${it.align} moves to ${at}`);
      if (view()[at] !== it.mark || size >= it.size && view()[at + it.size - 1] !== it.mark)
        wrong.push(`${seed}: a block loses what is in it as it moves`);
      used += size - it.size;
      Object.assign(it, {at, size});
      stamp(view(), it);
    } else {
      if (!isWhole(view(), it)) wrong.push(`${seed}: a block is overwritten`);
      free(BigInt(it.at));
      used -= it.size;
      blocks.splice(blocks.indexOf(it), 1);
    }
    most = Math.max(most, used);
    if (k % 997 === 0 && overlaps(blocks)) wrong.push(`${seed}: blocks lie in each other`);
  }
  const pages = memory.buffer.byteLength / PAGE;
  if (pages > SHARE * most / PAGE + ROOM) wrong.push(`${seed}: ${pages} pages for ${Math.ceil(most / PAGE)}`);
  for (const it of blocks) free(BigInt(it.at));
  // all of it is one block again
  if (!malloc(BigInt(Math.floor(memory.buffer.byteLength * 0.9) - (9 << 20)))) wrong.push(`${seed}: what was given back isn't joined`);
  if (memory.buffer.byteLength / PAGE !== pages) wrong.push(`${seed}: it grows for what it has`);
}
// A list of blocks of nearly one size, the last of which is free and in the list of the size that is asked for.
function steady() {
  const {malloc, free, memory} = fresh();
  let last = 0n;
  for (let size = 1000; size < 40000000; size = Math.floor(size * 1.013)) {
    const at = malloc(BigInt(size));
    if (!at) { wrong.push(`no block of ${size} bytes beside one, in ${memory.buffer.byteLength}`); return; }
    if (last) free(last);
    last = at;
  }
}
// Where memory can't grow any more there is no block, and all is as it was.
function full() {
  const all = fresh(), {memory, malloc, realloc, free} = all, {take, change} = pairs(all), blocks = [], SIZE = 3000000;
  for (let at; at = malloc(BigInt(SIZE));) {
    blocks.push(at);
    stamp(new Uint8Array(memory.buffer), {at: Number(at), size: SIZE, mark: blocks.length});
  }
  if (blocks.length < 60 || malloc(1n << 41n) || malloc(2n ** 63n)) wrong.push("what is too large is given");
  if (memory.buffer.byteLength > MOST_PAGES * PAGE) wrong.push("memory grows beyond what it may");
  if (take(SIZE, 8) || take(SIZE, 4096) || change(Number(blocks[7]), 2 * SIZE, 8) || realloc(blocks[7], BigInt(2 * SIZE)))
    wrong.push("memory is full, and there is a block");
  const view = new Uint8Array(memory.buffer);
  if (!blocks.every((at, k) => isWhole(view, {at: Number(at), size: SIZE, mark: k + 1}))) wrong.push("want of memory changes a block");
  blocks.forEach(free);
  if (!malloc(200000000n)) wrong.push("after want of memory it isn't given back");
}
// Products and shifts of 128 bits.
function arithmetic() {
  const {memory, malloc, product, shifted} = fresh(), to = malloc(16n), below = chance(5), ALL = (1n << 128n) - 1n;
  const edges = [0n, 1n, 2n ** 32n - 1n, 2n ** 32n, 2n ** 63n, 2n ** 64n - 1n, 2n ** 64n, ALL], random = () =>
    Array.from({length: 4}, () => BigInt(below(2 ** 32))).reduce((sum, it) => sum << 32n | it);
  const halves = it => [it & 2n ** 64n - 1n, it >> 64n], told = () => {
    const [low, high] = new BigUint64Array(memory.buffer, Number(to), 2);
    return high << 64n | low;
  };
  const values = [...edges, ...Array.from({length: 30}, random)];
  for (const a of values) {
    for (const b of values) {
      product(to, ...halves(a), ...halves(b));
      if (told() !== (a * b & ALL)) wrong.push(`${a} * ${b} is ${told()}`);
    }
    for (let by = 0; by < 128; by++) {
      shifted(to, ...halves(a), by, 1);
      if (told() !== (a << BigInt(by) & ALL)) wrong.push(`${a} << ${by} is ${told()}`);
      shifted(to, ...halves(a), by, 0);
      if (told() !== a >> BigInt(by)) wrong.push(`${a} >> ${by} is ${told()}`);
    }
  }
}
for (const seed of SEEDS) tried(seed);
steady();
full();
arithmetic();
console.log([...new Set(wrong), `${SEEDS.length * STEPS} blocks taken, resized and given back, ${wrong.length} wrong`].join("\n"));
process.exitCode = wrong.length ? 1 : 0;

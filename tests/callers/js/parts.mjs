/** Drives the heap and the arithmetic of 128 bits (bindings/js/c) by random operations, in a module of these alone, against what
 * JavaScript says of them. Prints what is wrong. */
import { readFileSync } from "node:fs";
import { randomsOf } from "./randoms.mjs";

const { instance } = await WebAssembly.instantiate(readFileSync(process.argv[2]), {});
const parts = instance.exports;
const { below, bits } = randomsOf(31);
const wrong = [];

function expect(isRight, text) {
  if (!isRight) wrong.push(text);
}

const WIDE = (1n << 128n) - 1n;
const words = () => new BigUint64Array(parts.memory.buffer);

/** A number of up to 128 bits, of which as many are short as long; some are at an end of a range. */
function wide() {
  const number = bits(below(129));
  return [number, WIDE - number, (1n << BigInt(below(128))) - (bits(1))][below(3)] & WIDE;
}

function called(name, ...numbers) {
  const place = parts.allocate(16n);
  parts[name](place, ...numbers);
  const at = Number(place) / 8;
  const [low, high] = words().subarray(at, at + 2);
  parts.release(place);
  return low | (high << 64n);
}

const halves = (number) => [BigInt.asUintN(64, number), number >> 64n];

function arithmetic() {
  for (let round = 0; round < 50_000; round++) {
    const [one, other] = [wide(), wide()];
    const places = below(128);
    const by = BigInt(places);
    const told = [
      ["__multi3", (one * other) & WIDE, ...halves(one), ...halves(other)],
      ["__ashlti3", (one << by) & WIDE, ...halves(one), places],
      ["__lshrti3", one >> by, ...halves(one), places],
      ["__ashrti3", BigInt.asUintN(128, BigInt.asIntN(128, one) >> by), ...halves(one), places],
    ];
    if (other !== 0n) {
      told.push(["__udivti3", one / other, ...halves(one), ...halves(other)]);
      const signed = BigInt.asIntN(128, one) / BigInt.asIntN(128, other);
      told.push(["__divti3", BigInt.asUintN(128, signed), ...halves(one), ...halves(other)]);
      told.push(["__umodti3", one % other, ...halves(one), ...halves(other)]);
    }
    for (const [name, owed, ...given] of told) expect(called(name, ...given) === owed, `${name} of ${given}`);
  }
}

/** A size of a request: mostly small, at times large. */
function size() {
  return Number(bits(below(below(20) === 0 ? 22 : 11)));
}

/** Blocks with what was written into them, as nobody else may write there. */
function heap() {
  const blocks = [];
  const bytes = () => new Uint8Array(parts.memory.buffer);
  const fill = (block, from = 0) => bytes().fill(block.mark, block.at + from, block.at + block.size);
  const isWhole = (block, count) => bytes().subarray(block.at, block.at + count).every((byte) => byte === block.mark);
  for (let round = 0; round < 50_000; round++) {
    const isMore = below(100) < (round % 40_000 < 20_000 ? 60 : 40); // it grows, and shrinks, and grows
    if (isMore || blocks.length === 0) {
      const block = { size: size(), mark: below(256) };
      block.at = Number(parts.allocate(BigInt(block.size)));
      expect(block.at > 0 && block.at % 16 === 0, `a block of ${block.size} at ${block.at}`);
      fill(block);
      blocks.push(block);
    }
    const place = below(blocks.length);
    const block = blocks[place];
    if (below(3) === 0) {
      const [old, now] = [block.size, size()];
      const kept = Math.min(old, now);
      block.at = Number(parts.resize(BigInt(block.at), BigInt(kept), BigInt(now)));
      block.size = now;
      expect(block.at > 0 && isWhole(block, kept), `a block of ${old} that becomes one of ${now}`);
      fill(block);
    } else if (!isMore) {
      expect(isWhole(block, block.size), `a block of ${block.size} was written to`);
      parts.release(BigInt(block.at));
      blocks[place] = blocks.at(-1);
      blocks.pop();
    }
  }
  for (const block of blocks) {
    expect(isWhole(block, block.size), `a block of ${block.size} was written to`);
    parts.release(BigInt(block.at));
  }
  expect(parts.memory_in_use() === 0n, `${parts.memory_in_use()} bytes are left`);
}

/** What was freed is one block again, so the largest request that was met before is met again without more memory. */
function joins() {
  const pages = parts.memory.buffer.byteLength;
  const half = BigInt(pages) / 2n;
  const block = parts.allocate(half);
  expect(block > 0n && parts.memory.buffer.byteLength === pages, `${half} bytes of ${pages} that are free take more`);
  parts.release(block);
}

function refusals() {
  expect(parts.allocate(1n << 50n) === 0n && parts.allocate(-1n) === 0n, "a request that nobody can meet is met");
  expect(parts.allocate(1n << 45n) === 0n, "a request that the engine refuses is met");
  const block = parts.allocate(1000n);
  new Uint8Array(parts.memory.buffer).fill(7, Number(block), Number(block) + 1000);
  parts.limit_memory(parts.memory_in_use() + 2000n);
  expect(parts.allocate(2000n) === 0n, "a request over the limit is met");
  expect(parts.resize(block, 1000n, 4000n) === 0n, "a block grows over the limit");
  const told = new Uint8Array(parts.memory.buffer, Number(block), 1000);
  expect(told.every((byte) => byte === 7), "a block that may not grow is not as it was");
  const small = parts.allocate(1000n);
  expect(small > 0n, "a request below the limit is refused");
  parts.limit_memory(-1n);
  for (const it of [block, small, 0n]) parts.release(it);
  expect(parts.memory_in_use() === 0n, `${parts.memory_in_use()} bytes are left`);
}

arithmetic();
heap();
joins();
refusals();
console.log(wrong.slice(0, 20).join("\n") + (wrong.length ? `\n${wrong.length} wrong` : ""));

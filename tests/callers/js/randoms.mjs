/** Numbers that are drawn, the same ones in each run. */

export function randomsOf(seed) {
  let state = BigInt(seed);

  /** One of 32 bits. */
  function next() {
    state = BigInt.asUintN(64, state * 6364136223846793005n + 1442695040888963407n);
    return Number(state >> 32n);
  }

  return {
    /** A number from 0 to below the limit. */
    below: (limit) => next() % limit,
    /** A number below 2 to the power of `count`. */
    bits(count) {
      let number = 0n;
      for (let left = count; left > 0; left -= 32) number = (number << 32n) | BigInt(next());
      return BigInt.asUintN(count, number);
    },
  };
}

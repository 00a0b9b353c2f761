// Steps of round numbers, for the lines of a curve.

// A step of 1, 2 or 5 times a power of ten, with about so many from low to high.
/** @param {number} low @param {number} high @param {number} count */
export function niceStep(low, high, count) {
  const rough = Math.max(high - low, 1e-9) / count, power = 10 ** Math.floor(Math.log10(rough));
  return power * [1, 2, 5, 10].find(it => it * power >= rough * 0.999);
}

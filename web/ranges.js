// Ranges of values, and places in lists of times.

// The least and the greatest value, or NaN if there is none.
/** @param {ArrayLike<number>} values */
export function extremesOf(values) {
  let low = Infinity, high = -Infinity;
  for (let i = 0; i < values.length; i++) {
    if (values[i] < low) low = values[i];
    if (values[i] > high) high = values[i];
  }
  return low <= high ? { low, high } : { low: NaN, high: NaN };
}

// The range that counts of times, distances or positions with this least and greatest. One counts as a fault if it is far beyond 99 of 100
// others: by more than four times their distance from the median, and four times `reach`. `from` and `to` are the least and the greatest of
// the rest, and `faults` is how many there are.
/** @param {Float64Array} values @param {{ low: number, high: number }} range @param {number} reach */
export function plausible(values, { low, high }, reach) {
  const step = Math.ceil(values.length / 20000), some = [];
  for (let i = 0; i < values.length; i += step) if (values[i] === values[i]) some.push(values[i]);
  const sorted = new Float64Array(some).sort(), size = sorted.length, cut = Math.min(Math.max(1, Math.floor(size / 100)), (size - 1) >> 1);
  const median = sorted[size >> 1], bottom = sorted[cut], top = sorted[size - 1 - cut];
  const lowest = bottom - 4 * Math.max(median - bottom, reach), highest = top + 4 * Math.max(top - median, reach);
  if (low >= lowest && high <= highest) return { from: low, to: high, faults: 0 };
  let from = Infinity, to = -Infinity, faults = 0;
  for (const n of values) {
    if (n < lowest || n > highest) faults++;
    else {
      if (n < from) from = n;
      if (n > to) to = n;
    }
  }
  return { from, to, faults };
}

// The first sample at a time or later.
/** @param {ArrayLike<number>} time @param {number} t */
export function sampleAt(time, t) {
  let low = 0, high = time.length;
  while (low < high) {
    const middle = (low + high) >> 1;
    if (time[middle] < t) low = middle + 1; else high = middle;
  }
  return low;
}

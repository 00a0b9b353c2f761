// A short ride, for the first turn of what saves and draws; and to read our own recordings whose layouts are lost.

import { bytesIn } from './inflating.js';

// What a recorder writes before the first sample: header, file_id, sport and event with their definitions, and the definition of a
// sample with all that devices usually give.
const OPENING = "         F<B7AM{KXY=(m<lQL#\teHH8%  +m2Z$((X4!#.?H6{?L&C  +m</LCm*qQF'Z<2q12Y\t @26_^&Kn!H   {.9Qb3u> @26_^&_u"
  + "HD68V_qT+$+$5  UH#4C]<0L!\tbNsV5M|$V\t%LuA&=/HxY";
const SAMPLES = 2000;

// The two files of docs/JOURNAL-FORMAT.md, with a sample a second. Of their values only the distance has to be in order.
/** @returns {Uint8Array[]} */
export function shortRide() {
  const opening = bytesIn(OPENING), data = new Uint8Array(opening.length + 22 * SAMPLES), length = data.length - 14;
  data.set(opening);
  for (let i = 0, at = opening.length; i < SAMPLES; i++, at += 22) {
    data.fill(i / 32, at, at + 22).set([i, i >> 8, 0, 0], at + 13);
    data[at] = 128 + i % 32;
  }
  return [data, Uint8Array.of(...new TextEncoder().encode('FRJ2\0\0\0\0'), 0xA5, length, length >> 8, length >> 16, ...Array(12).fill(0))];
}

// What a sample may have, in the order of the numbers of its fields: position, altitude, heart rate, cadence, distance, speed, power, temperature.
// For each field its number, size and type, the least and the greatest value that is likely, and by how much the next one differs at most.
const PARTS = [[[0, 4, 0x85, -(2 ** 30), 2 ** 30, 5000], [1, 4, 0x85, -(2 ** 31), 2 ** 31, 5000]], [[2, 2, 0x84, 1500, 50000, 50]], [[3, 1, 2, 30, 230, 10]],
  [[4, 1, 2, 0, 200, 80]], [[5, 4, 0x86, 0, 2 ** 30, 10000]], [[6, 2, 0x84, 0, 40000, 4000]], [[7, 2, 0x84, 0, 2500, 1500]], [[13, 1, 1, -40, 60, 2]]];
const MOST_SIZE = 32, LIKELY = 0.9;

// The layouts that samples of our own recordings may have, where those are lost: by how many bytes after one stands another whose time is a few
// seconds later, in the short form, and whose values are likely.
/** @param {Uint8Array} data @returns {Uint8Array[]} */
export function layoutsFor(data) {
  const counts = Array(MOST_SIZE).fill(0), isShort = n => n >> 5 === 4, follows = (i, k) => isShort(data[i + k]) && (data[i + k] - data[i] & 31) < 8;
  const starts = [...data.keys()].filter(i => isShort(data[i]));
  for (const i of starts) for (let k = 2; k < MOST_SIZE; k++) if (follows(i, k)) counts[k]++;
  const size = counts.findIndex(n => n > LIKELY * Math.max(...counts)), rows = starts.filter(i => follows(i, size)), found = [];
  for (let set = 1; set < 1 << PARTS.length; set++) {
    const own = PARTS.flatMap((it, k) => set >> k & 1 ? it : []);
    if (own.reduce((sum, it) => sum + it[1], 1) !== size) continue;
    found.push({ likely: rows.filter(i => areLikely(data, i + 1, size, own)).length, layout: Uint8Array.of(0x40, 0, 0, 20, 0, own.length, ...own.flatMap(it => it.slice(0, 3))) });
  }
  // Two fields of one byte are more likely than one of two.
  const most = Math.max(...found.map(it => it.likely));
  return found.filter(it => it.likely >= LIKELY * most).map(it => it.layout).sort((a, b) => b.length - a.length);
}

// Whether the values of two samples, which are so many bytes apart, are likely.
function areLikely(data, start, step, fields) {
  const view = new DataView(data.buffer, data.byteOffset);
  let at = start;
  return fields.every(([number, size, type, least, greatest, far]) => {
    const valueAt = i => size === 1 ? type === 1 ? view.getInt8(i) : data[i] : size === 2 ? view.getUint16(i, true) : type === 0x85 ? view.getInt32(i, true)
      : view.getUint32(i, true);
    const [one, next] = at + step + size <= data.length ? [valueAt(at), valueAt(at + step)] : [0, 0], none = 2 ** (8 * size - (type % 2 ? 1 : 0)) - 1;
    at += size;
    const isIn = n => n === none || n >= least && n <= greatest, by = next - one;
    return isIn(one) && isIn(next) && (one === none || next === none || Math.abs(by) <= far && !(number === 5 && by < 0));
  });
}

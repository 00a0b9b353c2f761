// The FIT files in the image of a card: the whole ones, as `fitrec split --all` finds them, and the fronts of others.

import { question, saver } from './asking.js';
import { MARKED, MOST_PASSES } from './fitrec.mjs';
import { LARGEST } from './fronts.js';
import { progress } from './waiting.js';

// An image is read in slices of so many bytes, and in longer ones where a file is longer, up to a length that no activity has.
const SLICE = 2 ** 22, LONGEST = 2 ** 28;

// The files in an image, each named by its place, as far as it can be read, and as long as they are wanted; none if it may be one file itself.
/** @param {File} image @param {() => boolean} isWanted @returns {Promise<File[]>} */
export async function filesIn(image, isWanted) {
  const found = [], begun = new Set();
  let at = 0, size = SLICE, most = MOST_PASSES * (image.size + 1);
  while (at + MARKED <= image.size && isWanted()) {
    progress(4 * at / image.size);
    const card = await image.slice(at, at + size).arrayBuffer().catch(() => null);
    if (!card) break;
    const { files, next, read, begun: more } = await question(saver, { card, at, goesOn: at + size < image.size, most }, [card]);
    // What goes on from its first byte is looked at with more bytes, or is no file.
    const isNone = !next && size >= LONGEST;
    most -= isNone ? size : read;
    if (!files || most <= 0) return [];
    for (const { start, end } of files) found.push({ start: at + start, end: at + end });
    more.forEach(it => begun.add(it));
    at += isNone ? 1 : next;
    size = next || isNone ? SLICE : 2 * size;
  }
  const fronts = await frontsIn(image, found, [...begun]), isOne = !found.length && fronts.length < 2 && image.size <= LONGEST;
  // What may be one file in pieces is read as one.
  return isOne ? [] : [...found, ...fronts].map(({ start, end }) => new File([image.slice(start, end)], `${start}.fit`));
}

// Where fronts of files stand that are not whole: none reaches into the next file.
async function frontsIn(image, found, begun) {
  const fronts = [], isFree = at => !found.some(it => it.start <= at && at < it.end), starts = found.map(it => it.start);
  const free = begun.filter(isFree), all = [...free, ...starts, image.size];
  for (const start of free) {
    const end = Math.min(start + LARGEST, ...all.filter(it => it > start));
    const front = await image.slice(start, end).arrayBuffer().catch(() => null);
    const { size } = front ? await question(saver, { front }, [front]) : { size: 0 };
    if (size) fronts.push({ start, end: start + size });
  }
  return fronts;
}

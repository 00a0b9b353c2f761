// The files in the image of a card that are not whole, such as the one that a device was writing when it died.

// A file begins with a block of so many bytes, and is no longer than this; a shorter front is not worth a file. It may have holes of clusters.
const BLOCK = 512, LEAST = 1024, CLUSTER = 4096;
export const LARGEST = 2 ** 23;

// Where blocks begin as FIT files do: with a header, and the definition of a file_id after it. The bytes stand at a place of the image.
/** @param {Uint8Array} bytes @param {number} at @returns {number[]} */
export function beginningsIn(bytes, at) {
  const found = [];
  for (let start = (BLOCK - at % BLOCK) % BLOCK; start + 20 <= bytes.length; start += BLOCK) {
    const size = bytes[start], isHead = size === 12 || size === 14, mark = [0x2E, 0x46, 0x49, 0x54];
    const isMarked = isHead && mark.every((n, k) => bytes[start + 8 + k] === n), next = start + size;
    if (isMarked && (bytes[next] & 0xF0) === 64 && !bytes[next + 3] && !bytes[next + 4]) found.push(at + start);
  }
  return found;
}

// How many bytes from its beginning on are those of one file, as far as it stands in one piece; 0 if they are too few. The header may state all
// of them, with a wrong checksum after them.
export async function frontOf(fitrec, bytes) {
  const { pieces } = await fitrec.skip(bytes, true).catch(() => ({ pieces: [] })), size = bytes[0], stated = size + new DataView(bytes.buffer).getUint32(4, true);
  let end = size;
  for (const it of pieces) {
    if (it.start > end + CLUSTER || it.kept && it.end - it.start < it.start - end) break;
    if (it.kept) end = it.end;
  }
  return { size: end <= stated && stated <= end + BLOCK ? stated + 2 : end < LEAST ? 0 : end };
}

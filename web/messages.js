// The messages of a FIT file, one after another, and the definitions that tell how they are read.

// The types of numbers of 32 bits.
const LONG = [0x85, 0x86];

// The local number of a message, by its first byte.
/** @type {(head: number) => number} */
export const localOf = head => head & 128 ? head >> 5 & 3 : head & 15;

// The data messages that stand from one place to another, where whole ones stand: from where to where each, under which local number and
// definition, and at which offset in the short form its time is. `latest` has the definitions in force by their local numbers, also after it.
/** @param {Uint8Array} bytes @param {number} from @param {number} to @param {Definition[]} latest @returns {Generator<Message>} */
export function* messagesIn(bytes, from, to, latest) {
  for (let at = from; at < to;) {
    const start = at, head = bytes[at], local = localOf(head), definition = latest[local];
    if ((head & 192) !== 64) {
      at += 1 + definition.size;
      yield { start, end: at, local, definition, offset: head & 128 ? head & 31 : null };
      continue;
    }
    const isBig = bytes[at + 2] === 1, places = [], number = isBig ? bytes[at + 3] << 8 | bytes[at + 4] : bytes[at + 4] << 8 | bytes[at + 3];
    let size = 0;
    at += 5;
    // Its fields, and those of developers.
    for (const isOwn of head & 32 ? [true, false] : [true]) {
      for (let i = at + 1; i < at + 1 + 3 * bytes[at]; i += 3) {
        if (isOwn && bytes[i + 1] === 4 && LONG.includes(bytes[i + 2])) places[bytes[i]] ??= 1 + size;
        size += bytes[i + 1];
      }
      at += 1 + 3 * bytes[at];
    }
    latest[local] = { number, isBig, places, size, bytes: bytes.subarray(start, at) };
  }
}

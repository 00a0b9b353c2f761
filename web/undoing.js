// What was done to a file as a whole, and can be undone: a copy as text, one bit that has changed, a part that stands twice, and two in each
// other's place.

// The sizes of the parts in which cards and copies keep files, and the least of those that take each other's place.
const SIZES = [512, 1024, 2048, 4096, 8192, 16384, 32768], EXCHANGED = 4096;

// So far around the place of a fault the bit is looked for that has changed.
const AROUND = 256;

// The bytes of a file before a copy as text, which puts a 13 before each 10; null if there is a 10 without one.
/** @param {Uint8Array} data @returns {Uint8Array | null} */
export function beforeText(data) {
  const isAdded = i => data[i] === 13 && data[i + 1] === 10;
  return data.every((n, i) => n !== 10 || isAdded(i - 1)) ? data.filter((_, i) => !isAdded(i)) : null;
}

// What a file may have been before it was damaged in such a way, where these parts of it cannot be read: each with what is said of it, and
// whether it has another one of these layouts.
/** @param {Uint8Array} data @param {Piece[]} left @param {Piece[]} layouts @returns {Generator<[made: Uint8Array, why: string, isLayout?: boolean]>} */
export function* undoings(data, left, layouts) {
  const sum = sumOf(data, 0, data.length);
  for (const [i, bit] of bitsIn(data, sum)) {
    const isNear = left.some(({ start }) => Math.abs(i - start) < AROUND);
    if (!isNear && !layouts.some(({ start, end }) => i >= start && i < end)) continue;
    const made = data.slice();
    made[i] ^= bit;
    yield [made, 'bitWhy', !isNear];
  }
  const places = sum ? placesIn(data) : [];
  for (const size of SIZES) {
    for (let at = size; at + size <= data.length; at += size) if (isTwice(data, at, size)) yield [bytesWithout(data, at, size), 'orderWhy'];
    for (const [one, other] of size < EXCHANGED || !sum ? [] : exchangesIn(data, size, sum, places)) {
      const made = data.slice();
      made.copyWithin(one, other, other + size);
      made.set(data.subarray(one, one + size), other);
      yield [made, 'orderWhy'];
    }
  }
}

// Whether a part that someone has written is as the one before it.
function isTwice(data, at, size) {
  const part = data.subarray(at, at + size);
  return part.every((n, i) => n === data[at - size + i]) && part.some(n => n !== part[0]);
}

function bytesWithout(data, at, size) {
  const made = new Uint8Array(data.length - size);
  made.set(data.subarray(0, at));
  made.set(data.subarray(at + size), at);
  return made;
}

// The checksum of FIT after one more byte: of 16 bits, by x^16 + x^15 + x^2 + 1, the lowest bit first. That of a file with its checksum is 0.
const TABLE = Uint16Array.from({ length: 256 }, (_, n) => {
  for (let i = 0; i < 8; i++) n = n & 1 ? n >> 1 ^ 0xA001 : n >> 1;
  return n;
});
const after = (sum, n) => TABLE[(sum ^ n) & 255] ^ sum >> 8;

function sumOf(data, from, to) {
  let sum = 0;
  for (let i = from; i < to; i++) sum = after(sum, data[i]);
  return sum;
}

// The bits of which one has to change, so that the checksum is right: the place of a byte, and the bit. Every 32,767 bits there is one.
function* bitsIn(data, sum) {
  const own = Uint16Array.from({ length: 8 }, (_, k) => after(0, 1 << k));
  for (let i = data.length - 1; sum && i >= 0; i--) {
    for (let k = 0; k < 8; k++) {
      if (own[k] === sum) yield [i, 1 << k];
      own[k] = after(own[k], 0);
    }
  }
}

// What each bit of the checksum of a part becomes at the end of the file, by where the part ends: after each multiple of the least size.
function placesIn(data) {
  const found = [], bits = Uint16Array.from({ length: 16 }, (_, k) => 1 << k);
  for (let end = data.length; end > 0; end--) {
    if (end % EXCHANGED === 0) found[end / EXCHANGED] = bits.slice();
    for (let i = 0; i < 16; i++) bits[i] = after(bits[i], 0);
  }
  return found;
}

// The places of parts of a size that have to take each other's, so that the checksum is right: it is the sum (xor) of those of the parts, each
// as it becomes at the end.
function* exchangesIn(data, size, sum, places) {
  const count = Math.floor(data.length / size), sums = Array.from({ length: count }, (_, k) => sumOf(data, k * size, (k + 1) * size));
  const at = (k, n) => {
    const own = places[(k + 1) * size / EXCHANGED];
    let all = 0;
    for (let i = 0; i < 16; i++) if (n >> i & 1) all ^= own[i];
    return all;
  };
  for (let i = 0; i < count; i++) for (let k = i + 1; k < count; k++) {
    const n = sums[i] ^ sums[k];
    if (n && (at(i, n) ^ at(k, n)) === sum) yield [i * size, k * size];
  }
}

// Inflates what web/build has deflated.

// The letters that stand for those that a text between " cannot have.
const OTHERS = { '\t': '"', '~': '\\' };

// The bytes of a text in base 94, without the zeros at their front: eleven letters for each nine bytes, from a space on.
/** @param {string} text */
export function bytesIn(text) {
  const bytes = new Uint8Array(text.length / 11 * 9);
  for (let i = 0; i * 11 < text.length; i++) {
    let n = 0n;
    for (const it of text.slice(11 * i, 11 * i + 11)) n = 94n * n + BigInt((OTHERS[it] || it).charCodeAt(0) - 32);
    for (let k = 9 * i + 8; k >= 9 * i; k--, n >>= 8n) bytes[k] = Number(n & 255n);
  }
  return bytes.subarray(bytes.findIndex(it => it > 0));
}

/** @param {string} packed @returns {Promise<ArrayBuffer>} */
export async function inflated(packed) {
  return new Response(new Blob([bytesIn(packed)]).stream().pipeThrough(new DecompressionStream('deflate'))).arrayBuffer();
}

// Several files as one, in the form of ZIP, without compression.

const CRC_TABLE = Uint32Array.from({ length: 256 }, (_, n) => {
  for (let bit = 0; bit < 8; bit++) n = n & 1 ? n >>> 1 ^ 0xEDB88320 : n >>> 1;
  return n;
});

function crc32(bytes) {
  let register = -1;
  for (const byte of bytes) register = register >>> 8 ^ CRC_TABLE[(register ^ byte) & 255];
  return ~register >>> 0;
}

// A header of numbers, each with its count of bytes, low byte first.
function header(...numbers) {
  const bytes = numbers.flatMap(([number, count]) => Array.from({ length: count }, (_, i) => Math.floor(number / 256 ** i) % 256));
  return Uint8Array.from(bytes);
}

// Each file has a name of plain letters and a Blob.
/** @param {{ name: string, file: Blob }[]} files @returns {Promise<Blob>} */
export async function zipOf(files) {
  const parts = [], ends = [];
  let at = 0, endSize = 0;
  for (const { name, file } of files) {
    const bytes = new Uint8Array(await file.arrayBuffer()), nameBytes = new TextEncoder().encode(name);
    // the date 1980-01-01, then checksum and sizes
    const facts = [[0, 2], [0, 2], [0x21, 2], [crc32(bytes), 4], [bytes.length, 4], [bytes.length, 4], [nameBytes.length, 2], [0, 2]];
    const front = header([0x04034B50, 4], [20, 2], [0x800, 2], ...facts);
    const end = header([0x02014B50, 4], [20, 2], [20, 2], [0x800, 2], ...facts, [0, 2], [0, 2], [0, 2], [0, 4], [at, 4]);
    parts.push(front, nameBytes, file);
    ends.push(end, nameBytes);
    at += front.length + nameBytes.length + bytes.length;
    endSize += end.length + nameBytes.length;
  }
  const close = header([0x06054B50, 4], [0, 2], [0, 2], [files.length, 2], [files.length, 2], [endSize, 4], [at, 4], [0, 2]);
  return new Blob([...parts, ...ends, close], { type: 'application/zip' });
}

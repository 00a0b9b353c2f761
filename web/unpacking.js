// What ZIP and GZ files have in them takes their place, such as the exports of websites, and so do the files in the image of a card. The
// browser inflates.

import { filesIn } from './finding.js';
import { headOf, kindOf, torn } from './picking.js';

// So many bytes come out of all that is chosen at once, at most, and archives lie in one another so deep.
const MOST_UNPACKED = 2 ** 29, DEEPEST = 3;

// Files with their folders, without archives and images that have a FIT file or a journal in them. An archive that has none stays, and is
// refused by its name, and so is what is too long to be one file. `isWanted` says whether they are still asked for. Beside them are the names
// of archives that were cut off.
/** @param {Chosen[]} files @param {() => boolean} isWanted @returns {Promise<{ files: Chosen[], cut: string[] }>} */
export async function unpacked(files, isWanted) {
  const left = { room: MOST_UNPACKED, isWanted, cut: [] }, found = [];
  for (const it of files) found.push(...await contentOf(it, left, DEEPEST));
  return { files: found, cut: left.cut };
}

async function contentOf({ file, folder }, left, depth) {
  const head = await headOf(file), isZip = /^PK/.test(head), isArchive = isZip || /^\x1F\x8B/.test(head), found = [];
  // In a folder or an archive nothing is taken for an image: films and maps in it may be long.
  if (isArchive ? !depth : folder || kindOf(head)) return [{ file, folder }];
  const whole = async () => ({ name: file.name.replace(/\.gz$/i, ''), ...await inflatedOf(file, left) });
  if (!isArchive) for (const it of await filesIn(file, left.isWanted)) found.push({ file: it, folder: `${file.name}/`, isPart: true });
  else for (const { name, parts, isTorn } of isZip ? await entriesOf(file, left) : [await whole()]) {
    const own = name.split('/').pop(), path = isZip ? `${file.name}/${name.slice(0, name.length - own.length)}` : '';
    const made = new File(parts, own);
    if (isTorn) torn.add(made);
    if (isTorn && !isZip) left.cut.push(file.name);
    found.push(...await contentOf({ file: made, folder: folder + path }, left, depth - 1));
  }
  return found.length ? found : [{ file, folder, isArchive: isArchive || file.size > MOST_UNPACKED }];
}

// What a GZ file has, and whether that was cut off: it ends with the length of it.
async function inflatedOf(file, left) {
  const { parts, isRead } = await inflatedFrom(file, 'gzip', left), stated = new DataView(await file.slice(-4).arrayBuffer());
  return { parts, isTorn: isRead && stated.getUint32(0, true) !== parts.reduce((sum, it) => sum + it.length, 0) };
}

// So many bytes at a time are inflated where there is a fault, since all of that time are lost. What is checked stands in the last ones.
const BIT = 64, CHECKED = 8;

// What inflates of a file, up to the first fault in it; and whether it is read to its end, and goes on there.
async function inflatedFrom(blob, format, left, bits = null) {
  const from = bits ? inBits(blob, bits) : blob.stream(), reader = from.pipeThrough(new DecompressionStream(format)).getReader(), parts = [];
  for (;;) {
    const { done, value, fault } = await reader.read().catch(() => ({ done: true, fault: true }));
    if (fault && !bits) {
      left.room += parts.reduce((sum, it) => sum + it.length, 0);
      return inflatedFrom(blob, format, left, { at: 0 });
    }
    if (done) return { parts, isRead: fault && bits.at === blob.size };
    left.room -= value.length;
    if (left.room < 0) {
      reader.cancel().catch(() => {});
      throw new RangeError('too much');
    }
    parts.push(value);
  }
}

// `bits.at` is how far it was read.
function inBits(blob, bits) {
  return new ReadableStream({ async pull(to) {
    const { at } = bits, end = Math.min(at + BIT, at < blob.size - CHECKED ? blob.size - CHECKED : blob.size);
    if (end <= at) return to.close();
    to.enqueue(new Uint8Array(await blob.slice(at, bits.at = end).arrayBuffer()));
  } });
}

// The directory of a ZIP file ends with so many bytes at most.
const DIRECTORY_END = 65557;

// What stands before an entry, what may stand after it, an entry of the directory, and its end.
const ENTRY = 0x04034B50, AFTER = 0x08074B50, LISTED = 0x02014B50, END = 0x06054B50;

// The entries of a ZIP file whose names are those of rides or archives.
async function entriesOf(file, left) {
  const viewOf = async (from, size) => new DataView(await file.slice(from, from + size).arrayBuffer()), found = [];
  const listed = await listedIn(file, viewOf);
  if (!listed) left.cut.push(file.name);
  const entries = listed || entriesIn(await viewOf(0, file.size));
  for (const { start, size } of entries) {
    const entry = await viewOf(start, 30);
    if (entry.byteLength < 30) continue;
    const nameEnd = start + 30 + entry.getUint16(26, true), content = nameEnd + entry.getUint16(28, true);
    const name = new TextDecoder().decode(await file.slice(start + 30, nameEnd).arrayBuffer()), packed = file.slice(content, content + size);
    if (!/\.(fit|frj|gz|zip)$/i.test(name)) continue;
    const isTorn = !listed && start === entries[entries.length - 1].start;
    found.push({ name, ...entry.getUint16(8, true) ? await inflatedFrom(packed, 'deflate-raw', left) : { parts: [packed] }, isTorn });
  }
  return found;
}

// Where the entries of a ZIP file begin, and their sizes, by the directory at its end; null if that is lost.
async function listedIn(file, viewOf) {
  const tail = await viewOf(Math.max(0, file.size - DIRECTORY_END), DIRECTORY_END), found = [];
  let end = tail.byteLength - 22;
  while (end >= 0 && tail.getUint32(end, true) !== END) end--;
  if (end < 0) return null;
  const view = await viewOf(tail.getUint32(end + 16, true), tail.getUint32(end + 12, true));
  for (let i = 0; i + 46 <= view.byteLength && view.getUint32(i, true) === LISTED;) {
    found.push({ start: view.getUint32(i + 42, true), size: view.getUint32(i + 20, true) });
    i += 46 + [28, 30, 32].reduce((sum, k) => sum + view.getUint16(i + k, true), 0);
  }
  return found;
}

// The same by what stands before each, and after those whose sizes do not stand before them.
function entriesIn(view) {
  const found = [];
  for (let i = 0; i + 30 <= view.byteLength; i++) {
    if (view.getUint16(i, true) !== (ENTRY & 0xFFFF)) continue;
    const sign = view.getUint32(i, true), last = found[found.length - 1];
    if (last && !last.size && [ENTRY, AFTER, LISTED].includes(sign)) last.size = i - last.content;
    if (sign !== ENTRY) continue;
    const content = i + 30 + view.getUint16(i + 26, true) + view.getUint16(i + 28, true);
    found.push({ start: i, content, size: view.getUint32(i + 18, true) });
  }
  const last = found[found.length - 1];
  if (last && !last.size) last.size = Math.max(0, view.byteLength - last.content);
  return found;
}

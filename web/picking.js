// What is chosen or dropped: files, folders and cards. They are known by their first bytes, and two files of one recording are one ride.

import { LOCALE, text } from './formats.js';

// Files with their folders, of a list of files or of a drop. Chromium reads dropped folders by handles, and by nothing else where the page
// lies on a disk. Other browsers read them by entries. A drop lends both only as long as its event lasts.
/** @param {any} given an input or what is dropped @returns {Promise<Chosen[]>} */
export async function filesOf({ files, items }) {
  const dropped = [...(items || [])], found = [];
  const handles = dropped.map(it => it.getAsFileSystemHandle && it.getAsFileSystemHandle());
  const entries = dropped.map(it => it.webkitGetAsEntry && it.webkitGetAsEntry());
  if (!entries.some(it => it && it.isDirectory)) {
    return [...files].map(file => ({ file, folder: (file.webkitRelativePath || '').replace(/[^/]*$/, '') }));
  }
  for (const [i, entry] of entries.entries()) {
    const handle = await handles[i];
    if (handle) await walk(handle, '', found);
    else if (entry) await walkEntry(entry, '', found);
  }
  return found;
}

async function walk(handle, folder, found) {
  if (handle.kind === 'file') found.push({ file: await handle.getFile(), folder });
  else for await (const it of handle.values()) await walk(it, `${folder}${handle.name}/`, found);
}

async function walkEntry(entry, folder, found) {
  if (entry.isFile) return found.push({ file: await new Promise((done, fail) => entry.file(done, fail)), folder });
  const reader = entry.createReader();
  for (let some; (some = await new Promise((done, fail) => reader.readEntries(done, fail))).length;) {
    for (const it of some) await walkEntry(it, `${folder}${entry.name}/`, found);
  }
  return found;
}

// A file with its kind: 'fit', 'journal' or 'other'. `isOpen` is of a recording that was not closed. What a Mac leaves beside each file of
// a card has the same name after two characters.
/** @param {Chosen} chosen */
async function known(chosen) {
  const { name } = chosen.file, head = await headOf(chosen.file);
  const byName = /^\._/.test(name) ? 'other' : /\.frj$/i.test(name) ? 'journal' : /\.fit$/i.test(name) ? 'fit' : 'other';
  return { ...chosen, kind: kindOf(head) || byName, base: name.replace(/\.[^.]*$/, '').toLowerCase(), isOpen: head.slice(4, 8) === '\0\0\0\0' };
}

// The first bytes of a file, as letters. One that cannot be read is read again with its ride, and reported there.
/** @param {Blob} file */
export async function headOf(file) {
  return String.fromCharCode(...new Uint8Array(await file.slice(0, 12).arrayBuffer().catch(() => new ArrayBuffer(0))));
}

// What a file with these first bytes is, if it is a part of a recording.
/** @type {(head: string) => string} */
export const kindOf = head => head.slice(8) === '.FIT' ? 'fit' : /^FRJ/.test(head) ? 'journal' : '';

// The rides of some files, in the order of folders and names, each with `data` and `journal` or one of them; the other files, and how many
// are none.
/** @param {Chosen[]} files @returns {Promise<{ rides: Files[], rest: Files[], others: number }>} */
export async function ridesOf(files) {
  const found = [], rides = [];
  const { compare } = new Intl.Collator(LOCALE, { numeric: true });
  files.sort((a, b) => compare(a.folder, b.folder) || compare(a.file.name, b.file.name));
  for (const it of files) found.push(await known(it));
  const ours = found.filter(it => it.kind !== 'other'), folders = new Set(ours.map(it => it.folder));
  const rest = found.filter(it => it.kind === 'other').map(it => rideFrom(it));
  if (!ours.length) return { rides: rest.slice(0, 1), rest: rest.slice(1), others: 0 };
  for (const folder of folders) {
    const of = kind => ours.filter(it => it.folder === folder && it.kind === kind), fits = of('fit'), journals = of('journal');
    const taken = new Map();
    for (const journal of journals) {
      const own = fits.find(data => data.base === journal.base && !taken.has(data));
      if (own) taken.set(own, journal);
    }
    const left = journals.filter(it => ![...taken.values()].includes(it)), free = fits.filter(it => !taken.has(it));
    const open = free.filter(it => it.isOpen), match = free.length === 1 ? free[0] : open.length === 1 ? open[0] : null;
    if (left.length === 1 && match) taken.set(match, left.pop());
    rides.push(...fits.map(it => rideFrom(it, taken.get(it))), ...left.map(it => rideFrom(null, it)));
  }
  return { rides, rest, others: rest.length };
}

function rideFrom(data, journal) {
  const { file, folder, isArchive, isPart } = data || journal;
  return { data: data && data.file, journal: journal && journal.file, name: file.name, folder, isArchive, isPart };
}

// The rides of files that are chained in one.
/** @param {Files} chain @param {Uint8Array[]} parts @returns {Files[]} */
export function ridesIn({ name, folder }, parts) {
  return parts.map((bytes, i) => {
    const data = new Blob([bytes]);
    kept.set(data, { blob: data });
    return { data, name: `${name} (${text('ofMany', { n: i + 1, all: parts.length })})`, folder, isPart: true };
  });
}

// Files of which the archive was cut off that they were in.
/** @type {WeakSet<Blob>} */
export const torn = new WeakSet();

// What is kept of each file that was read. Nothing is read twice, so that a card can be pulled out.
const kept = new WeakMap();

/** @param {Blob} file @returns {Promise<{ blob: Blob, unread?: number }>} */
export async function keptOf(file) {
  if (!kept.has(file)) kept.set(file, await frontOf(file));
  return kept.get(file);
}

// Reads the files of a ride. One that cannot be read is tried again, and reported, when the ride is asked for.
/** @param {Files} ride */
export async function keep({ data, journal, isArchive }) {
  for (const file of [data, journal]) if (file && !isArchive) await keptOf(file).catch(() => {});
}

// The bytes of a file up to the first that cannot be read, and that place, if there is one after the first byte.
async function frontOf(file) {
  const parts = [];
  let at = 0;
  for (let size = file.size; at < file.size;) {
    try {
      parts.push(await file.slice(at, at + size).arrayBuffer());
      at += size;
    } catch (error) {
      if (error instanceof RangeError || (size === 1 && at === 0)) throw error;
      if (size === 1) break;
      size = Math.ceil(size / 2);
    }
  }
  return { blob: new Blob(parts), unread: at < file.size ? at : undefined };
}

// The rides whose files are those of one before, each with that one.
/** @param {Files[]} rides @returns {Promise<Files[][]>} */
export async function pairsIn(rides) {
  const found = [];
  for (const [i, ride] of rides.entries()) {
    for (const other of rides.slice(0, i)) {
      if (!await isSame(ride.data, other.data) || !await isSame(ride.journal, other.journal)) continue;
      found.push([ride, other]);
      break;
    }
  }
  return found;
}

async function isSame(a, b) {
  if (!a || !b || a.size !== b.size) return a === b;
  const [own, other] = await Promise.all([a, b].map(it => keptOf(it).then(({ blob }) => blob.arrayBuffer(), () => new ArrayBuffer(0))));
  const bytes = new Uint8Array(other);
  return own.byteLength === a.size && new Uint8Array(own).every((n, i) => n === bytes[i]);
}

// So many files may be pieces of others, of so many bytes at most.
const MOST_PIECES = 8, LARGEST = 2 ** 23;

// Puts together what a tool or a copy cut one file into: the rides, and those of other files that are no piece. `find` tells which are.
/** @param {Files[]} rides @param {Files[]} rest @param {(cuts: Uint8Array[]) => Promise<number[][]>} find */
export async function wholesOf(rides, rest, find) {
  const mayBe = [];
  for (const it of rides.filter(own => own.data)) if (isShort(it)) mayBe.push({ it, isHead: kindOf(await headOf(it.data)) === 'fit' });
  const heads = mayBe.filter(({ isHead }) => isHead).map(({ it }) => it), folders = heads.map(it => it.folder);
  const beside = rest.filter(it => folders.includes(it.folder) && isShort(it));
  const tails = [...mayBe.filter(({ isHead, it }) => !isHead && !it.journal).map(({ it }) => it), ...beside];
  if (!heads.length || !tails.length || tails.length > MOST_PIECES) return { rides, rest };
  const all = [...heads, ...tails];
  const bytes = await Promise.all(all.map(async it => new Uint8Array(await (await keptOf(it.data)).blob.arrayBuffer())));
  const rows = (await find(bytes)).map(row => row.map(k => all[k])), used = rows.flat();
  const wholes = new Map(rows.map(row => [row[0], row])), isFree = it => !used.includes(it);
  const bytesIn = row => row.map(it => bytes[all.indexOf(it)]), madeOf = row => wholeOf(row[0], row.map(it => it.name), bytesIn(row));
  return { rides: rides.filter(it => isFree(it) || wholes.has(it)).map(it => wholes.has(it) ? madeOf(wholes.get(it)) : it), rest: rest.filter(isFree) };
}

const isShort = it => it.data.size <= LARGEST && !it.isArchive && !it.isPart && !it.like;

/** @type {(ride: Files, pieces: string[], bytes: Uint8Array[], isCopies?: boolean) => Files} */
function wholeOf(ride, pieces, bytes, isCopies = false) {
  const data = new Blob(bytes);
  kept.set(data, { blob: data });
  return { ...ride, data, pieces, isCopies, name: pieces.join(' + '), how: null };
}

// Puts together what two damaged copies of one file have, by length or by their file_id; null if they are none. `find` tells what that is.
/** @param {Files[]} copies @param {(copies: Uint8Array[]) => Promise<{ made: Uint8Array | null }>} find @returns {Promise<Files | null>} */
export async function oneOf([ride, other], find) {
  const isAlike = ride.data && other.data && (ride.data.size === other.data.size || ride.id && ride.id === other.id);
  if (!isAlike || ![ride, other].every(it => isShort(it) && !it.journal && !['whole', 'otherKind'].includes(it.heading))) return null;
  const bytes = await Promise.all([ride, other].map(async it => new Uint8Array(await (await keptOf(it.data)).blob.arrayBuffer())));
  const { made } = await find(bytes), namesOf = it => it.isCopies ? it.pieces : [it.folder + it.name];
  return made ? wholeOf(ride, [...namesOf(ride), ...namesOf(other)], [made], true) : null;
}

// What the worker is given of a ride.
/** @param {Files} ride @returns {Promise<Given>} */
export async function bytesOf({ data, journal, like, likeName, name, isPart, halves, pieces, isCopies }) {
  if (halves) return { name, parts: await Promise.all(halves.map(async it => new Uint8Array(await (it.file || (await keptOf(it.data)).blob).arrayBuffer()))) };
  const read = async file => new Uint8Array(await (await keptOf(file)).blob.arrayBuffer());
  const [bytes, other, lent] = await Promise.all([data, journal, like].map(it => it && read(it)));
  const unread = data && kept.get(data).unread;
  return { name, isPart, journalName: journal && journal.name, data: bytes, unread, journal: other, like: lent, likeName, pieces, isCopies, isTorn: torn.has(data) };
}

// The library fit_c as an ES module, over its WebAssembly module. include/fitrec.h says what each call does.
//
//     import { open } from './fitrec.mjs';
//
//     const fitrec = await open(bytes);                             // of fit_c.wasm
//     const { file, summary } = await fitrec.save(data, journal);
//     const [time, heart] = await fitrec.columns(file, 20, [253, 3]);
//
// Files are given and answered as Uint8Array. What is refused is thrown as a FitError.

// What a call may add to a file; and answers of calls: that a buffer is too small, and that a time would be none.
export const CLOSING_ROOM = 254, FINISH_ROOM = 300, FRAME_ROOM = 16, NO_ROOM = 20, MORE_PIECES = 25, TOO_FAR = 28;
const ABSENT = 0xFFFFFFFF, PAGE = 65536;

// Where files are looked for: how often as many bytes as there are may be read in vain, and how many bytes of a header have its mark.
export const MOST_PASSES = 32, MARKED = 12;

// Why bytes are no FIT file; why a file is no activity; why a ride is not saved, salvaged, moved, joined or finished.
const FAULTS = { 1: 'Truncated', 2: 'HeaderSize', 3: 'Magic', 4: 'Protocol', 5: 'HeaderCrc', 6: 'UndefinedLocal', 7: 'SplitMessage',
  8: 'FileCrc', 9: 'TrailingBytes' };
const CHECKED = { ...FAULTS, 11: 'NoFileId', 12: 'NotActivity', 13: 'NoLap', 14: 'NoSession', 15: 'NoActivity' };
const SAVED = { 7: 'NothingRecorded', 8: 'Damaged', 16: 'Changed' };
const SALVAGED = { 1: 'Truncated', 2: 'HeaderSize', 3: 'Magic', 4: 'Protocol', 22: 'TooLarge' };
const PLAIN = { ...FAULTS, 21: 'TooLong' };
const SHIFTED = { ...PLAIN, 27: 'NoTime', [TOO_FAR]: 'TimeTooFar' };
const JOINED = { ...PLAIN, 29: 'OtherSport', 30: 'Overlap', 32: 'TooManyFiles' };
const FINISHED = { ...FAULTS, 12: 'NotActivity', 21: 'TooLarge', 26: 'NoSample' };

// Why something was refused: its kind, such as 'Damaged', and the place in bytes, if a byte is at fault.
export class FitError extends Error {
  constructor(kind, place) {
    super(place === undefined ? kind : `${kind} at ${place}`);
    this.kind = kind;
    this.place = place;
  }
}

function refuseUnless0(code, kinds, place) {
  if (code) throw new FitError(kinds[code] || 'Unexpected' + code, (code < 10 && kinds !== SAVED && kinds !== SALVAGED) || code === TOO_FAR ? place : undefined);
}

// The memory of a new instance, in which buffers lie one after another.
export class Memory {
  constructor({ exports }) {
    this.exports = exports;
    this.end = Number(exports.__heap_base.value);
  }

  get bytes() { return new Uint8Array(this.exports.memory.buffer); }
  get view() { return new DataView(this.exports.memory.buffer); }

  room(size) {
    const at = 16 * Math.ceil(this.end / 16), missing = at + size - this.bytes.length;
    if (missing > 0) this.exports.memory.grow(Math.ceil(missing / PAGE));
    this.end = at + size;
    return at;
  }

  put(content, spare = 0) {
    const at = this.room(content.length + spare);
    this.bytes.set(content, at);
    return at;
  }

  number(n = 0) {
    const at = this.room(8);
    this.view.setBigUint64(at, BigInt(n), true);
    return at;
  }

  long(at) { return Number(this.view.getBigUint64(at, true)); }
  part(at, length) { return this.bytes.subarray(at, at + length); }
  copy(at, length) { return this.part(at, length).slice(); }

  // Pointers and lengths are numbers, and have 64 bits. A truth value and a Number object have 32.
  call(name, ...numbers) { return this.exports[name](...numbers.map(n => typeof n === 'number' ? BigInt(n) : n)); }

  pieces(at, count) {
    return Array.from({ length: count }, (_, i) => {
      const piece = at + 24 * i;
      return { start: this.long(piece), end: this.long(piece + 8), kept: this.bytes[piece + 16] === 1 };
    });
  }

  summary(at) {
    const [records, laps, sessions, start, elapsed, timer, distance] = [0, 1, 2, 3, 4, 5, 6].map(i => {
      const n = this.view.getUint32(at + 4 * i, true);
      return n === ABSENT ? null : n;
    });
    return { records, laps, sessions, start, elapsed, timer, distance };
  }
}

// The calls of a module, which is given as its bytes or as a WebAssembly.Module.
/**
 * @typedef {Awaited<ReturnType<typeof open>>} Fitrec
 * @param {BufferSource | WebAssembly.Module} source
 */
export async function open(source) {
  const module = source instanceof WebAssembly.Module ? source : await WebAssembly.compile(source);
  const fresh = async () => new Memory(await WebAssembly.instantiate(module));

  // A file that a call writes; it is called again with more room if it needs that.
  async function written(name, kinds, file, room, ...before) {
    for (;;) {
      const memory = await fresh(), at = memory.put(file), out = memory.room(room), length = memory.number(), place = memory.number();
      const code = memory.call(name, at, file.length, ...before, out, room, length, place);
      if (code !== NO_ROOM) {
        refuseUnless0(code, kinds, memory.long(place));
        return memory.copy(out, memory.long(length));
      }
      room = memory.long(length);
    }
  }

  const fitrec = {
    // The ride of a recording, as a file with every time in full, its summary, and how many bytes of whole messages follow its last commit.
    // A file that is lent lies in the memory of the module, and is to be copied.
    async save(data, journal, isLent = false) {
      const memory = await fresh(), room = data.length + CLOSING_ROOM, outRoom = 2 * data.length + 1024;
      const atData = memory.put(data, CLOSING_ROOM), length = memory.number(data.length), atJournal = memory.put(journal);
      const journalLength = memory.number(journal.length), out = memory.room(outRoom), outLength = memory.number(), summary = memory.room(28);
      const uncommitted = uncommittedAt(memory, atData, data.length, atJournal, journal.length);
      const code = memory.call('fitrec_save', atData, room, length, atJournal, journal.length, journalLength, out, outRoom, outLength, summary);
      const saved = { summary: memory.summary(summary), uncommitted };
      if (code === NO_ROOM) return { file: await fitrec.plain(memory.copy(atData, memory.long(length))), ...saved };
      refuseUnless0(code, SAVED);
      return { file: isLent ? memory.part(out, memory.long(outLength)) : memory.copy(out, memory.long(outLength)), ...saved };
    },

    // The same with the times in the short form of recorders.
    async repair(data, journal) {
      const memory = await fresh(), room = data.length + CLOSING_ROOM, atData = memory.put(data, CLOSING_ROOM), length = memory.number(data.length);
      const atJournal = memory.put(journal), journalLength = memory.number(journal.length), summary = memory.room(28);
      refuseUnless0(memory.call('fitrec_repair', atData, room, length, atJournal, journal.length, journalLength, summary), SAVED);
      return { file: memory.copy(atData, memory.long(length)), summary: memory.summary(summary) };
    },

    // How many bytes of whole messages follow the last commit of a recording.
    async uncommitted(data, journal) {
      const memory = await fresh();
      return uncommittedAt(memory, memory.put(data), data.length, memory.put(journal), journal.length);
    },

    // The journal without its last commit, if what that counts has changed, and how many bytes that leaves out; or null.
    async leaveChanged(data, journal) {
      const memory = await fresh(), atData = memory.put(data), atJournal = memory.put(journal), count = memory.number();
      if (memory.call('fitrec_leave_changed', atData, data.length, atJournal, journal.length, count)) return null;
      return { journal: memory.copy(atJournal, journal.length), count: memory.long(count) };
    },

    // What is readable of a file, as a new file. With `all` the length in its header does not count.
    async salvage(file, all = false) {
      const memory = await fresh(), { at, length, ...counts } = salvagedAt(memory, memory.put(file), file.length, all);
      return { ...counts, file: memory.copy(at, length) };
    },

    // What is readable of a damaged file, also after its faults, as a new file; and which bytes of the old one are kept and left out.
    async skip(file, all = false) {
      const memory = await fresh(), room = file.length + FRAME_ROOM, at = memory.put(file), out = memory.room(room), length = memory.number();
      const counts = memory.room(24), pieceCount = memory.number(), free = memory.end;
      for (let pieceRoom = 64; ; pieceRoom = memory.long(pieceCount)) {
        memory.end = free;
        const pieces = memory.room(24 * pieceRoom), given = [at, file.length, Boolean(all), out, room, length, pieces, pieceRoom, pieceCount, counts];
        const code = memory.call('fitrec_skip', ...given);
        if (code === MORE_PIECES) continue;
        refuseUnless0(code, SALVAGED);
        const [kept, looked, more] = [0, 8, 16].map(i => memory.long(counts + i));
        return { kept, looked, more, file: memory.copy(out, memory.long(length)), pieces: memory.pieces(pieces, memory.long(pieceCount)) };
      }
    },

    // The files that are chained in one, in order. What begins with no header comes last.
    async split(file) {
      const memory = await fresh(), at = memory.put(file), files = [];
      for (let start = 0; start < file.length;) {
        const end = start + Number(memory.call('fitrec_first_file', at + start, file.length - start));
        files.push(file.slice(start, end));
        start = end;
      }
      return files;
    },

    // The whole files that stand somewhere in bytes, such as the image of a card: from where to where each, and how many bytes were read in vain
    // of what is none. Where those are `most`, it is refused. Of a part of an image that `goesOn`, `next` is where the part after it begins: with
    // a file that is not all there, or with what may be a header.
    async find(bytes, goesOn = false, most = MOST_PASSES * (bytes.length + 1)) {
      const memory = await fresh(), at = memory.put(bytes), summary = memory.room(28), place = memory.number(), files = [];
      let next = 0, read = 0;
      for (let start; (start = markFrom(bytes, next + 8) - 8) >= 0;) {
        const size = Number(memory.call('fitrec_first_file', at + start, bytes.length - start));
        const fault = FAULTS[memory.call('fitrec_check', at + start, size, summary, place)];
        if (goesOn && fault === 'Truncated') return { files, next: start, read };
        if (!fault) files.push({ start, end: start + size });
        else if ((read += memory.long(place)) >= most) throw new FitError('TooManyHeaders');
        next = start + (fault ? 1 : size);
      }
      return { files, next: Math.max(next, bytes.length - MARKED + 1), read };
    },

    // The summary of a file, which has to be a finished activity.
    async check(file) {
      const memory = await fresh(), at = memory.put(file), summary = memory.room(28), place = memory.number();
      refuseUnless0(memory.call('fitrec_check', at, file.length, summary, place), CHECKED, memory.long(place));
      return memory.summary(summary);
    },

    // The file with the file_id and the closing messages that the activity lacks, and how many entries were heard and how many left out.
    async finish(file) {
      const memory = await fresh(), room = file.length + FINISH_ROOM;
      const at = memory.put(file), out = memory.room(room), length = memory.number(), counts = memory.room(16), place = memory.number();
      refuseUnless0(memory.call('fitrec_finish', at, file.length, out, room, length, counts, place), FINISHED, memory.long(place));
      return { file: memory.copy(out, memory.long(length)), heard: memory.long(counts), leftOut: memory.long(counts + 8) };
    },

    // One activity of several files, in the order of their times or as they are given, with what `finish` adds and counts.
    async join(files, asGiven = false) {
      const parts = [];
      for (const file of files) {
        const memory = await fresh(), at = memory.put(file), time = memory.number(ABSENT), place = memory.number();
        memory.call('fitrec_first_time', at, file.length, time, place);
        parts.push({ time: memory.long(time), file: await fitrec.plain(file) });
      }
      if (!asGiven) parts.sort((a, b) => a.time - b.time);
      const all = new Uint8Array(await new Blob(parts.map(it => it.file)).arrayBuffer());
      return fitrec.finish(await written('fitrec_join', JOINED, all, all.length + 1024, Boolean(asGiven)));
    },

    // The file with every time in full.
    plain: file => written('fitrec_plain', PLAIN, file, 2 * file.length + 1024),

    // The same with every time moved: by so many whole seconds, or so that the ride begins at a time, in seconds since 1989-12-31 00:00 UTC.
    shift: (file, seconds) => written('fitrec_shift', SHIFTED, file, 2 * file.length + 1024, seconds),
    shiftStart: (file, start) => written('fitrec_shift_start', SHIFTED, file, 2 * file.length + 1024, new Number(start)),

    // The text of a file, and the same as JSON, in bytes.
    show: (file, utc = false) => written('fitrec_show', FAULTS, file, 12 * file.length + 4096, Boolean(utc)),
    json: (file, utc = false) => written('fitrec_json', FAULTS, file, 24 * file.length + 4096, Boolean(utc)),

    // The whole numbers of some fields in the messages with a global number: a Float64Array for each field, NaN where there is none.
    // `expected` is how many messages there may be; with more the call is made twice.
    columns: async (file, message, fields, expected) => (await fitrec.tables(file, [[message, fields, expected]]))[0],

    // The same for several messages of a file. A field may be { fields, scale, offset } too: the first of these that a message has, in a
    // unit, as value * scale + offset.
    async tables(file, asked) {
      const memory = await fresh();
      return tablesAt(memory, memory.put(file), file.length, asked);
    },

    // The same of what a recording has up to its last commit. It is there long before the ride is saved.
    async committed(data, journal, asked) {
      const memory = await fresh(), atData = memory.put(data), count = uncommittedAt(memory, atData, data.length, memory.put(journal), journal.length);
      let found = salvagedAt(memory, atData, data.length, true);
      if (count) found = salvagedAt(memory, atData, data[0] + found.kept - count, true);
      return tablesAt(memory, found.at, found.length, asked);
    },
  };
  return fitrec;
}

// Where the mark of a header, ".FIT", stands from a place on; -1 if nowhere.
function markFrom(bytes, at) {
  while ((at = bytes.indexOf(0x2E, at)) >= 0 && !(bytes[at + 1] === 0x46 && bytes[at + 2] === 0x49 && bytes[at + 3] === 0x54)) at++;
  return at;
}

const uncommittedAt = (memory, ...given) => Number(memory.call('fitrec_uncommitted', ...given));

// What is readable of the bytes at a place: where it is, and counts.
function salvagedAt(memory, from, size, all) {
  const room = size + FRAME_ROOM, at = memory.room(room), end = memory.number(), counts = memory.room(24);
  refuseUnless0(memory.call('fitrec_salvage', from, size, Boolean(all), at, room, end, counts), SALVAGED);
  const [kept, looked, more] = [0, 8, 16].map(i => memory.long(counts + i));
  return { kept, looked, more, at, length: memory.long(end) };
}

// The tables of the file at a place.
function tablesAt(memory, at, size, asked) {
  const rows = memory.number(), place = memory.number(), free = memory.end;
  return asked.map(([message, columns, expected = 64]) => {
    const kinds = columns.map(column => column.fields ? column : { fields: [column] }), fields = kinds.flatMap(kind => kind.fields);
    for (let room = expected; ;) {
      memory.end = free;
      const atFields = memory.put(fields), outSize = fields.length * room, out = memory.room(8 * outSize);
      const code = memory.call('fitrec_columns', at, size, new Number(message), atFields, fields.length, room, out, outSize, rows, place);
      if (code !== NO_ROOM) {
        refuseUnless0(code, FAULTS, memory.long(place));
        let k = 0;
        return kinds.map(kind => numbersAt(memory, kind.fields.map(() => out + 8 * room * k++), memory.long(rows), kind));
      }
      room = memory.long(rows);
    }
  });
}

// Values of 64 bits that have at most 33, or are the one that means none. Where there is none at one place, it is taken from the next.
function numbersAt(memory, places, count, { scale = 1, offset = 0 }) {
  const found = new Float64Array(count);
  let missing = count;
  for (let k = 0; k < places.length && missing; k++) {
    const halves = new Int32Array(memory.exports.memory.buffer, places[k], 2 * count);
    missing = 0;
    for (let i = 0; i < count; i++) {
      const high = halves[2 * i + 1];
      if (k && found[i] === found[i]) continue;
      if (high === -0x80000000) {
        found[i] = NaN;
        missing++;
      } else found[i] = (high * 2 ** 32 + (halves[2 * i] >>> 0)) * scale + offset;
    }
  }
  return found;
}

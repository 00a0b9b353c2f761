#!/usr/bin/env node
// Calls the WebAssembly module of the page for compare/page.py, over the page's own memory and with the words and answers of library.c. The
// module's path is in FITREC_MODULE.

import { readFileSync, writeFileSync } from 'node:fs';
import { CLOSING_ROOM, FINISH_ROOM, FRAME_ROOM, Memory, MORE_PIECES, NO_ROOM } from '../web/fitrec.mjs';

const GUARD = 4096, FILLED = 0xA5;
const [word, ...words] = process.argv.slice(2);
const module = new WebAssembly.Module(readFileSync(process.env.FITREC_MODULE));

// A memory in which known bytes stand before, between and after the buffers, which no call may change.
class Guarded extends Memory {
  buffers = [];

  constructor() {
    super(new WebAssembly.Instance(module));
    this.begin = this.end;
  }

  room(size) {
    const free = this.end;
    this.end += GUARD;
    const at = super.room(size + GUARD);
    this.bytes.fill(FILLED, free, this.end);
    this.end = at + size;
    this.buffers.push({ at, size });
    return at;
  }

  lookAtGuards() {
    let from = this.begin;
    for (const { at, size } of [...this.buffers, { at: this.end + GUARD, size: 0 }]) {
      if (this.bytes.subarray(from, at).some(byte => byte !== FILLED)) throw new Error('a byte outside a buffer was written');
      from = at + size;
    }
  }
}

const read = path => new Uint8Array(readFileSync(path));
const print = line => process.stdout.write(line + '\n');

function printSummary(memory, at) {
  const { records, laps, sessions, start, elapsed, timer, distance } = memory.summary(at), shown = n => n === null ? '-' : n;
  const lengths = `elapsed_ms=${shown(elapsed)} timer_ms=${shown(timer)} distance_cm=${shown(distance)}`;
  print(`ok records=${shown(records)} laps=${shown(laps)} sessions=${shown(sessions)} start=${shown(start)} ${lengths}`);
}

// What a call that writes a file makes in a buffer that has exactly the bytes that it needs. In one with a byte less it gives the same answer
// as in none.
function exactly(call) {
  const none = call(0);
  if (none.answer !== NO_ROOM) return none;
  const less = call(none.length - 1);
  if (less.answer !== NO_ROOM || less.length !== none.length) throw new Error('another answer to a buffer that lacks one byte');
  return call(none.length);
}

function repair([spare, dataPath, journalPath, out]) {
  const memory = new Guarded(), data = read(dataPath), journal = read(journalPath), at = memory.put(data, Number(spare));
  const length = memory.number(data.length), atJournal = memory.put(journal), journalLength = memory.number(journal.length);
  const summary = memory.room(28), given = [at, data.length + Number(spare), length, atJournal, journal.length, journalLength, summary];
  const answer = memory.call('fitrec_repair', ...given);
  print(String(answer));
  if (answer === 0) printSummary(memory, summary);
  writeFileSync(out, memory.copy(at, memory.long(length)));
  memory.lookAtGuards();
}

const numbersAt = (memory, at, count) => Array.from({ length: count }, (_, k) => memory.long(at + 8 * k));

function printCounts([kept, looked, more]) {
  print(`kept ${kept} of ${looked}, ${more} not looked at`);
}

function salvage([spare, path, out, all]) {
  const memory = new Guarded(), file = read(path), room = file.length + Number(spare), from = memory.put(file), at = memory.room(room);
  const length = memory.number(), counts = memory.room(24);
  const answer = memory.call('fitrec_salvage', from, file.length, all === '1', at, room, length, counts);
  print(String(answer));
  if (answer === 0) {
    printCounts(numbersAt(memory, counts, 3));
    writeFileSync(out, memory.copy(at, memory.long(length)));
  }
  memory.lookAtGuards();
}

function skip([path, out, all]) {
  const file = read(path);
  const skipped = (size, pieceRoom) => {
    const memory = new Guarded(), from = memory.put(file), at = memory.room(size), length = memory.number(), pieces = memory.room(24 * pieceRoom);
    const count = memory.number(), counts = memory.room(24), given = [from, file.length, all === '1', at, size, length, pieces, pieceRoom];
    const answer = memory.call('fitrec_skip', ...given, count, counts);
    memory.lookAtGuards();
    return { answer, length: memory.long(length), count: memory.long(count), file: memory.copy(at, size),
      pieces: memory.pieces(pieces, pieceRoom), counts: numbersAt(memory, counts, 3) };
  };
  let count = 0;
  const first = skipped(0, 0);
  if (first.answer === MORE_PIECES) {
    count = first.count;
    const less = skipped(file.length + FRAME_ROOM, count - 1);
    if (less.answer !== MORE_PIECES || less.count !== count) throw new Error('another answer to a buffer that lacks one piece');
  }
  const made = exactly(size => {
    const given = skipped(size, count);
    if (given.answer === NO_ROOM && given.count !== count) throw new Error('another number of pieces');
    return given;
  });
  print(String(made.answer));
  if (made.answer) return;
  printCounts(made.counts);
  for (const { start, end, kept } of made.pieces) print(`${kept ? 'kept' : 'left out'} ${start} to ${end}`);
  writeFileSync(out, made.file);
}

function split([path]) {
  const memory = new Guarded(), file = read(path), at = memory.put(file);
  for (let start = 0, size; start < file.length; start += size) {
    size = Number(memory.call('fitrec_first_file', at + start, file.length - start));
    if (!size || size > file.length - start) throw new Error('a file that does not lie in the buffer');
    print(String(size));
  }
  if (memory.call('fitrec_first_file', at, 0)) throw new Error('a file of no bytes');
  memory.lookAtGuards();
}

// The two files of a recording in a new memory, with room for the file that is saved of it, and what a save is given of them.
function recordingIn(data, journal, size) {
  const memory = new Guarded(), at = memory.put(data, CLOSING_ROOM), length = memory.number(data.length), atJournal = memory.put(journal);
  const journalLength = memory.number(journal.length), out = memory.room(size), outLength = memory.number(), summary = memory.room(28);
  const given = [at, data.length + CLOSING_ROOM, length, atJournal, journal.length, journalLength, out, size, outLength, summary];
  return { memory, at, atJournal, out, outLength, summary, given };
}

function save([dataPath, journalPath, to]) {
  const data = read(dataPath), journal = read(journalPath);
  const { answer, memory, out, length, summary } = exactly(size => {
    const { given, ...recording } = recordingIn(data, journal, size), code = recording.memory.call('fitrec_save', ...given);
    recording.memory.lookAtGuards();
    return { ...recording, answer: code, length: recording.memory.long(recording.outLength) };
  });
  print(String(answer));
  if (answer) return;
  writeFileSync(to, memory.copy(out, length));
  printSummary(memory, summary);
}

function uncommitted([dataPath, journalPath]) {
  const memory = new Guarded(), data = read(dataPath), journal = read(journalPath), at = memory.put(data), atJournal = memory.put(journal);
  print(String(memory.call('fitrec_uncommitted', at, data.length, atJournal, journal.length)));
  memory.lookAtGuards();
}

function earlier([dataPath, journalPath, to]) {
  const data = read(dataPath), journal = read(journalPath), room = 2 * (data.length + CLOSING_ROOM) + 1024;
  const { memory, at, atJournal, out, outLength, summary, given } = recordingIn(data, journal, room), count = memory.number();
  const left = memory.call('fitrec_leave_changed', at, data.length, atJournal, journal.length, count);
  print(String(left));
  if (left === 0) print('left out ' + memory.long(count));
  const answer = memory.call('fitrec_save', ...given);
  print(String(answer));
  if (answer === 0) {
    printSummary(memory, summary);
    writeFileSync(to, memory.copy(out, memory.long(outLength)));
  }
  memory.lookAtGuards();
}

// What a call makes of a file: its answer, the bytes that it writes, the place at fault, and the numbers that it counts.
function written(name, file, size, before, counted = 0) {
  const memory = new Guarded(), from = memory.put(file), at = memory.room(size), length = memory.number(), counts = memory.room(8 * counted);
  const place = memory.number(), answer = memory.call(name, from, file.length, ...before, at, size, length, ...(counted ? [counts] : []), place);
  memory.lookAtGuards();
  return { answer, length: memory.long(length), place: memory.long(place), file: memory.copy(at, size), counts: numbersAt(memory, counts, counted) };
}

function plain([path, out]) {
  const { answer, file, place } = exactly(size => written('fitrec_plain', read(path), size, []));
  print(String(answer));
  if (answer) print('at ' + place);
  else writeFileSync(out, file);
}

function shifted(name, number, path, out) {
  const { answer, file, place } = exactly(size => written(name, read(path), size, [number]));
  print(String(answer));
  if (answer === 0) writeFileSync(out, file);
  else if (answer <= 9 || answer === 28) print('at ' + place);
}

const shift = ([seconds, path, out]) => shifted('fitrec_shift', BigInt(seconds), path, out);
const start = ([time, path, out]) => shifted('fitrec_shift_start', new Number(time), path, out);

function first([path]) {
  const memory = new Guarded(), file = read(path), at = memory.put(file), time = memory.room(4), place = memory.number();
  const answer = memory.call('fitrec_first_time', at, file.length, time, place);
  print(String(answer));
  if (answer === 0) print(String(memory.view.getUint32(time, true)));
  else if (answer <= 9) print('at ' + memory.long(place));
  memory.lookAtGuards();
}

function join([asGiven, path, out]) {
  const { answer, file, place } = exactly(size => written('fitrec_join', read(path), size, [asGiven === '1']));
  print(String(answer));
  if (answer === 0) writeFileSync(out, file);
  else if (answer <= 9 || (answer >= 29 && answer <= 31)) print('at ' + place);
}

function finish([path, out]) {
  const source = read(path), { answer, file, counts, place } = exactly(size => written('fitrec_finish', source, size, [], 2));
  if (answer === 0 && file.length > source.length + FINISH_ROOM) throw new Error('a file that is longer than documented');
  print(String(answer));
  if (answer === 0) {
    writeFileSync(out, file);
    print(`heard ${counts[0]} entries, ${counts[1]} left out`);
  } else if (answer <= 9) print('at ' + place);
}

function check([path]) {
  const memory = new Guarded(), file = read(path), at = memory.put(file), summary = memory.room(28), place = memory.number();
  const answer = memory.call('fitrec_check', at, file.length, summary, place);
  print(String(answer));
  if (answer === 0) printSummary(memory, summary);
  else if (answer <= 9) print('at ' + memory.long(place));
  memory.lookAtGuards();
}

const show = given => showBy('fitrec_show', given), json = given => showBy('fitrec_json', given);

function showBy(name, [path, utc, out]) {
  const { answer, file, place } = exactly(size => written(name, read(path), size, [utc === '1']));
  print(String(answer));
  if (answer) print('at ' + place);
  else writeFileSync(out, file);
}

function columns([path, message, numbers]) {
  const file = read(path), fields = numbers.split(',').map(Number);
  const filled = (room, values = fields.length * room) => {
    const memory = new Guarded(), from = memory.put(file), atFields = memory.put(fields), at = memory.room(8 * values), rows = memory.number();
    const place = memory.number(), given = [from, file.length, new Number(message), atFields, fields.length, room, at, values, rows, place];
    const answer = memory.call('fitrec_columns', ...given);
    memory.lookAtGuards();
    return { answer, rows: memory.long(rows), place: memory.long(place), values: memory.copy(at, 8 * values) };
  };
  const first = filled(0), needed = first.rows;
  if (first.answer === NO_ROOM) {
    const less = filled(needed - 1);
    if (less.answer !== NO_ROOM || less.rows !== needed) throw new Error('another answer to a buffer that lacks one row');
    if (filled(needed, fields.length * needed - 1).answer !== 24) throw new Error('another answer to a buffer that lacks one value');
  }
  const { answer, place, values } = first.answer === NO_ROOM ? filled(needed) : first, found = new BigInt64Array(values.buffer);
  print(String(answer));
  if (answer) print('at ' + place);
  for (let row = 0; answer === 0 && row < needed; row++) {
    print(fields.map((_, k) => found[k * needed + row]).map(value => value === -(2n ** 63n) ? '' : value).join(','));
  }
}

function lengths([dataPath, journalPath]) {
  const data = read(dataPath), journal = read(journalPath), most = -1;
  const asked = (name, dataLength, journalLength, journalSize = journal.length) => {
    const { memory, summary, given: [at, room, length, atJournal, , journalNumber, ...rest] } = recordingIn(data, journal, 0);
    memory.view.setBigUint64(length, BigInt(dataLength), true);
    memory.view.setBigUint64(journalNumber, BigInt(journalLength), true);
    const more = name === 'fitrec_save' ? rest : [summary], answer = memory.call(name, at, room, length, atJournal, journalSize, journalNumber, ...more);
    memory.lookAtGuards();
    return answer;
  };
  const room = data.length + CLOSING_ROOM;
  print([asked('fitrec_repair', room + 1, journal.length), asked('fitrec_repair', data.length, journal.length + 1),
    asked('fitrec_repair', most, journal.length), asked('fitrec_repair', 0, 0, 0), asked('fitrec_save', room + 1, journal.length),
    asked('fitrec_save', data.length, most)].join(' '));
}

const version = () => print(String(Number(new Guarded().call('fitrec_version') === 1)));
const calls = { repair, save, uncommitted, earlier, salvage, skip, split, plain, shift, start, first, join, finish, check, show, json, columns, lengths, version };
calls[word](words);

// The times of a ride whose clock was set on the way, or began anew: they are moved so that they follow one another.

import { EPOCH, isReset, timeIn } from './dates.js';
import { messagesIn } from './messages.js';
import { LAP, LITTLE, LONGEST, RECORD, SEMICIRCLE, SESSION, SOME, TIME, WAY } from './ride.js';

// A clock is set so few times in a ride, which has so many centimetres in a second at most: about as many units of a position. No ride stands
// still for so many seconds.
const MOST_PARTS = 8, FASTEST = 3000, DAY = 86400, MONTH = 30 * DAY, ABSENT = 0xFFFFFFFF, NOWHERE = 0x7FFFFFFF;

// The field of other messages that is a time: when the file was made, when a lap or a session began, and the time of the place.
const OTHERS = { 0: 4, [SESSION]: 2, [LAP]: 2, 34: 5 }, ELAPSED = 7, TIMER = 8, ACTIVITY = 34;

/** @type {(from: number, to: number) => boolean} */
export const isLeap = (from, to) => to < from - LITTLE || to > from + MONTH;

// The bytes of a file with the times of a clock that was wrong for a part of the ride moved to the others; from when on, and for how long.
// Null if all is of one clock, or of more than one ride. The pieces are whole messages, those that are not kept under definitions of their own.
// Where bytes have changed, a time may have, and with it all that follow in the short form: then only a clock that began anew counts.
// Of parts that are to be believed alike `isOther` takes the first one. `isOpen` says that there are several. `ahead` has the times after which
// a clock was set ahead, in a file whose times do not fall.
/** @param {Uint8Array} data @param {Piece[]} pieces @param {boolean} [isChanged] @param {boolean} [isOther] @param {number[]} [ahead] */
export function inOneClock(data, pieces, isChanged = false, isOther = false, ahead = []) {
  const isAhead = (from, to) => ahead.some(t => from <= t && t < to);
  const messages = heardIn(data, pieces), parts = partsOf(messages, isAhead) || [], isOpen = move(parts, isOther, isAhead);
  const those = parts.filter(it => it.move);
  const isDoubtful = isChanged && parts.some(it => it.last.offset !== null);
  if (!those.length || isDoubtful && !those.every(it => isReset(it.first.time))) return null;
  const ms = those.reduce((sum, { first, last, step }) => sum + 1000 * (last.time - first.time + step), 0);
  return { data: moved(data, messages, parts, ahead.length > 0), from: those[0].first.time + those[0].move, ms, isOpen };
}

// The messages with their times, and records with their distances and places. What is not kept counts where it is a part of a ride.
function heardIn(data, pieces) {
  const latest = [], found = [], view = viewOf(data);
  let last = 0;
  for (const { start, end, kept } of pieces) {
    const from = found.length;
    for (const message of messagesIn(data, start, end, kept ? latest : [...latest])) {
      const { offset, definition } = message, time = offset === null ? valueOf(view, message, TIME) : last + (offset - last & 31);
      if (time === time) last = time;
      const isRecord = definition.number === RECORD && time === time, value = field => isRecord ? valueOf(view, message, field) : NaN;
      found.push({ ...message, time, isRecord, lat: value(0), long: value(1), way: value(WAY) });
    }
    // The first one may be of the part before, since a hole may begin in it.
    const records = kept ? [] : found.slice(from).filter(it => it.isRecord).slice(1), before = i => records[Math.max(0, i - 1)];
    const isRide = records.length >= SOME && records.every((it, i) => !isLeap(before(i).time, it.time) && !(it.way < before(i).way));
    if (!kept && !isRide) found.length = from;
  }
  return found;
}

export const viewOf = data => new DataView(data.buffer, data.byteOffset);

// The value of a field of 32 bits in a message; NaN if there is none.
export function valueOf(view, { start, definition: { places, isBig } }, field) {
  const n = field in places ? view.getUint32(start + places[field], !isBig) : ABSENT;
  return n === ABSENT ? NaN : n;
}

// The parts between which times leap; null if the ride does not go on there. One time that leaps alone is damaged.
function partsOf(messages, isAhead) {
  const parts = [], records = messages.filter(it => it.isRecord);
  const follows = (from, to) => from && to && !isLeap(from.time, to.time) && !isAhead(from.time, to.time);
  for (const [i, it] of records.entries()) {
    const part = parts[parts.length - 1];
    if (part && (follows(part.last, it) || follows(part.before, it))) {
      part.step = Math.max(1, Math.min(it.time - part.last.time, LONGEST));
      [part.before, part.last] = [part.last, it];
      part.count++;
    } else if (!part || !follows(part.last, records[i + 1])) {
      if (part && !goesOn(part, it) || parts.length === MOST_PARTS) return null;
      parts.push({ first: it, last: it, before: null, count: 1, step: 1, move: 0 });
    }
    it.part = parts.length - 1;
  }
  return parts;
}

// Whether the ride goes on after a part, by its way and its place. Where no distance tells, a clock that began anew does.
function goesOn({ last, step }, next) {
  const way = next.way - last.way, reach = FASTEST * (step + 1), isSome = it => it.lat !== NOWHERE && it.long !== NOWHERE;
  const isNear = !isSome(last) || !isSome(next) || ['lat', 'long'].every(key => !(Math.abs(next[key] - last[key] | 0) > 4 * reach));
  return isNear && (way === way ? way >= 0 && way < reach : isReset(last.time) !== isReset(next.time));
}

// How far a time is to be believed: not where a clock began anew, less up to 2010 or after tomorrow.
/** @type {(t: number) => number} */
const beliefIn = t => isReset(t) ? 0 : t > timeIn('2011-01-02') && t < Date.now() / 1000 - EPOCH + DAY ? 2 : 1;

// Finds by how many seconds each part is moved, so that all follow the last one of those that are to be believed most: a clock that is set on
// the way is set right. A few samples on the way are no part: one of them may be damaged. Nor are zeros.
function move(parts, isOther, isAhead) {
  const own = parts.filter((it, k) => !k || it.count >= SOME && it.last.time > it.first.time), ends = it => it.last.time + it.move;
  const beliefs = own.map(it => beliefIn(it.first.time)), most = Math.max(...beliefs);
  const first = beliefs.indexOf(most), last = beliefs.lastIndexOf(most), right = isOther ? first : last;
  if (!most) return false;
  for (let k = right; k > 0; k--) {
    const due = own[k].first.time + own[k].move, before = own[k - 1];
    if (isLeap(ends(before), due) || isAhead(before.last.time, own[k].first.time)) before.move = due - before.step - before.last.time;
  }
  for (let k = right + 1; k < own.length; k++) {
    const due = ends(own[k - 1]), after = own[k].first.time;
    if (isLeap(due, after) || isAhead(own[k - 1].last.time, after)) own[k].move = due + own[k - 1].step - after;
  }
  return first < last;
}

// The bytes with all times moved. What stands between two parts is of the one whose time is nearer.
function moved(data, messages, parts, isAhead) {
  const made = data.slice(), view = viewOf(made);
  let k = 0, cut = 0;
  for (const it of messages) {
    const { start, offset, definition: { number }, time } = it, next = parts[k + 1], far = (from, to) => Math.abs(from - to);
    if (it.isRecord) k = it.part;
    else if (next && start > parts[k].last.start && far(time, next.first.time) < far(time, parts[k].last.time)) k++;
    const by = parts[k].move, other = OTHERS[number], began = time + by - valueOf(view, it, ELAPSED) / 1000 - valueOf(view, it, other);
    if (offset !== null) made[start] = made[start] & 0xE0 | (offset + by) & 31;
    add(view, it, TIME, by);
    // A lap may have begun before the clock was set. Where it counts what that was set ahead by, its start tells.
    const isOver = (number === LAP || number === SESSION) && began === began, lapStart = valueOf(view, it, other);
    const first = isAhead && isOver && far(began, by) <= LITTLE && parts.find(own => lapStart <= own.last.time);
    const near = () => parts.reduce((best, own) => far(own.move, began) < far(best, began) ? own.move : best, by);
    add(view, it, other, first ? first.move : isOver ? near() : by);
    const ms = first ? 1000 * (first.move - by) : 0;
    if (ms) add(view, it, ELAPSED, -ms);
    if (ms && valueOf(view, it, TIMER) > valueOf(view, it, ELAPSED)) {
      add(view, it, TIMER, -ms);
      if (number === SESSION) cut += ms;
    }
    if (number === ACTIVITY && valueOf(view, it, 0) > cut) add(view, it, 0, -cut);
  }
  return made;
}

function add(view, message, field, n) {
  const value = valueOf(view, message, field), { start, definition: { places, isBig } } = message;
  if (value === value) view.setUint32(start + places[field], value + n, !isBig);
}

// The fields of a latitude, before that of its longitude: of a sample, and of what laps and sessions say of theirs.
const PLACES = { [RECORD]: [0], [LAP]: [3, 5, 27, 29], [SESSION]: [3, 29, 31, 38] };

// The bytes without places that are to be left out.
/** @param {Uint8Array} data @param {Piece[]} pieces @param {(lat: number, long: number) => boolean} isOut */
export function withoutPlaces(data, pieces, isOut) {
  const made = data.slice(), view = viewOf(made);
  for (const it of heardIn(data, pieces)) for (const field of PLACES[it.definition.number] || []) {
    const degrees = k => (valueOf(view, it, k) | 0) * SEMICIRCLE, own = [field, field + 1];
    if (own.every(k => valueOf(view, it, k) !== NOWHERE) && isOut(degrees(field), degrees(field + 1))) for (const k of own) add(view, it, k, NOWHERE - valueOf(view, it, k));
  }
  return made;
}

// The bytes with distances that count from the first sample on, where the beginning of a ride is lost.
/** @param {Uint8Array} data @param {Piece[]} pieces @param {number} first */
export function fromFirst(data, pieces, first) {
  const made = data.slice(), view = viewOf(made);
  for (const it of heardIn(data, pieces)) if (it.isRecord && it.way >= first) add(view, it, WAY, -first);
  return made;
}

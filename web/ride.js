// What the samples of a ride say: its series, from all samples, with their gaps, and its laps.

import { columnsOf } from './drawing.js';
import { extremesOf, plausible, sampleAt } from './ranges.js';

// Several sports in one activity, and a triathlon, which is a sub_sport.
export const MULTISPORT = 18, TRIATHLON = 78;
// The sport of the time between two others, the field of a lap that states one, and that of its number, with other bits above it.
const TRANSITION = 3, SPORT_OF = 25, INDEX = 254, NUMBER = 4095;
export const TIME = 253, WAY = 5, SPORT = 12, SESSION = 18, LAP = 19, RECORD = 20, EVENT = 21, SEMICIRCLE = 180 / 2 ** 31;
// A sample with most of the fields has some more bytes. No distance leaps so far, in centimetres. A value counts for so many seconds at most.
// The sport of a ride stands in so many bytes. Times in the short form begin anew after so many milliseconds.
export const SAMPLE = 20, FAR = 1e7, LONGEST = 60, FRONT = 4096, ROUND = 32000, MINUTE = 60000;
// What is left out may have so many milliseconds more than fit there.
const MUCH = 10 * MINUTE;
// A part of a few seconds is not named, and some samples are no fault.
export const LITTLE = 10, SOME = 8;
// Centimetres in a degree, and how many km/h a centimetre in a second is.
const DEGREE = 1.112e7, SPEED = 0.036;

// A field of each series, and one that counts where the first is missing; and those that state its maximum and its average in a session. In
// its unit a value is raw * scale + offset. No device measures what is below `from` or above `to`: a heart has a beat, and 0 is the altitude
// of bytes that were never written. `least` is the smallest range of its picture. What leaps by more than `leap` from both neighbours, `within` so
// many seconds, is a fault.
const SERIES = [
  { name: 'speed', fields: [73, 6], maximum: [125, 15], mean: [124, 14], scale: 0.0036, offset: 0, from: 0, to: 1300, least: 1 },
  { name: 'heart', fields: [3], maximum: [17], mean: [16], scale: 1, offset: 0, from: 1, to: 254, least: 5, leap: 50, within: LITTLE },
  { name: 'height', fields: [78, 2], maximum: [128, 50], mean: [126, 49], scale: 0.2, offset: -500, from: -499, to: 30000, least: 5, leap: 100 },
  { name: 'power', fields: [7], maximum: [21], mean: [20], scale: 1, offset: 0, from: 0, to: 5000, least: 20 },
  { name: 'cadence', fields: [4], maximum: [19], mean: [18], scale: 1, offset: 0, from: 0, to: 254, least: 5 },
  { name: 'warmth', fields: [13], maximum: [58], mean: [57], scale: 1, offset: 0, from: -90, to: 100, least: 2 },
];
export const PLACED = [TIME, ...[0, 1].map(it => ({ fields: [it], scale: SEMICIRCLE })), WAY], TIMED = [TIME, 0, 1];

// When a file was made, by which device and maker.
const MADE = [4, 3, 2, 1];

// What is read of a ride: of a finished file all, of the two files of a recording what is there up to its last commit. That has no session.
/** @param {import('./fitrec.mjs').Fitrec} fitrec @param {(Blob | ArrayBuffer)[]} files @param {number | null} [records] */
export async function tablesOf(fitrec, files, records) {
  const [data, journal] = await Promise.all(files.map(async it => new Uint8Array(it instanceof Blob ? await it.arrayBuffer() : it)));
  const samples = [RECORD, [...PLACED, ...SERIES], records || Math.ceil(data.length / SAMPLE)];
  const stated = ['maximum', 'mean'].flatMap(key => SERIES.map(it => ({ ...it, fields: it[key] })));
  const ofSession = [2, 7, 8, 9, 5, 22, 26, 3, TIME, ...stated], ofLap = [LAP, [TIME, 2, 7, 8, 9, SPORT_OF, INDEX], 1024];
  const asked = [samples, [EVENT, TIMED], ofLap, [0, MADE]];
  const tables = await (journal ? fitrec.committed(data, journal, asked) : fitrec.tables(data, [...asked, [SESSION, ofSession]]));
  if (journal) tables.push(ofSession.map(() => new Float64Array(0)));
  // A leg whose session is lost may have laps.
  const [, , [end, begin, , , , laps], , sessions] = tables, isOutside = outsideOf(sessions);
  const sports = [...new Set([...sessions[4], ...laps.filter((_, k) => isOutside((begin[k] + end[k]) / 2))])];
  const own = sports.filter(n => n > 0 && n !== TRANSITION), isTriathlon = [1, 2, 5].every(it => own.includes(it));
  // One that no message states is another one beside those that are.
  const isOne = own.length < 2 && !sports.includes(TRANSITION) && !(own.length && sports.includes(0));
  return { tables, sport: isOne ? own[0] ?? await sportOf(fitrec, data) : isTriathlon ? TRIATHLON : MULTISPORT };
}

// Whether a time is in none of the sessions, as far as they state theirs.
/** @type {(session: Float64Array[]) => (t: number) => boolean} */
const outsideOf = ([start, elapsed, , , , , , , end]) => t => t === t && start.length > 0
  && !start.some((from, k) => !(t < from) && !(t > end[k] && t > from + elapsed[k] / 1000));

// The sport that the first bytes of a file state, if they do.
async function sportOf(fitrec, data) {
  try {
    const { file } = await fitrec.salvage(data.subarray(0, FRONT), true);
    return (await fitrec.columns(file, SPORT, [0]))[0][0];
  } catch {
    return undefined;
  }
}

// The ride of its tables; a summary that is ours says nothing of the device. Times are seconds since 1989-12-31 00:00 UTC, positions are
// degrees, distances centimetres. Samples none of which has a time are in their order, as if one came each second.
// The device has written the first `ownLaps` of the laps, or all.
/** @param {{ tables: Float64Array[][], sport?: number }} read @param {{ gaps: Gap[], isOurs?: boolean, ownLaps?: number }} about @returns {Drawn} */
export function rideOf({ tables: [records, events, found, made, session], sport }, { gaps, isOurs, ownLaps }) {
  const [start, elapsed, timer, length, , climbed, lapCount, begun, , ...stated] = session, isDevices = gaps.length > 0 && !isOurs;
  const isUntimed = records[0].length > 0 && records[0].every(n => n !== n);
  if (isUntimed) records[0].forEach((_, i) => { records[0][i] = i; });
  const back = isUntimed ? null : backIn(records[0]);
  const [time, lat, long, distance, ...values] = inTime(records), pauses = isUntimed ? [] : pausesOf(...events);
  const resumed = pauses.map(([, to]) => sampleAt(time, to)), usual = plausible(distance, extremesOf(distance), FAR);
  leaveOut(distance, usual);
  const laps = isUntimed ? [] : lapsOf(found, { time, distance, pauses }), breaks = breaksOf(time, time, resumed);
  const clock = clockOf(time, pauses);
  const ends = new Uint8Array(time.length + 1), shared = { time, clock, ends, breaks, resumed, weights: weightsOf(clock, time) };
  const pace = gaps.length ? shared.weights.slice().sort()[time.length >> 1] : 0;
  const spans = isUntimed ? [] : gaps.map(it => spanOf(it, records, pauses, pace, isDevices ? start[0] : NaN));
  for (const i of columnsOf(time)) ends[i] = 1;
  for (const { first, last } of laps) ends[first] = ends[last] = 1;
  const means = stated.slice(SERIES.length), isOne = start.length === 1 && !isOurs;
  const series = SERIES.map((kind, k) => seriesOf(values[k], kind, stated[k], isOne ? means[k][0] : NaN, shared)).filter(it => it);
  const ride = { time, lat, long, distance, series, pauses, breaks: lat.includes(NaN) ? breaksOf(time, lat, resumed) : breaks };
  const sums = sumsOf({ start, elapsed, timer, ...(isOurs ? {} : { distance: length, ascent: climbed }) }), totals = totalsOf(ride, usual);
  if (isUntimed) Object.assign(totals.added, { start: null, elapsed: null, timer: null });
  const own = found.map(it => it.subarray(0, ownLaps)), counts = isOurs || !start.length ? own.slice(1, 4) : [start, elapsed, timer];
  const missing = withPauses(spans, hiddenIn(counts, spans, pauses), totals.added);
  for (const it of missing) if (it && it.paused) for (const all of isOurs ? [sums, totals.added] : [totals.added]) all.timer -= it.paused;
  // What the device counted, and what no sample has.
  const lost = { laps: 0, kinds: [] };
  const isCut = gaps.length > 0 && !isUntimed, begin = spans.some(it => it && it.from === null) ? 0 : time[0];
  lost.laps = Math.max(isDevices && lapCount.reduce((sum, n) => sum + n, 0) - found[0].length || 0, isCut ? lostIn(own, begin) : 0);
  if (isDevices && time.length) {
    if (begun[0] === begun[0] && lat.every(n => n !== n)) lost.kinds.push('track');
    for (const [k, { name }] of SERIES.entries()) {
      if (!series.some(it => it.name === name) && (means[k][0] > 0 || stated[k][0] > 0)) lost.kinds.push(name);
    }
  }
  const silent = back !== null || gaps.some(it => !it.isLast) ? [] : silentIn({ ...ride, speed: values[0] }, clock, breaks, events);
  const uncounted = isOurs || isUntimed ? [] : uncountedIn(time, distance, outsideOf(session));
  const id = made[0][0] > 0 ? made.map(it => it[0]).join() : '';
  // The device counted what came before the first sample, and the totals that are added do not.
  const isLong = isOurs && ownLaps > 0 && isCut && laps[0].start < time[0] - LITTLE && spans.some(it => it && it.from === null);
  return { ...ride, laps: { ...lapColumns(laps, series), isLong }, ...totals, sums, sport, isUntimed, missing, silent, uncounted, lost, back, id };
}

// Nobody pauses for so many seconds.
const DAY = 86400;

// From when to when samples are missing between those that stand before a place and after it, and how far that is. A pause that is kept is
// not missing. After a time in the short form all may be too early: then the bytes that are left out tell about how long it was, by
// the usual seconds of a sample.
// The ride may begin before its first sample, by what its session states.
/**
 * @param {Gap} gap @param {Float64Array[]} columns @param {number[][]} pauses @param {number} pace @param {number} start
 * @returns {Missing | null}
 */
function spanOf({ before, samples, isLast, isShort, isGuessed, unread, part }, columns, pauses, pace, start) {
  if (before === undefined) return null;
  const [time, , , distance] = columns, count = i => columns.filter(it => it[i] === it[i]).length, there = distance[before - 1];
  // Of a sample that the hole touches only the time may be left.
  const isTorn = before > 1 && (there !== there && distance[before - 2] >= 0 || count(before - 1) < 2 && count(before - 2) > 1);
  const edge = before - (isTorn ? 2 : 1);
  const known = (values, first, step) => {
    for (let i = first; i >= 0 && i < values.length; i += step) if (values[i] === values[i]) return values[i];
    return null;
  };
  let from = known(time, edge, -1), to = isLast ? null : known(time, before, 1);
  const way = known(distance, before, 1) - known(distance, edge, -1), cm = way > 0 && way < FAR ? way : null;
  for (const [a, b] of pauses) if (from !== null && a >= from && b <= to && b - a < DAY) a - from > to - b ? to = a : from = b;
  if (from === null && start <= to) from = start;
  const ms = from === null || to === null ? null : 1000 * Math.max(0, to - from), about = 1000 * samples * pace;
  if (from === null && about <= 1000 * LITTLE) return null;
  const isAbout = isShort && ms !== null && (isGuessed ? about > ROUND / 2 : about > ms + ROUND / 2);
  // What is left out there is more than fits between these times: it may be another part of the ride.
  if (!isAbout && before && ms !== null && about > ms + MUCH) return { from, to: null, ms: null, cm: null, isAbout, about, unread: part };
  return { from, to, ms: isAbout ? minutesIn(about) : ms, cm, isAbout, about, unread };
}

/** @type {(ms: number) => number} */
export const minutesIn = ms => Math.max(1, Math.round(ms / MINUTE)) * MINUTE;

// How many milliseconds of pauses the device counted beyond those that are known, in sessions or laps that have all that is missing.
function hiddenIn(/** @type {Float64Array[]} */ [start, elapsed, timer], spans, pauses) {
  const sum = (values, of) => values.reduce((all, it, k) => all + of(it, k), 0);
  const shared = (from, to) => sum(start, (a, k) => Math.max(0, Math.min(a + elapsed[k] / 1000, to) - Math.max(a, from)));
  const isAll = spans.every(it => !it || it.to === null || shared(it.from, it.to) >= it.to - it.from - LITTLE);
  return isAll ? sum(elapsed, (ms, k) => ms - timer[k]) - 1000 * sum(pauses, ([from, to]) => shared(from, to)) : NaN;
}

// How many laps are missing after a time, by the numbers of the others, where none of those has that time.
function lostIn(/** @type {Float64Array[]} */ [end, start, , , , , index], begin) {
  const number = k => k < 0 ? -1 : index[k] & NUMBER, since = k => k ? end[k - 1] : begin;
  return index.reduce((sum, n, k) => sum + (n >= 0 && start[k] > since(k) + LITTLE ? Math.max(0, number(k) - number(k - 1) - 1) : 0), 0);
}

// The same where pauses may be lost with the samples: the device counted so many milliseconds of those that are `hidden`, or none is known. Then
// there was none where the way is as long as on the whole ride.
/** @param {(Missing | null)[]} spans @param {number} hidden @param {Partial<Summary>} whole */
function withPauses(spans, hidden, { distance, timer }) {
  const isSlow = it => hidden === hidden || !(it.cm / it.ms > distance / timer / 2);
  const long = hidden <= 1000 * LITTLE ? [] : spans.filter(it => it && !it.isAbout && it.ms > 2 * it.about + MINUTE && isSlow(it));
  // The pause is where it is the only one that can have it, or where so much is missing beside the samples.
  const own = long.length === 1 && hidden <= long[0].ms ? long[0] : long.find(it => Math.abs(it.ms - it.about - hidden) <= MINUTE / 2);
  if (!own) return spans.map(it => long.includes(it) ? { ...it, isPaused: true } : it);
  return spans.map(it => it === own ? { ...it, ms: it.ms - hidden, paused: hidden } : it);
}

// After which time the next ones go back and stay so, by some samples before and after that; null if they do not.
function backIn(time) {
  const i = time.findIndex((t, k) => k >= SOME && time[k - 1] - t > LITTLE && time[k + SOME] < time[k - 1] && time[k - SOME] < time[k - 1]
    && time[k - 1] - time[k - SOME] < LONGEST * SOME);
  return i < 0 ? null : time[i - 1];
}

// The columns in the order of their times, without samples whose time is missing or far from all others.
/** @param {Float64Array[]} columns @returns {Float64Array[]} */
function inTime(columns) {
  const [time] = columns;
  let isInOrder = true;
  for (let i = 0, last = -Infinity; i < time.length && isInOrder; i++) {
    isInOrder = time[i] >= last;
    last = time[i];
  }
  const range = isInOrder ? { low: time[0], high: time[time.length - 1] } : extremesOf(time);
  const { from, to, faults } = plausible(time, range, DAY);
  if (isInOrder && !faults) return columns;
  const order = [...time.keys()].filter(i => time[i] >= from && time[i] <= to).sort((a, b) => time[a] - time[b] || a - b);
  return columns.map(it => Float64Array.from(order, i => it[i]));
}

// A series with its parts and what they amount to, without values that cannot be; null if it has no other. Its greatest value is at least the
// maximum that a session states. The parts end where a column of the picture or a lap does, and where the line is interrupted.
function seriesOf(values, kind, stated, mean, { time, clock, weights: usual, ends, breaks, resumed }) {
  const { leap = Infinity, within = Infinity } = kind;
  const isFar = (i, k) => Math.abs(values[i] - values[k]) > leap && !(Math.abs(time[i] - time[k]) > within);
  for (let i = 1; i < values.length; i++) if (isFar(i, i - 1) && isFar(i, i + 1)) values[i] = Infinity;
  const { faults, count } = leaveOut(values, kind), isFull = count === time.length, own = isFull ? breaks : breaksOf(time, values, resumed);
  leaveOut(stated, kind);
  if (!count) return null;
  const weights = isFull ? usual : weightsOf(clock, values), parts = partsOf(values, weights, ends, own), range = rangeOf(parts);
  const most = extremesOf(stated).high, { low, high } = range, { name, least, from, to } = kind;
  const { average, seconds } = range, shown = { low, average, high: most > high ? most : high, from: low, to: high };
  // Devices leave the seconds out in which nobody pedals.
  const inMotion = name === 'cadence' ? seconds * average / secondsAbove0(values, weights) : null;
  return { name, least, values, ...shown, faults, parts, breaks: own, inMotion, mean: mean >= from && mean <= to ? mean : null };
}

function secondsAbove0(values, weights) {
  let seconds = 0;
  for (let i = 0; i < values.length; i++) if (values[i] > 0) seconds += weights[i];
  return seconds;
}

// Leaves values out that are not from one to another: how many these are, and how many are left.
function leaveOut(values, { from, to }) {
  let faults = 0, count = 0;
  for (let i = 0; i < values.length; i++) {
    const n = values[i];
    if (n >= from && n <= to) count++;
    else if (n === n) {
      values[i] = NaN;
      faults++;
    }
  }
  return { faults, count };
}

// The seconds of the timer at each sample.
function clockOf(time, pauses) {
  const clock = new Float64Array(time.length);
  let k = 0, paused = 0;
  for (let i = 0; i < time.length; i++) {
    for (; k < pauses.length && pauses[k][1] <= time[i]; k++) paused += pauses[k][1] - pauses[k][0];
    clock[i] = (k < pauses.length ? Math.min(time[i], pauses[k][0]) : time[i]) - paused;
  }
  return clock;
}

// For how many seconds of the timer each value counts: half of those since the value before it, and half of those up to the next.
function weightsOf(clock, values) {
  const weights = new Float64Array(values.length).fill(1e-9);
  let last = -1;
  for (let i = 0; i < values.length; i++) {
    if (values[i] !== values[i]) continue;
    if (last >= 0) {
      const half = Math.max(0, Math.min(clock[i] - clock[last], LONGEST)) / 2;
      weights[last] += half;
      weights[i] += half;
    }
    last = i;
  }
  return weights;
}

// The least and the greatest value, the sum over the seconds and their number, up to each place that is marked or is a break, from the one
// before; without parts that have no value.
function partsOf(values, weights, marks, breaks) {
  const parts = [], ends = marks.slice();
  for (const i of breaks) ends[i] = 1;
  let first = 0, low = Infinity, high = -Infinity, sum = 0, seconds = 0;
  for (let i = 0; i <= values.length; i++) {
    if (ends[i] || i === values.length) {
      if (low <= high) parts.push({ first, low, high, sum, seconds });
      [first, low, high, sum, seconds] = [i, Infinity, -Infinity, 0, 0];
    }
    const n = values[i];
    if (!(n === n && i < values.length)) continue;
    if (n < low) low = n;
    if (n > high) high = n;
    sum += n * weights[i];
    seconds += weights[i];
  }
  return parts;
}

// Adds parts from one to another to a whole.
function addParts(whole, parts, from, to) {
  for (let k = from; k < to; k++) {
    const part = parts[k];
    if (part.low < whole.low) whole.low = part.low;
    if (part.high > whole.high) whole.high = part.high;
    whole.sum += part.sum;
    whole.seconds += part.seconds;
  }
  return whole;
}

const noParts = () => ({ low: Infinity, high: -Infinity, sum: 0, seconds: 0 });

// The least, the greatest and the average of parts; null if there are none.
function rangeOf(parts) {
  const whole = addParts(noParts(), parts, 0, parts.length);
  return parts.length ? { ...whole, average: whole.sum / whole.seconds } : null;
}

// What gives the parts from one sample up to another as one. So many are taken at once: laps may be many, and each may be the whole ride.
const BLOCK = 256;

function wholesOf(parts) {
  const firsts = parts.map(it => it.first), blocks = [];
  for (let k = 0; k < parts.length; k += BLOCK) blocks.push(addParts(noParts(), parts, k, Math.min(k + BLOCK, parts.length)));
  return (first, last) => {
    const from = sampleAt(firsts, first), to = sampleAt(firsts, last), block = Math.ceil(from / BLOCK), end = Math.floor(to / BLOCK);
    if (block >= end) return addParts(noParts(), parts, from, to);
    return addParts(addParts(addParts(noParts(), parts, from, block * BLOCK), blocks, block, end), parts, end * BLOCK, to);
  };
}

// The times between a stop of the timer and its next start.
function pausesOf(time, event, kind) {
  const found = [];
  let from = null;
  for (let i = 0; i < time.length; i++) {
    if (event[i] !== 0) continue;
    if (kind[i] === 0 && from !== null) found.push([from, time[i]]);
    from = kind[i] === 0 ? null : from === null ? time[i] : from;
  }
  return found;
}

// The places of samples before which a line through these values is interrupted: by a pause, or because none came for ten times the usual
// seconds, and at least ten.
function breaksOf(time, values, resumed) {
  const stride = Math.ceil(values.length / 5000), steps = [], found = [];
  let last = -1, left = 0;
  for (let i = 0; i < values.length; i++) {
    if (values[i] !== values[i]) continue;
    if (last >= 0 && left-- === 0) {
      steps.push(time[i] - time[last]);
      left = stride - 1;
    }
    last = i;
  }
  const longest = 10 * Math.max(1, new Float64Array(steps).sort()[steps.length >> 1] || 1);
  let k = 0, next = resumed.length ? resumed[0] : Infinity;
  last = -1;
  for (let i = 0; i < values.length; i++) {
    if (values[i] !== values[i]) continue;
    if (i >= next || (last >= 0 && time[i] - time[last] > longest)) {
      found.push(i);
      while (i >= next) next = ++k < resumed.length ? resumed[k] : Infinity;
    }
    last = i;
  }
  return found;
}

// From when to when, and for how many seconds, no sample came though the timer ran, for a minute and more: there a line is interrupted. A last
// stop that no start follows is a pause too. And by how many seconds a clock was set ahead there, if it was.
function silentIn(ride, clock, breaks, /** @type {Float64Array[]} */ [at, event, kind]) {
  const { time } = ride, stop = at[event.findLastIndex((n, k) => n === 0 && kind[k] > 0)];
  return breaks.map(i => [time[i - 1], time[i], clock[i] - clock[i - 1], isMoving(ride, i) ? clock[i] - 2 * clock[i - 1] + clock[i - 2] : 0])
    .filter(([from, to, seconds]) => seconds >= LONGEST && seconds === to - from && !(stop >= from && stop < to));
}

// Whether a ride goes on at speed from one sample to the next, with the way and the place of a few seconds.
function isMoving({ time, lat, long, distance, speed }, i) {
  if (i < SOME || i + SOME > time.length) return false;
  const step = (values, k) => values[k] - values[k - 1], speeds = [i - 1, i + 1].map(k => step(distance, k) / step(time, k));
  const seconds = time.reduce((sum, t, k) => sum + (k ? Math.min(step(time, k), LITTLE) : 0), 0), { low, high } = extremesOf(distance);
  const least = (high - low) / seconds / 2, most = LITTLE * Math.max(...speeds), isNear = values => !(Math.abs(step(values, i)) > most / DEGREE);
  const isFast = speeds.every(n => n > least) && [i - 1, i].every(k => !(speed[k] / SPEED < least));
  return isFast && most < FAR && step(distance, i) > 0 && step(distance, i) < most && isNear(lat) && isNear(long);
}

// After which times a clock was set ahead in a ride.
/** @param {import('./fitrec.mjs').Fitrec} fitrec @param {Uint8Array} file @returns {Promise<number[]>} */
export async function aheadIn(fitrec, file) {
  const [records, events] = await fitrec.tables(file, [[RECORD, [...PLACED, SERIES[0]], Math.ceil(file.length / SAMPLE)], [EVENT, TIMED]]);
  const [time, lat, long, distance, speed] = records, pauses = pausesOf(...events);
  const breaks = breaksOf(time, time, pauses.map(([, to]) => sampleAt(time, to)));
  return silentIn({ time, lat, long, distance, speed }, clockOf(time, pauses), breaks, events).filter(it => it[3]).map(([from]) => from);
}

// What the sessions leave out after the first sample: after which time, and how much. Between two of them a minute is no leg.
function uncountedIn(time, distance, isOutside) {
  const found = [], { length } = time;
  for (let i = 0, first = 0; i <= length; i++) {
    if (i < length && isOutside(time[i])) continue;
    const before = Math.max(0, first - 1), ms = 1000 * (time[i - 1] - time[before]), cm = distance[i - 1] - distance[first];
    if (first && i > first && ms > 1000 * (i < length ? LONGEST : LITTLE)) found.push({ from: { time: time[before] }, length: { ms, cm } });
    first = i + 1;
  }
  return found;
}

// What the samples add up to: for files without a summary, and what no summary has.
function totalsOf({ time, series, pauses }, { to: farthest }) {
  const start = time.length ? time[0] : null, end = time.length ? time[time.length - 1] : null;
  const paused = pauses.reduce((sum, [from, to]) => sum + Math.max(0, Math.min(to, end) - Math.max(from, start)), 0);
  const height = series.find(it => it.name === 'height');
  const added = { records: time.length, start, elapsed: start === null ? null : (end - start) * 1000,
    timer: start === null ? null : (end - start - paused) * 1000, distance: farthest >= 0 ? farthest : null };
  return { added, ascent: height ? ascentOf(height) : null };
}

// What the sessions of a file add up to. What none of them states is missing.
function sumsOf({ start, ...lengths }) {
  const sums = { sessions: start.length }, earliest = extremesOf(start).low;
  if (earliest >= 0) sums.start = earliest;
  for (const [key, values] of Object.entries(lengths)) {
    const those = values.filter(n => n === n);
    if (those.length) sums[key] = those.reduce((sum, n) => sum + n);
  }
  return sums;
}

// How many metres are climbed. A rise counts from two metres on, so that the noise of a barometer does not.
function ascentOf({ values }) {
  let ascent = 0, low = Infinity, high = -Infinity;
  for (let i = 0; i < values.length; i++) {
    const n = values[i];
    if (n !== n) continue;
    if (n > high) high = n;
    if (n < low || high - n >= 2) {
      if (high - low >= 2) ascent += high - low;
      low = high = n;
    }
  }
  return ascent + (high - low >= 2 ? high - low : 0);
}

// The laps that the file has, each with its samples from `first` up to `last`; after them the rest of a ride that was cut off.
function lapsOf(/** @type {Float64Array[]} */ [end, start, elapsed, timer, length, , index], { time, distance, pauses }) {
  const laps = [];
  let number = 0;
  const of = (from, to, given) => {
    const first = sampleAt(time, from), last = Math.min(sampleAt(time, to + (given.isLast ? 1 : 0)), time.length);
    const paused = () => pauses.reduce((sum, [a, b]) => sum + Math.max(0, Math.min(b, to) - Math.max(a, from)), 0);
    const wayOf = ({ low, high }) => high - low;
    return { start: from, first, last, timer: given.timer >= 0 ? given.timer : (to - from - paused()) * 1000,
      number, distance: given.length >= 0 ? given.length : wayOf(extremesOf(distance.subarray(first, last))), isOpen: Boolean(given.isOpen) };
  };
  for (let i = 0; i < end.length; i++) {
    const from = start[i] === start[i] ? start[i] : i ? end[i - 1] : time[0], to = end[i] === end[i] ? end[i] : from + elapsed[i] / 1000;
    if (!(from >= 0 && to >= from)) continue;
    // One before it may be lost.
    number = Math.max(number, index[i] & NUMBER) + 1;
    laps.push({ to, ...of(from, to, { timer: timer[i], length: length[i], isLast: i === end.length - 1 }) });
  }
  const ended = laps.length ? laps[laps.length - 1].to : time[0], finished = time[time.length - 1];
  number++;
  if (finished > ended) laps.push({ to: finished, ...of(ended, finished, { isLast: true, isOpen: true }) });
  return laps;
}

// What is shown of each lap, as columns, with NaN where there is none; and whether the last one was not ended.
function lapColumns(laps, series) {
  const column = of => Float64Array.from(laps, of), [heart, power] = ['heart', 'power'].map(name => {
    const own = series.find(it => it.name === name), wholeIn = own && wholesOf(own.parts);
    return own ? laps.map(it => wholeIn(it.first, it.last)) : null;
  });
  const average = wholes => wholes && Float64Array.from(wholes.map(it => it.sum / it.seconds));
  const greatest = wholes => wholes && Float64Array.from(wholes.map(it => it.seconds ? it.high : NaN));
  const columns = { heartAverage: average(heart), heartGreatest: greatest(heart), powerAverage: average(power) };
  for (const key of ['number', 'start', 'timer', 'distance']) columns[key] = column(it => it[key]);
  return { count: laps.length, ...columns, isOpen: laps.length > 0 && laps[laps.length - 1].isOpen };
}

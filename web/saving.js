// What can be rescued of the files of a ride. What is said of it is named by keys of texts.js, each with its values.

import { FIRST_DATE } from './dates.js';
import { placesIn } from './drawing.js';
import { FitError } from './fitrec.mjs';
import { fromFirst, inOneClock, isLeap, valueOf, viewOf, withoutPlaces } from './mending.js';
import { localOf, messagesIn } from './messages.js';
import { extremesOf } from './ranges.js';
import { layoutsFor, shortRide } from './rehearsal.js';
import { aheadIn, LAP, PLACED, RECORD, SAMPLE, SEMICIRCLE, SESSION, SOME, TIME, WAY } from './ride.js';
import { beforeText, undoings } from './undoing.js';

// The answer is the best rescue: `heading` and `reasons` for the rider, `details` for whoever repairs the device, the file that was made or
// the one that is shown, whether it is a whole activity and its summary is ours, and the offers of other rescues.
//
// `data` and `journal` are bytes or missing, `name` is that of the data file, and `unread` the first byte of it that cannot be read, if
// there is one. `isPart` is of a file that was chained with others in one. All times are moved by `seconds`. `how` has the offers of earlier
// answers that were taken.
/** @param {import('./fitrec.mjs').Fitrec} fitrec @param {Given} ride @param {string[]} how @returns {Promise<Answer>} */
export async function answerTo(fitrec, ride, how) {
  if (ride.parts) return ofParts(fitrec, ride, how);
  if (!ride.data && ride.journal.length) return { ...nothing([['journalAlone']], 'journalAloneNext'), heading: 'missing' };
  if (!ride.data) return nothing([['emptyFile', { name: ride.journalName }]], 'journalAloneNext');
  if (!ride.data.length) return nothing([['emptyFile', { name: ride.name }]], ride.journal ? 'copyNext' : 'emptyAloneNext');
  const answer = await (how.includes('rest') ? ofRest(fitrec, ride, how)
    : ride.journal && how.every(isOfValues) ? ofRecording(fitrec, ride, how) : ofFile(fitrec, ride, how));
  return how.length && !answer.parts ? { ...answer, offers: [...answer.offers, 'back'] } : answer;
}

/** @param {Said[]} reasons @param {string} [next] @param {Said[]} [details] @returns {Answer} */
function nothing(reasons, next, details = []) {
  return { heading: 'nothing', reasons, details, next: next ? [[next]] : [], offers: [] };
}

// A new file has a header of so many bytes, and no ride has more than so many. It goes on after so many seconds at most, and ends in so many.
const HEADER = 14, LARGEST = 2 ** 23, MINUTES = 600, DAY = 86400;

// The gate of a slot of a journal that is open, and the maker that recordings state.
const OPEN = 0xA5, OURS = 255;

// A recording of ours by its files.
const isNamedOurs = ({ name, journal }) => !!journal || /^activity\.fit$/i.test(name);

const unreadOf = ({ name, unread }) => unread === undefined ? [] : [['unreadWhy', { name }]];
const unreadAt = ({ name, unread }) => unread === undefined ? [] : [['unreadFrom', { name, place: unread }], ['unreadFix']];

// The offers that change times or places, and not what is kept.
const isOfValues = offer => ['ahead', 'clock', 'places'].includes(offer);

// A file without places that are far from all others, and with the times before a clock was set ahead moved to the others, where that is asked;
// and with all times moved by so many seconds, or why they are not.
/** @returns {Promise<Moved>} */
async function moved(fitrec, given, { seconds = 0 }, how) {
  const placed = how.includes('places') ? await nearOnly(fitrec, given) : given, ahead = how.includes('ahead') ? await aheadIn(fitrec, placed) : [];
  const set = ahead.length ? inOneClock(placed, piecesIn(placed), false, how.includes('clock'), ahead) : null, isPlaced = placed !== given;
  const file = set ? (await fitrec.salvage(set.data)).file : placed, reasons = [...isPlaced ? [['placesOut']] : [], ...set ? [clockWas(set, seconds)] : []];
  const made = { file, set, isPlaced, reasons, details: [] };
  if (!seconds) return made;
  try {
    return { ...made, file: await fitrec.shift(file, seconds), seconds, reasons: [...reasons, ['movedWhy']] };
  } catch (error) {
    if (!error.kind) throw error;
    return { ...made, reasons: [...reasons, ['notMoved']], details: error.kind === 'TimeTooFar' ? [['faultTimeTooFar', { place: error.place }]] : [] };
  }
}

async function nearOnly(fitrec, file) {
  const [[, lat, long]] = await fitrec.tables(file, [[RECORD, PLACED, Math.ceil(file.length / SAMPLE)]]), places = placesIn(lat, long);
  return places ? (await fitrec.salvage(withoutPlaces(file, piecesIn(file), (y, x) => places.farOf(y, x) > 0))).file : file;
}

const summaryAt = (summary, seconds = 0) => ({ ...summary, start: summary.start === null ? null : summary.start + seconds });

// Why the two files of a recording are not saved: what is said to the rider, and to whoever repairs the device.
const REFUSED = { NothingRecorded: ['unconfirmedWhy', 'nothingRecorded'], Damaged: ['pairWhy', 'damaged'],
  Changed: ['pairWhy', 'changed'] };

// What is said of bytes that are confirmed and not there, or that were never written.
const LOSING = { Damaged: 1, Changed: 1 };

// A journal, of whose slots with checksums the last seven bytes are zeros.
const JOURNAL = /^FRJ([^D].{20}|D.{4}(.{9}\0{7}){3})/s;

// The two files of a recording. Where what was confirmed cannot be told, it is all that can be read of the data file.
/** @returns {Promise<Answer>} */
async function ofRecording(fitrec, ride, how) {
  const { data, journal, journalName, name } = ride;
  try {
    if (!journal.length) throw new FitError('NothingRecorded');
    const { uncommitted: count, file: whole, summary: first } = await fitrec.save(data, journal, true);
    // What follows commits without a sample may have some.
    if (!first.records) throw new FitError('NothingRecorded');
    // A device confirms as often as before, so a journal that leaves much more is of another ride.
    if (count > Math.max(UNUSUAL * stepIn(journal), MANY)) throw new FitError('Damaged');
    const { file, set, seconds, ...made } = await moved(fitrec, whole, ride, how);
    const end = count ? await endOf(fitrec, data, first, seconds) : null;
    const details = [['confirmedBytes'], ...(count ? [['uncommitted', { count }]] : []), ...unreadAt(ride), ...made.details];
    const reasons = [['rescuedWhy'], ...(end ? [['unconfirmed', end]] : []), ...unreadOf(ride), ...made.reasons];
    return { heading: 'rescued', reasons, details, next: [], offers: [...end ? ['end'] : [], ...offersOf(set, how)], file, seconds,
      summary: set ? await fitrec.check(file) : summaryAt(first, seconds), isWhole: true, isSaved: true, isOurs: true };
  } catch (error) {
    const earlier = error.kind === 'Changed' ? await ofEarlier(fitrec, ride, how) : null;
    if (earlier) return earlier;
    if (!(error.kind in REFUSED)) throw error;
    const [usual, detail] = REFUSED[error.kind], isUnread = ride.unread !== undefined;
    const isWrong = journal.length && !JOURNAL.test(lettersOf(journal));
    const confirmed = error.kind in LOSING && !isUnread ? confirmedIn(journal) : 0, written = writtenOf(data);
    const isShort = confirmed > (written + TORN < data.length ? written : data.length);
    const why = isShort ? 'cutPair' : isWrong ? 'journalWhy' : usual, said = { name, journal: journalName, end: isShort };
    const isEmpty = !journal.length, lead = isEmpty ? ['emptyFile', { name: journalName }] : [why, said];
    const reasons = isUnread ? [] : [lead, ['readWhy', { name }]];
    const answer = await ofFile(fitrec, isShort ? { ...ride, confirmed } : ride, how, reasons, [[isShort ? 'shortData' : detail]]);
    if (answer.isConfirmed) return answer;
    /** @type {Said[]} */
    const next = isUnread ? [['unreadNext']] : why === 'unconfirmedWhy' && !isEmpty || answer.heading === 'whole' ? [] : [['copyNext']];
    return { ...answer, next: next.length && !answer.isUnknown ? next : [...next, ...answer.next] };
  }
}

// So many steps from one commit to the next follow the last one at most, if they have so many bytes.
const UNUSUAL = 40, MANY = 10000;

// How many bytes stand between the last two commits of a journal without checksums.
function stepIn(journal) {
  const view = viewOf(journal), lengths = [8, 16].filter(i => i + 8 <= journal.length && journal[i] === OPEN).map(i => view.getUint32(i + 1, true));
  return lettersOf(journal)[3] === '2' && lengths.length > 1 ? Math.abs(lengths[0] - lengths[1]) : Infinity;
}

// How many bytes of a recording its journal confirms: the greatest length of its open slots, after the room for a header.
function confirmedIn(journal) {
  const view = new DataView(journal.buffer, journal.byteOffset, journal.length), step = { D: 16, 2: 8 }[lettersOf(journal)[3]] || Infinity;
  let most = 0;
  for (let i = 8; i + 5 <= journal.length; i += step) if (journal[i] === OPEN) most = Math.max(most, HEADER + view.getUint32(i + 1, true));
  return most;
}

// How far what can be read goes beyond what was confirmed, with its time moved; null if it does not.
async function endOf(fitrec, data, { start, elapsed, distance }, seconds = 0) {
  const { file } = await fitrec.salvage(data, true), expected = Math.ceil(data.length / SAMPLE);
  const [times, far] = await fitrec.columns(file, RECORD, [TIME, 5], expected);
  const confirmed = start + elapsed / 1000, ms = 1000 * (times[times.length - 1] - confirmed), cm = extremesOf(far).high - (distance || 0);
  return ms > 0 ? { goes: [['goesTo', { end: { time: confirmed + seconds } }]], length: { ms, cm } } : null;
}

// The same where bytes have changed: the ride of the commit before the last, if there is one that has not changed.
/** @returns {Promise<Answer | null>} */
async function ofEarlier(fitrec, ride, how) {
  const left = await fitrec.leaveChanged(ride.data, ride.journal);
  if (!left) return null;
  try {
    const { file: whole, summary } = await fitrec.save(ride.data, left.journal);
    if (!summary.records) return null;
    const { file, set, seconds, ...made } = await moved(fitrec, whole, ride, how);
    const reasons = [['earlierWhy', { end: true }], ...unreadOf(ride), ...made.reasons];
    const details = [['earlierBytes', { count: left.count }], ...unreadAt(ride), ...made.details];
    return { heading: 'mostly', reasons, details, next: [['copyNext']], offers: ['data', ...offersOf(set, how)], file, seconds,
      summary: set ? await fitrec.check(file) : summaryAt(summary, seconds), isWhole: true };
  } catch (error) {
    if (!error.kind) throw error;
    return null;
  }
}

// What comes after times went back, as a ride of its own. The offers before this one made the ride that it is left out of.
/** @returns {Promise<Answer>} */
async function ofRest(fitrec, ride, how) {
  const { rest } = await ofFile(fitrec, ride, how.slice(0, how.indexOf('rest')));
  const { file } = await readUnder(fitrec, rest.definitions, ride.data.subarray(rest.start));
  const { reasons, ...answer } = await ofFile(fitrec, { ...ride, data: file, journal: undefined, like: undefined, isPart: true }, []);
  return { ...answer, heading: 'partly', reasons: [['restWhy'], ...reasons.filter(([key]) => key !== 'partWhy')], offers: [] };
}

// Which of some files are pieces of one, each list in the order of its bytes. The first has a header, and is shorter than that states, or it
// states no length; the others have none. Each goes on in the message in which the one before it ends, or all make a whole file.
/** @param {import('./fitrec.mjs').Fitrec} fitrec @param {Uint8Array[]} files @returns {Promise<number[][]>} */
export async function piecesOf(fitrec, files) {
  const found = [];
  let free = files.filter(it => !hasHeader(it));
  for (const first of files.filter(hasHeader)) {
    const row = [first], length = new DataView(first.buffer, first.byteOffset).getUint32(4, true);
    const size = length && length !== NO_LENGTH ? first[0] + length + CHECKSUM : Infinity, turns = { left: MOST_TURNS };
    const all = first.length < size ? await wholeBy(fitrec, row, free, size, turns) || row : row;
    for (let next; all === row && bytesOf(row).length < size; row.push(next)) {
      next = await goingOn(fitrec, bytesOf(row), free.filter(it => !row.includes(it)));
      if (!next) break;
    }
    if (all.length > 1) found.push(all.map(it => files.indexOf(it)));
    free = free.filter(it => !all.includes(it));
  }
  return found;
}

// What two damaged copies of one file have together; null where they are of two files, or one of them is whole, or no sample is added.
/** @param {import('./fitrec.mjs').Fitrec} fitrec @param {Uint8Array[]} copies @returns {Promise<Uint8Array | null>} */
export async function togetherOf(fitrec, copies) {
  const isSound = it => judged(fitrec, it).then(({ kind }) => !kind || kind in LACKING);
  const [one, other] = copies.sort((a, b) => b.length - a.length);
  if (await isSound(one) || await isSound(other)) return null;
  const [known, more] = [await readableIn(fitrec, one), await readableIn(fitrec, other)];
  let both = 0, same = 0, best = null, most = Math.max(known.count, more.count);
  for (let i = 0; i < other.length; i++) if (known.has[i] + more.has[i] === 4 && ++both && one[i] === other[i]) same++;
  // Where both can be read as well, and differ, each is tried; and what one of them alone does not tell how to read.
  for (const isBetter of [(a, b) => b > a, a => a < 2, (_, b) => b > 1]) {
    const made = one.slice();
    for (let i = 0; i < other.length; i++) if (isBetter(known.has[i], more.has[i])) made[i] = other[i];
    if (await isSound(made)) return made;
    const { count } = both < FALSE || same < 0.99 * both ? { count: 0 } : await readableIn(fitrec, made);
    if (count > most) [best, most] = [made, count];
  }
  return best;
}

// Which bytes of a damaged file can be read (2), or may be wrong, since a fault is near (1), and how many samples are in it. A checksum follows
// what can be read up to the end.
async function readableIn(fitrec, data) {
  const { file, pieces } = await orElse(skipped(fitrec, data, true), () => ({ file: OPENED, pieces: [] })), has = new Uint8Array(data.length);
  if (hasHeader(data)) has.fill(2, 0, data[0]);
  for (const { start, end, kept } of pieces) if (kept) has.fill(2, start, end + CHECKSUM < data.length ? end : data.length);
  const lower = (from, to) => { for (let i = Math.max(0, from); i < to; i++) has[i] &&= 1; };
  for (const { start, end, kept } of pieces) {
    if (!kept && end - start > CHECKSUM) for (const from of [start - TORN, end]) lower(from, Math.min(from + TORN, data.length));
  }
  return { has, count: pieces.length && await countOf(fitrec, file) };
}

// So many orders of pieces are tried.
const MOST_TURNS = 120;

// Some pieces with those that follow them in a whole file of this size; null if it is not found.
async function wholeBy(fitrec, row, free, size, turns) {
  const rest = row.reduce((sum, it) => sum - it.length, size);
  for (const it of free.filter(own => own.length <= rest)) {
    const more = [...row, it];
    if (it.length < rest) {
      const all = await wholeBy(fitrec, more, free.filter(own => own !== it), size, turns);
      if (all) return all;
    } else if (turns.left-- > 0 && !((await judged(fitrec, bytesOf(more))).kind in FAULTY)) return more;
  }
  return null;
}

// No sample is so far from the one before it, in units of a position.
const NEAR = 0.05 / SEMICIRCLE;

// The piece with which a file goes on in the midst of a message, by the time and the place of the sample after
// that; null if there is none.
async function goingOn(fitrec, front, free) {
  const samplesOf = file => fitrec.columns(file, RECORD, [TIME, 0, 1], Math.ceil(file.length / SAMPLE)), seam = front.length;
  const before = await orElse(fitrec.salvage(front, true).then(it => samplesOf(it.file)), () => [[]]), count = before[0].length;
  let best = null, least = MINUTES;
  for (const it of count ? free : []) {
    const { file, pieces } = await orElse(fitrec.skip(bytesOf([front, it]), true), () => ({ file: null, pieces: [] }));
    const isIn = pieces.some(own => own.kept && own.start < seam && own.end > seam + Math.min(it.length / 2, TORN));
    const [step, ...ways] = isIn ? (await samplesOf(file)).map((values, k) => values[Math.min(count + 1, values.length - 1)] - before[k][count - 1]) : [];
    if (step >= 0 && step < least && !ways.some(n => Math.abs(n) > NEAR)) [best, least] = [it, step];
  }
  return best;
}

// One activity of several files, in their order.
/** @param {Given} ride @returns {Promise<Answer>} */
async function ofParts(fitrec, ride, how) {
  const { parts = [] } = ride;
  try {
    const { file: whole, heard, leftOut } = await fitrec.join(parts, true), { file, set, seconds, ...made } = await moved(fitrec, whole, ride, how);
    const details = [['finishedWhy', { heard }], ...(leftOut ? [['finishedLeft', { count: leftOut }]] : []), ...made.details];
    return { heading: 'joined', reasons: [['joinedWhy', { count: parts.length }], ...made.reasons], details, next: [],
      offers: [...offersOf(set, how), ...how.length ? ['back'] : []], file, seconds,
      summary: await fitrec.check(file), isWhole: true, isOurs: true };
  } catch (error) {
    if (!error.kind) throw error;
    return { ...nothing([]), heading: 'notJoined' };
  }
}

// One file. If it is damaged, what can be read of it is rescued; and after an offer that of the data file of a recording, without or with
// the end that was not confirmed, or of all its bytes. `before` is what was said of the recording.
/** @returns {Promise<Answer>} */
async function ofFile(fitrec, ride, how, before = [], beforeDetails = []) {
  const { data, name, isPart, journal, pieces, undone: was } = ride, isKept = how.includes('times'), isNew = isPart || pieces || was;
  let why = unreadOf(ride), details = [...beforeDetails, ...unreadAt(ride)], fault = null;
  if (!why.length) {
    const { summary, kind, place } = await judged(fitrec, data);
    const own = { next: [], offers: [], ...(isNew ? { file: data } : { shown: data }) };
    if (!kind && (isKept || how.every(isOfValues))) {
      const set = !isKept && await isSet(fitrec, data) && inOneClock(data, piecesIn(data), false, how.includes('clock'));
      const sound = set ? (await fitrec.salvage(set.data)).file : data;
      const { file, seconds, ...made } = await moved(fitrec, sound, ride, how), said = [...details, ...made.details], other = set || made.set;
      const reasons = [...set ? [clockWas(set, seconds)] : [], ...made.reasons], whole = { ...own, details: said, isWhole: true };
      const isWhole = !other && !seconds && !made.isPlaced, together = pieces && [piecesWhy(ride), ...ride.isCopies ? [['nothingMissing']] : []];
      if (isWhole && together) return { ...whole, heading: ride.isCopies ? 'rescued' : 'joined', reasons: [...reasons, ...together], summary };
      if (isWhole && was) return { ...whole, heading: 'rescued', reasons: [...before, ['nothingMissing']], summary };
      if (isWhole) return { ...whole, heading: 'whole', reasons: [...reasons, [isPart ? 'partWhy' : 'wholeWhy']], summary };
      return { ...whole, heading: other || seconds ? 'moved' : 'placed', reasons, file, shown: undefined, seconds, offers: offersOf(other, how), ...await judged(fitrec, file) };
    }
    if (kind === 'NotActivity') {
      return { heading: 'otherKind', reasons: [await kindOf(fitrec, data)], details: [...details, ['faultNotActivity']], ...own };
    }
    const parts = kind && !how.length && !journal ? await partsOf(fitrec, data) : [];
    if (parts.length > 1) return { parts };
    if (kind) details.push(['fault' + kind, { place }]);
    fault = kind in LACKING ? null : kind;
    const made = fault && !ride.undone && await undone(fitrec, data);
    if (made) {
      const now = { ...ride, data: made[0], undone: made[1] }, again = journal && !how.length ? await ofRecording(fitrec, now, how) : null;
      // With that its journal confirms it.
      if (again && again.isSaved) return { ...again, isSaved: false, isConfirmed: true, reasons: [[made[1]], ...again.reasons] };
      return ofFile(fitrec, now, how, [...before, [made[1]]], details);
    }
  }
  try {
    return await salvaged(fitrec, ride, { why, details, before, fault, how });
  } catch (error) {
    if (!error.kind) throw error;
    const format = formatOf(name, data), lost = isBlank(data) ? 'blankFile' : fault === 'Truncated' ? 'cutAtOnce' : null;
    if (format) return nothing([['otherFormat', { name, format }]]);
    if (lost) return nothing([[lost, { name }]], journal ? 'copyNext' : 'emptyAloneNext', details);
    if (PAGE.test(lettersOf(data))) return nothing([['webPage', { name }]]);
    const isUnknown = /^(?!\._).*\.(fit|chk)$/i.test(name) && LOST.test(lettersOf(data));
    if (isUnknown) return { ...nothing([['notBegun', { name }]], '', details), next: helpFor(data), isUnknown, isByUs: isNamedOurs(ride) };
    return nothing([[/\.img$/i.test(name) ? 'noArchive' : 'notFit', { name }]], /\.fit$/i.test(name) ? 'emptyAloneNext' : 'notFitNext', details);
  }
}

// The first bytes of a recording whose beginning is lost, which has more than letters and is no picture, or was erased there.
const LOST = /^(?!\x89PNG|\xFF\xD8|%PDF).*[^\t-\r -\xFF]|^\xFF{9}/s;

// What files are that are no activities, by the types of the Profile.
const KINDS = { 1: 'Device', 2: 'Settings', 3: 'Settings', 5: 'Workout', 6: 'Course', 7: 'Schedule', 9: 'Weight', 10: 'Totals', 11: 'Goals',
  14: 'Pressure', 15: 'Monitoring', 20: 'Summary', 28: 'Monitoring', 32: 'Monitoring', 34: 'Segment', 35: 'Segments', 40: 'Settings' };

/** @returns {Promise<Said>} */
async function kindOf(fitrec, file) {
  const [[type]] = await fitrec.columns(file, 0, [0]);
  return ['otherKindWhy', { kind: [['kind' + (KINDS[type] || 'Other')]] }];
}

const piecesWhy = ({ pieces, isCopies }) => [isCopies ? 'copiesWhy' : 'piecesWhy', { names: pieces.join(', ') }];

// No file has more bytes in which faults are undone: a day has fewer. By the right layout so many values more are read.
const MOST_UNDONE = 2 ** 21, LAYOUT = 64, VALUES = [TIME, 0, 1, 2, 78, 3, 4, 5, 6, 73, 7, 13];

// Where the definitions stand of the messages that are kept.
function layoutsAt(data, pieces) {
  const found = new Map(), latest = [];
  for (const it of pieces.filter(own => own.kept)) {
    for (const { definition: { bytes } } of messagesIn(data, it.start, it.end, latest)) {
      const start = bytes.byteOffset - data.byteOffset;
      found.set(start, { start, end: start + bytes.length, kept: true });
    }
  }
  return [...found.values()];
}

// A damaged file as it was, if that can be told exactly, and what is said of it; null if it cannot.
/** @returns {Promise<[made: Uint8Array, why: string] | null>} */
async function undone(fitrec, data) {
  if (data.length > MOST_UNDONE || !hasHeader(data)) return null;
  const isFull = it => it[0] + lengthOf(it) + CHECKSUM === it.length, isSound = async it => !((await judged(fitrec, it)).kind in FAULTY);
  // What is read whatever the checksum is: a right one is no proof, since one of 32,767 bits makes any right.
  const readIn = it => fitrec.skip(openedWith([], it.subarray(it[0], isFull(it) ? -CHECKSUM : it.length)), true);
  // A message may be torn at the end of a file that was not closed.
  const isAll = ({ pieces, looked }, it) => pieces.every(own => own.kept || !isFull(it) && own.end === HEADER + looked && own.end - own.start <= TORN);
  const valuesIn = async ({ file }) => {
    const found = await fitrec.columns(file, RECORD, VALUES, Math.ceil(file.length / SAMPLE));
    return found.reduce((sum, own) => sum + own.filter(n => n === n).length, 0);
  };
  const before = beforeText(data);
  if (before && (lengthOf(before) ? await isSound(before) : isAll(await readIn(before), before))) return [before, 'textWhy'];
  const first = await readIn(data), pieces = first.pieces.map(it => ({ ...it, start: it.start - HEADER + data[0], end: it.end - HEADER + data[0] }));
  const left = pieces.filter(it => !it.kept).slice(0, PLACES);
  for (const [made, why, isLayout] of undoings(data, left, layoutsAt(data, pieces))) {
    if (lengthOf(made) && !await isSound(made)) continue;
    // A layout is right if more values are read by it.
    const then = await readIn(made);
    if (isAll(then, made) && (!isLayout || await valuesIn(then) > await valuesIn(first) + LAYOUT)) return [made, why];
  }
  return null;
}

// Faults of bytes that have changed.
const CHANGED = ['FileCrc', 'UndefinedLocal', 'SplitMessage'];

// Faults of files that are not whole.
const FAULTY = { Truncated: 1, UndefinedLocal: 1, SplitMessage: 1, FileCrc: 1, TrailingBytes: 1 };

// What a file lacks that is no damage: it is added.
const LACKING = { NoFileId: 1, NoLap: 1, NoSession: 1, NoActivity: 1 };

// What tells how to read a file: another one, or its beginning.
/** @type {(data: Uint8Array) => Said[]} */
const helpFor = data => hasHeader(data) ? [['likeNext']] : [['likeNext'], ['pieceNext']];

// What a website answers that wants a password first.
const PAGE = /^\s*<(!doctype )?html/i;

// Another format of activities, by the name of a file or its first bytes.
const FORMATS = { GPX: /\.gpx$|<gpx\b/i, TCX: /\.tcx$|<TrainingCenterDatabase\b/i };

function formatOf(name, data) {
  const by = shown => Object.keys(FORMATS).find(it => FORMATS[it].test(shown));
  return by(name) || by(lettersOf(data));
}

// The first bytes as letters.
const lettersOf = bytes => String.fromCharCode(...bytes.subarray(0, 400)), hasHeader = bytes => lettersOf(bytes).slice(8, 12) === '.FIT';

// The files that are chained in one, or stand behind one that was cut off.
async function partsOf(fitrec, data) {
  const chained = await fitrec.split(data);
  if (chained.length > 1 && hasHeader(chained[1])) return chained;
  const { files } = await orElse(fitrec.find(data), () => ({ files: [] })), starts = [0, ...files.map(it => it.start).filter(it => it)];
  return starts.map((start, k) => data.slice(start, starts[k + 1]));
}

// What an answer is, or something else if it is refused.
const orElse = (answer, other) => answer.catch(error => { if (error.kind) return other(error); throw error; });

// Of a file without faults: where its messages stand, and whether its times leap, as where a clock was set.
const piecesIn = file => [{ start: file[0], end: file.length - CHECKSUM, kept: true }];

async function isSet(fitrec, file) {
  const [times] = await fitrec.columns(file, RECORD, [TIME], Math.ceil(file.length / SAMPLE));
  return times.some((t, i) => isLeap(times[i - 1], t));
}

const clockWas = ({ from, ms }, seconds = 0) => ['clockWas', { from: { time: from + seconds }, length: { ms } }];

// A damaged file with its times in one clock, if that was set on the way, unless the file has more bytes than any ride. Of what is left out
// some parts are looked at too, as far as they can be read.
async function setAmong(fitrec, data, { file, pieces }, isChanged, isOther) {
  const latest = [], all = [], large = pieces.filter(it => !it.kept && it.end - it.start > TORN).slice(0, PLACES);
  if (data.length > LARGEST || !large.length && !await isSet(fitrec, file)) return null;
  for (const it of pieces) {
    const { start, end } = it, front = latest.flatMap(own => [...own.bytes]), part = () => openedWith(front, data.subarray(start, end));
    if (it.kept) for (const _ of messagesIn(data, start, end, latest));
    const read = large.includes(it) ? (await fitrec.salvage(part(), true)).kept - front.length : 0;
    if (it.kept || read > 0) all.push(it.kept ? it : { ...it, end: start + read });
  }
  return inOneClock(data, all, isChanged, isOther);
}

// Where a clock was set, another part may have the right times.
const offersOf = (set, how) => set ? [...how.includes('ahead') ? [] : ['times'], ...set.isOpen && !how.includes('clock') ? ['clock'] : []] : [];

const judged = (fitrec, file) => orElse(fitrec.check(file).then(summary => ({ summary })), ({ kind, place }) => ({ kind, place }));

// What the header of a file states: 0 in a recording that was not closed, null without a header.
function lengthOf(data) {
  const stated = hasHeader(data) ? viewOf(data).getUint32(4, true) : null;
  return stated === NO_LENGTH ? 0 : stated;
}

// What can be read of a file, also after its faults; all of it if its checksum is right. Laps and totals are added where they are missing.
/** @returns {Promise<Answer>} */
async function salvaged(fitrec, ride, { why, details, before, fault, how, set = null }) {
  const { data, journal, confirmed = 0, isTorn } = ride, isEnd = how.includes('end'), isAsked = how.includes('all') || isEnd;
  // A recording that was not closed has no length and no checksum, so none of its values are in doubt.
  const length = lengthOf(data), isOpen = length === 0;
  // The last bytes of a file without a header may be its checksum.
  const first = await (ride.like ? readLike(fitrec, ride.like, data, ride.likeName ? [] : layoutsFor(data)) : orElse(skipped(fitrec, data, isAsked),
    () => fitrec.skip(data.subarray(0, -CHECKSUM))));
  const another = !set && !ride.like && !how.includes('times')
    && await setAmong(fitrec, data, first, !isOpen && CHANGED.includes(fault) || first.pieces.length > 2, how.includes('clock'));
  if (another) return salvaged(fitrec, { ...ride, data: another.data }, { why, details, before, fault, how, set: another });
  const mended = !ride.like && !ride.isMended && (await withLapIn(fitrec, ride, first) || await withTypeIn(fitrec, ride, first, fault));
  if (mended) return salvaged(fitrec, { ...ride, data: mended, isMended: true }, { why, details, before, fault, how, set });
  // A file that was given more room than it needed is whole.
  const isMore = first.more && !isBlank(data.subarray(data.length - first.more)), further = isMore ? await fitrec.skip(data, true) : first;
  // Where its length and its checksums are right, what follows is of another one.
  const front = isMore && await judged(fitrec, data.subarray(0, data.length - first.more)), isClosed = front && (!front.kind || front.kind in LACKING);
  const isOwn = isMore && !isClosed && await isGoingOn(fitrec, first.file, further, data.length), whole = isOwn ? further : first;
  const own = isAsked || how.includes('times') ? whole : await withoutLater(fitrec, whole), found = await withEnd(fitrec, await withLast(fitrec, own, data), data);
  const isLater = own !== whole, all = isOwn && !isLater || isAsked, isGiven = isMore && !isOwn && !isLater;
  const isOther = isMore && further.file.length <= first.file.length;
  const { kept, looked, more } = found, isAlone = isOpen && !journal;
  const isByUs = isNamedOurs(ride) || (await fitrec.columns(found.file, 0, [1]))[0][0] === OURS;
  const isRecording = isAlone && isByUs;
  /** @type {Said[]} */
  let next = isRecording && !isTorn ? [['journalBeside']] : [];
  if (!kept && fault === 'Truncated') throw new FitError(fault);
  if (!kept) return { ...nothing([...why, ['noMessage']], 'notFitNext', details), ...(isRecording ? { next } : {}) };
  // Its times are moved first, so that what is added has them too.
  const { file: known, ...ends } = await inTime(fitrec, found);
  const { file: sound, seconds, ...timed } = await moved(fitrec, known, ride, how);
  const { summary, kind } = await judged(fitrec, sound), isLacking = kind in LACKING && !how.includes('bare');
  const legs = how.includes('bare') ? sound : await withLegs(fitrec, sound, kind === 'NoActivity'), isLeg = legs !== sound;
  // Its beginning is lost.
  const [begin] = found.pieces, fronts = found.front ? [...messagesIn(found.file, HEADER, HEADER + found.front, [])] : [];
  const isLent = found.front > 0 && fronts.every(it => it.definition.number !== RECORD);
  const isLate = isLent || !begin.kept && begin.end - begin.start > TORN;
  const made = isLacking ? await finished(fitrec, sound, legs, kind, isLate)
    : { file: legs, reasons: isLeg ? [['completed', { what: [['lackedLeg']] }]] : [], details: [] };
  const file = await orElse(fitrec.plain(made.file), () => made.file), reasons = [...before, ...why];
  const size = Math.max(looked, all ? 0 : length, confirmed);
  // The length is in doubt where the header is, and where nothing is missing that comes last.
  const lost = kind && fault !== 'HeaderCrc' ? size - looked : 0;
  const gaps = await gapsOf(fitrec, found, data, { all, hasLength: !isOpen && hasHeader(data) && kind, lost, ends });
  const { count, back } = await samplesOf(fitrec, found, data, gaps), isUnknown = gaps.length > 0 && count < SOME && kept < size / 2;
  // What follows a ride that is closed is none of it.
  const after = (!kind || found.elsewhere) && !back && !found.tail && gaps.find(it => it.isLast && it.end > it.start);
  for (const it of [back && back.gap, after]) if (it) gaps.splice(gaps.indexOf(it), 1);
  if (isUnknown) next = helpFor(data);
  const isInside = gaps.some(it => !it.isLast), isWrong = fault === 'FileCrc' && !isOpen;
  const isCut = isTorn || fault === 'Truncated' && size - kept > TORN || gaps.some(it => it.isLast), isUnread = gaps.some(it => it.unread);
  const isDamaged = isInside || isUnread || fault && fault !== 'Truncated' && !(fault === 'TrailingBytes' && isGiven) && !isOpen;
  // What the device still has may be whole, unless an archive lost it on the way.
  // Where the end was wiped, samples may be gone with it.
  const tail = found.pieces[found.pieces.length - 1], left = tail.kept ? new Uint8Array(0) : data.subarray(tail.start, tail.end);
  const isEndless = isDamaged && !isOpen && left.length - writtenOf(left) > WIPED;
  const isLess = isCut && fault === 'Truncated' && !isOpen || isDamaged && (gaps.length > 0 || isWrong) || isEndless;
  if (isLess && !isTorn && !journal && !next.length) next = [['copyOneNext']];
  if (kind === 'NotActivity') reasons.push(await kindOf(fitrec, sound));
  if (isEnd) reasons.push(['endAdded']);
  else if (isAlone && !after && !isTorn) reasons.push(['notClosed', { end: !back && !isUnread }]);
  else if (isDamaged && (gaps.length || back) && !before.length) reasons.push(['wasDamaged']);
  else if (isCut && !isUnread && !confirmed) reasons.push(['cutOff', { end: !back }]);
  else if (fault === 'Truncated' && !kind) reasons.push(['endingAdded']);
  if (set) reasons.push(clockWas(set, seconds));
  if (back) reasons.push([isLater ? 'laterAfter' : 'olderAfter', { time: { time: back.time + (seconds || 0) } }]);
  if (isDamaged && gaps.length) reasons.push(['missingParts', { gaps: true }]);
  else if (isEndless && !back) reasons.push(['wasDamaged'], ['littleMissing']);
  else if (isDamaged && !back) reasons.push(['allThere']);
  if (ride.pieces) reasons.push(piecesWhy(ride));
  if (ride.like && ride.likeName) reasons.push(['likeWhy', { name: ride.likeName }]);
  if (isWrong || isInside) reasons.push(['mayBeWrong']);
  if (found.elsewhere) reasons.push(['elsewhereAfter', { time: { time: found.elsewhere + (seconds || 0) } }]);
  else if (isGiven || after) reasons.push([isOther || after ? 'goesOnOther' : 'goesOn']);
  const said = [...details, ...keptOf(found), ...(more ? [['salvagedMore', { more }]] : []), ...made.details, ...timed.details];
  const heading = isEnd || !gaps.length && !isCut && !confirmed && !back ? 'rescued' : kept >= size / 2 ? 'mostly' : 'partly';
  return { heading: kind === 'NotActivity' ? 'otherKind' : heading, reasons: [...reasons, ...made.reasons, ...timed.reasons],
    details: said, next, file, seconds, summary, gaps, isCut, isUnknown, isByUs, isUndated: found.isUndated, rest: back,
    offers: [...(back ? ['rest'] : []), ...(isGiven && !isOther ? ['all'] : []), ...offersOf(set || timed.set, how),
      ...(made.isFinished ? ['bare'] : [])],
    isWhole: made.isFinished || !kind, isOurs: made.isOurs, ownLaps: made.ownLaps };
}

// What is readable of a file, also after its faults. Values that leap, such as the first places of a ride after a flight, are no faults where
// all reads to the end and no time goes back, if they would take so many bytes with them.
async function skipped(fitrec, data, all) {
  const found = await fitrec.skip(data, all), front = await orElse(fitrec.salvage(data, all), () => found), { kept, looked } = front;
  const isHollow = found.pieces.some(it => !it.kept && hasHole(data.subarray(it.start, it.end)));
  if (looked - kept > TORN || kept - found.kept < FALSE || isHollow) return found;
  const timesOf = async ({ file }) => (await fitrec.columns(file, RECORD, [TIME], Math.ceil(file.length / SAMPLE)))[0];
  const times = await timesOf(front), more = times.length - (await timesOf(found)).length;
  if (LONGEST_SAMPLE * more < kept - found.kept || times.some((t, i) => !(t > 0) || isLeap(times[i - 1], t))) return found;
  // Times in the short form never go back.
  if ([...messagesIn(front.file, HEADER, front.file.length - CHECKSUM, [])].some(it => it.offset !== null)) return found;
  const start = data[0], end = start + kept, rest = { start: end, end: start + looked, kept: false };
  return { ...front, pieces: [{ start, end, kept: true }, ...rest.end > end ? [rest] : []] };
}

// Nobody pauses for so many seconds. In no time nobody is so many degrees away, and for each byte that is missing so many more.
const APART = 2 * DAY, ELSEWHERE = 0.05, REACH = 0.00003;

// What was found without parts that begin so much later than those before them, or elsewhere where times in the short form tell of no pause:
// they are of another ride, whose bytes were there before.
async function withoutLater(fitrec, found) {
  const { file, pieces, front: lent = 0 } = found;
  const [times, lat, long] = await fitrec.columns(file, RECORD, [TIME, 0, 1], Math.ceil(file.length / SAMPLE));
  const messages = [...messagesIn(file, HEADER, file.length - CHECKSUM, [])].filter(it => it.definition.number === RECORD);
  const isFar = (i, to, size) => messages[i].offset !== null && [lat, long].some(it => Math.abs(it[to] - it[i - 1]) * SEMICIRCLE > ELSEWHERE + REACH * size);
  const isApart = i => times[i] - times[i - 1] > APART && times[times.length - 1] - times[i - 1] > APART;
  let at = HEADER + lent;
  for (const [k, { start, end, kept }] of pieces.entries()) {
    if (kept) at += end - start;
    const i = kept ? -1 : messages.findIndex(it => it.start >= at), isElsewhere = i >= SOME && isFar(i, i, end - start) && isFar(i, times.length - 1, end - start);
    if (i < SOME || !isElsewhere && !isApart(i)) continue;
    const first = await fitrec.salvage(file.subarray(0, at), true), left = { ...pieces[k], end: pieces[pieces.length - 1].end };
    const made = { ...found, file: first.file, pieces: [...pieces.slice(0, k), left], kept: first.kept - lent };
    return isElsewhere ? { ...made, elsewhere: times[i - 1] } : { ...made, later: end };
  }
  return found;
}

// The message before a fault is left out, since a hole may begin in it. If that comes last and is no sample, such as the one that closes an
// activity, and of the ride's time, it is kept.
async function withLast(fitrec, found, data) {
  const { file, pieces } = found, last = pieces[pieces.length - 1], before = pieces[pieces.length - 2];
  if (!before || last.kept || found.front) return found;
  const front = definitionsIn(file), from = HEADER + front.length, tail = openedWith(front, data.subarray(last.start, last.start + TORN));
  const { file: read } = await fitrec.salvage(tail, true), [times] = await fitrec.columns(file, RECORD, [TIME], Math.ceil(file.length / SAMPLE));
  const first = [...messagesIn(read, HEADER, read.length - CHECKSUM, [])].find(it => it.start >= from);
  const since = first && first.definition.number !== RECORD ? valueOf(viewOf(read), first, TIME) - times[times.length - 1] : NaN;
  if (!(since >= 0 && since < DAY)) return found;
  const size = first.end - from, start = last.start + size;
  // Nobody wrote its end.
  if (start + UNWRITTEN < data.length && isBlank(data.subarray(start - 1, start + UNWRITTEN))) return found;
  const { file: made } = await fitrec.salvage(openedWith(file.subarray(HEADER, -CHECKSUM), data.subarray(last.start, start)), true);
  const rest = start < last.end ? [{ ...last, start }] : [];
  return { ...found, file: made, pieces: [...pieces.slice(0, -2), { ...before, end: start }, ...rest], kept: found.kept + size };
}

// A file with times in the short form counts them on after a hole, and is wrong by a multiple of what they tell. Then the first sample after
// it gets its time in full, by the next time that is stated, or else by the bytes that are missing. `exact` has the ends of holes after which
// a time is stated.
async function inTime(fitrec, { file, pieces, front = 0 }) {
  const end = file.length - CHECKSUM, view = viewOf(file), parts = [], exact = [], guessed = [], holes = [], steps = [];
  let at = HEADER + front, from = HEADER, time = 0, count = 0, k = -1;
  for (const it of pieces) {
    if (it.kept) at += it.end - it.start;
    else if (at > HEADER + front && at < end) holes.push({ at, ...it });
  }
  const all = holes.length ? [...messagesIn(file, HEADER, end, [])] : [], free = LOCALS.find(local => all.every(it => it.local !== local));
  const after = (t, { offset }) => offset === null ? t : t + (offset - t & SHORT - 1), statedIn = it => valueOf(view, it, TIME);
  for (const [i, it] of all.entries()) {
    while (k + 1 < holes.length && holes[k + 1].at <= it.start) k++;
    const hole = holes[k], isFirst = it.offset !== null && hole && !hole.isPassed;
    if (hole && (it.offset !== null || statedIn(it) >= 0)) hole.isPassed = true;
    if (isFirst && time && it.definition.number === RECORD) {
      const next = all.findIndex((own, j) => j > i && statedIn(own) >= 0), isStated = next > 0;
      const last = all.slice(i, isStated ? next : i + 1).reduce(after, time), pace = steps.sort((a, b) => a - b)[steps.length >> 1] || 0;
      const lost = pace * (1 + count * (hole.end - hole.start) / (hole.at - HEADER));
      const late = isStated ? statedIn(all[next]) - last : lost - (last - time) + SHORT / 2, more = Math.max(0, late - late % SHORT);
      (isStated ? exact : guessed).push(hole.end);
      if (free && more > 0 && more < DAY) {
        time = after(time, it) + more;
        parts.push(file.subarray(from, it.start), inFull(it, time, file, free));
        from = it.end;
        continue;
      }
    }
    const now = statedIn(it) >= 0 ? statedIn(it) : after(time, it);
    if (it.definition.number === RECORD && count++) steps.push(now - time);
    time = now;
  }
  if (!parts.length) return { file, exact, guessed: [] };
  const last = file.subarray(from, end), made = new Uint8Array([...parts, last].reduce((sum, it) => sum + it.length, 0));
  let size = 0;
  for (const it of [...parts, last]) {
    made.set(it, size);
    size += it.length;
  }
  return { file: (await fitrec.salvage(openedWith([], made), true)).file, exact, guessed };
}

// The local numbers, the last first.
const LOCALS = [...Array(16).keys()].reverse();

// A sample with its time in full, with a definition for it under a local number.
function inFull({ start, end, definition: { bytes, isBig } }, time, file, local) {
  const head = bytes.slice(), stated = new DataView(new ArrayBuffer(4));
  head[0] = head[0] & 0xF0 | local;
  head[5]++;
  stated.setUint32(0, time, !isBig);
  return bytesOf([head.subarray(0, 6), [TIME, 4, 0x86], head.subarray(6), [local], new Uint8Array(stated.buffer), file.subarray(start + 1, end)]);
}

// Totals at the end may stand behind a fault that hides them: they are read by themselves, if they are of the same ride. The last bytes may
// be a checksum.
async function withEnd(fitrec, found, data) {
  const { start, end, kept } = found.pieces[found.pieces.length - 1] || { kept: true };
  const tail = kept ? null : await orElse(fitrec.skip(data.subarray(start, end === data.length ? end - CHECKSUM : end)), () => null);
  if (!tail) return found;
  const [[time]] = await fitrec.columns(tail.file, SESSION, [TIME]), [known] = await fitrec.columns(found.file, RECORD, [TIME]);
  const since = time - known[known.length - 1];
  if (!(time >= 0) || known.length && !(since >= 0 && since < DAY)) return found;
  const [items, last] = [found, tail].map(it => it.file.subarray(HEADER, -CHECKSUM));
  const pieces = [...found.pieces.slice(0, -1), ...tail.pieces.map(it => ({ ...it, start: start + it.start, end: start + it.end }))];
  const { file } = await fitrec.salvage(openedWith(items, last), true);
  return { ...found, file, pieces, kept: found.kept + tail.kept, tail: last.length };
}

// The bytes of a recording of ours with the definition of its laps in a hole, if that hid it: with it more laps can be read. Null if not.
async function withLapIn(fitrec, ride, { file, pieces }) {
  const { data } = ride, holes = pieces.filter(it => !it.kept && it.start > data[0] && it.end < data.length && it.end - it.start > TORN);
  if (!holes.length || !isNamedOurs(ride) && (await fitrec.columns(file, 0, [1]))[0][0] !== OURS) return null;
  const made = data.slice(), { file: whole } = await fitrec.finish((await fitrec.salvage(shortRide()[0], true)).file);
  const lap = layoutsIn(whole).find(it => it[3] === LAP);
  made.set(lap, holes[0].end - lap.length);
  const lapsIn = async it => (await fitrec.columns(it, LAP, [TIME]))[0].length;
  return await lapsIn((await fitrec.skip(made, true)).file) > await lapsIn(file) ? made : null;
}

// The type of an activity in a file_id, and that of a course.
const ACTIVITY_TYPE = 4, COURSE = 6;

// The bytes of a damaged file with that type, if it has a message that only activities have, or samples and not the type of a course, which
// has some too; null if it has the type, or nothing of these.
async function withTypeIn(fitrec, { data }, { file, pieces }, fault) {
  const begin = pieces.find(it => it.kept);
  if (!fault || !begin || begin.start > HEADER) return null;
  const { value: first } = messagesIn(file, HEADER, HEADER + begin.end - begin.start, []).next();
  const count = async number => (await fitrec.columns(file, number, [TIME]))[0].length, [[type]] = await fitrec.columns(file, 0, [0]);
  const isActive = await count(ACTIVITY) || await count(SESSION) || type !== COURSE && await count(RECORD) >= SOME;
  if (!first || first.definition.number || !isActive) return null;
  const { bytes } = first.definition, made = data.slice();
  let at = begin.start + first.start - HEADER + 1, i = 6;
  for (; i < bytes.length && bytes[i] > 0; i += 3) at += bytes[i + 1];
  if (i >= bytes.length || made[at] === ACTIVITY_TYPE) return null;
  made[at] = ACTIVITY_TYPE;
  return made;
}

// Whether all that follows the end of a file is of its ride: then the length in its header is wrong. Its checksum may hide its last message.
async function isGoingOn(fitrec, file, { file: further, pieces }, size) {
  const [time, all] = await Promise.all([file, further].map(async it => (await fitrec.columns(it, RECORD, [TIME], it.length / SAMPLE | 0))[0]));
  const isRead = pieces.every(({ start, end, kept }) => kept || start < file.length - CHECKSUM || end === size && end - start <= TORN);
  const step = all[time.length] - time[time.length - 1];
  return further.length > file.length && isRead && (all.length === time.length || step >= 0 && step < MINUTES);
}

// A ride whose distance begins with so many centimetres has lost its beginning.
const LONG = 100000;

// With what an activity lacks. Samples of a clock that began anew count by a later one.
const totalled = (fitrec, file) => orElse(fitrec.finish(file), async () => {
  const made = await fitrec.finish(await fitrec.shift(file, FIRST_DATE));
  return { ...made, file: await fitrec.shift(made.file, -FIRST_DATE) };
});

// A file whose distances count from its first sample on.
const fromStart = async (fitrec, file, begun) => (await fitrec.salvage(fromFirst(file, piecesIn(file), begun))).file;

// Where two numbers of 16 bits stand in the session and the lap that are added: their index, and that of the session's first lap.
const INDEX = 1, FIRST_LAP = 37;

// An activity has so many parts at most, and this message closes it.
const MOST_LEGS = 64, ACTIVITY = 34;

// An activity of several parts of which the totals of some are lost, or that was cut off in the last one: with a lap and a session for each.
async function withLegs(fitrec, file, isCut) {
  let made = file;
  for (let i = 0, next = made; next && i < MOST_LEGS; i++) {
    made = next;
    next = await withLeg(fitrec, made, isCut);
  }
  return made;
}

// The same for the first of them, or null. The number of a session tells that one is lost before it, and that of them all that the last is.
async function withLeg(fitrec, file, isCut) {
  const end = file.length - CHECKSUM, all = [...messagesIn(file, HEADER, end, [])], of = number => all.filter(it => it.definition.number === number);
  const sessions = of(SESSION), records = sessions.length ? of(RECORD) : [], column = async (...those) => fitrec.columns(file, ...those);
  const [[times], [begun, index], [[stated]]] = await Promise.all([column(RECORD, [TIME], records.length), column(SESSION, [2, 254]), column(ACTIVITY, [1])]);
  let from = HEADER;
  for (const [k, it] of [...sessions, null].entries()) {
    const isLost = it ? index[k] > k : isCut || stated > k, to = it ? it.start : end;
    const left = isLost ? records.filter((own, i) => own.start >= from && own.start < to && (!it || times[i] < begun[k])) : [];
    if (left.length >= SOME) return withTotals(fitrec, file, from, it ? left[left.length - 1].end : end, k, of(LAP));
    if (it) from = it.end;
  }
  return null;
}

// A file with a lap and a session for what stands from one place to another, after so many sessions.
async function withTotals(fitrec, file, from, to, index, laps) {
  const front = from > HEADER ? definitionsIn(file.subarray(0, from + CHECKSUM)) : [], latest = [], own = [];
  const { file: rest } = await fitrec.salvage(openedWith(front, file.subarray(from, to)), true);
  const [way] = await fitrec.columns(rest, RECORD, [WAY]), begun = way.find(n => n >= 0), leg = begun >= LONG ? await fromStart(fitrec, rest, begun) : rest;
  const made = await orElse(fitrec.finish(leg), () => ({ file: leg })), start = leg.length - CHECKSUM;
  const added = [...messagesIn(made.file, start, made.file.length - CHECKSUM, own)], session = added.find(it => it.definition.number === SESSION);
  if (!session) return null;
  const view = viewOf(made.file), count = laps.filter(it => it.start < to).length;
  for (const it of added) if (it.definition.number === LAP) view.setUint16(it.start + INDEX, count, true);
  view.setUint16(session.start + INDEX, index, true);
  view.setUint16(session.start + FIRST_LAP, laps.filter(it => it.start < from).length, true);
  // What follows is read as before.
  for (const _ of messagesIn(file, HEADER, to, latest));
  const again = latest.filter((it, local) => it && own[local]).map(it => it.bytes);
  const head = openedWith(file.subarray(HEADER, to), bytesOf([made.file.subarray(start, session.end), ...again])).subarray(HEADER);
  return (await fitrec.salvage(openedWith(head, file.subarray(to, -CHECKSUM)), true)).file;
}

// With what it lacks, or why that is not there.
async function finished(fitrec, file, whole, kind, isLate) {
  try {
    const column = async (it, number, field = TIME) => (await fitrec.columns(it, number, [field]))[0];
    const count = async (it, number) => (await column(it, number)).length;
    const isOurs = !await count(whole, SESSION);
    const begun = (await column(whole, RECORD, WAY)).find(n => n >= 0), isPart = isOurs && begun >= (isLate ? 1 : LONG);
    const made = await totalled(fitrec, isPart ? await fromStart(fitrec, whole, begun) : whole);
    const left = made.leftOut ? [['finishedLeft', { count: made.leftOut }]] : [], laps = await count(file, LAP), isLeg = whole !== file;
    const what = [[laps === await count(made.file, LAP) ? 'lackedTotals' : laps ? 'lackedLast' : 'lackedLaps']];
    // Of a leg whose totals are lost more is missing than the end.
    const isPartial = !isLeg && made.leftOut >= SOME, isEnd = kind === 'NoActivity' && !isPartial && !isLeg;
    const reasons = [...kind === 'NoFileId' ? [['fileIdAdded']] : isEnd ? [['endingAdded']] : [],
      ...isOurs || isLeg || kind === 'NoLap' ? [['completed', { what: isOurs ? what : [[isLeg ? 'lackedLeg' : 'lackedAlone']] }]] : [],
      ...isPart ? [['partWay']] : [],
      ...isPartial ? [['notCounted', { count: made.leftOut }]] : []];
    return { file: made.file, isFinished: true, isOurs, ownLaps: laps, reasons, details: [['finishedWhy', { heard: made.heard }], ...left] };
  } catch (error) {
    if (error.kind !== 'NoSample') throw error;
    return { file: whole, reasons: [['noTotals']], details: [['faultNoSample']] };
  }
}

// So many places that are left out are named.
const PLACES = 5;

// What is said of the bytes that are kept, and of those that are left out.
function keptOf({ kept, looked, pieces }) {
  const count = pieces.filter(it => it.kept).length, left = pieces.filter(it => !it.kept), more = left.length - PLACES;
  const places = left.slice(0, PLACES).map(({ start, end }) => ['leftOutAt', { count: end - start, place: start }]);
  if (more > 0) places.push(more === 1 ? ['leftOutOne'] : ['leftOutMore', { count: more }]);
  return [[count === 1 ? 'keptOne' : 'keptParts', { kept, looked, count }], ...(left.length ? [['leftOut', { places }]] : [])];
}

// Whether bytes were never written: then nothing of the ride is lost with them.
const isBlank = bytes => bytes.length > 0 && !writtenOf(bytes);

// How many bytes stand before those at the end that were never written.
const writtenOf = bytes => bytes.findLastIndex(n => n !== bytes[bytes.length - 1] || n > 0 && n < 255) + 1;

// The field of a file_id that says when it was made.
const CREATED = 4;

// A message that was torn at the end has at most so many bytes, and a checksum so many. An end that was wiped has more than so many. A length of
// room that was erased is none.
const TORN = 256, CHECKSUM = 2, WIPED = 64, NO_LENGTH = 0xFFFFFFFF;

// Faults that are none take more bytes than this, and few of them are no samples.
const FALSE = 2048, LONGEST_SAMPLE = 128;

// Whether some of the bytes were never written: more than so many in a row are alike. So many after a message tell that it was cut.
const HOLE = 128, UNWRITTEN = 8;

function hasHole(bytes) {
  let since = 0;
  return bytes.some((n, i) => {
    if (n !== bytes[since]) since = i;
    return (n === 0 || n === 255) && i - since >= HOLE;
  });
}

// The first byte of the data message at a place, or after the definitions there.
const headAt = (data, at) => (data[at] & 192) === 64 ? headAt(data, at + 6 + 3 * data[at + 5]) : data[at];

// Where something is left out: for the end of the file and the largest of these places how many samples are kept before it. So many bytes
// are `lost` that would follow. Where all bytes are looked at, what comes last may be of another ride, and zeros at the end of what has no
// length were never written.
async function gapsOf(fitrec, { file, pieces, front = 0, tail = 0 }, data, { all, hasLength, lost, ends }) {
  const end = pieces.length && !pieces[0].kept ? pieces[0].end : 0, last = file.length - CHECKSUM - tail;
  /** @type {Gap[]} */
  const gaps = front ? [{ at: HEADER + front, start: 0, end, isLast: false, size: Infinity }] : [];
  let at = HEADER + front;
  for (const { start, end, kept } of pieces) {
    const isLast = at === last, size = end - start, own = isLast ? writtenOf(data.subarray(start, end)) : 0;
    const unread = own > TORN ? own / data.length : 0;
    if (kept) at += size;
    else if (isLast ? !all && size > TORN && (hasLength || tail || unread) : end > HEADER) {
      // A time in the short form counts from the one before it.
      const isShort = headAt(data, end) > 127 && !ends.exact.includes(end), isGuessed = ends.guessed.includes(end);
      gaps.push({ at, start, end, isLast, unread, part: size / data.length, size: isLast ? Infinity : size, isShort, isGuessed });
    }
  }
  const { length } = data, isLost = gaps.length && lost > TORN && !gaps.some(it => it.isLast);
  if (isLost) gaps.push({ at: last, start: length, end: length, isLast: true, size: Infinity });
  for (const gap of [...gaps].sort((a, b) => b.size - a.size).slice(0, PLACES)) {
    const before = await orElse(fitrec.salvage(file.subarray(0, gap.at), true), () => ({ kept: 0 }));
    gap.before = before.kept ? await countOf(fitrec, before.file) : 0;
    // Before the first sample there were as many in so many bytes as there are after it.
    // How much came before what was cut off there is not known.
    const isThere = gap.end > gap.start && (hasHeader(data) || hasHole(data.subarray(gap.start, gap.end)));
    const each = async () => await countOf(fitrec, file) / file.length;
    gap.samples = gap.before ? gap.size * gap.before / gap.at : isThere ? (gap.end - gap.start) * await each() : Infinity;
  }
  // Between the same two samples one is missing.
  return gaps.filter(({ before }, k) => before === undefined || gaps.findIndex(other => other.before === before) === k);
}

const countOf = async (fitrec, file) => (await fitrec.columns(file, RECORD, [TIME], Math.ceil(file.length / SAMPLE)))[0].length;

// Times in the short form that follow no other are below so many seconds.
const SHORT = 32;

// How many samples a file has, and where times go back, or are `later` and of another ride, in what is left out at its end: after which
// time, from which byte on, and what tells how it is read.
async function samplesOf(fitrec, { file, later }, data, gaps) {
  if (!gaps.length) return { count: 0 };
  const read = async it => (await fitrec.columns(it, RECORD, [TIME], Math.ceil(it.length / SAMPLE)))[0], times = await read(file);
  const gap = gaps.find(it => it.isLast && it.before >= SOME && it.end > it.start);
  if (!gap) return { count: times.length };
  const definitions = definitionsIn(file.subarray(0, gap.at)), time = times[gap.before - 1];
  const start = later ?? gap.start;
  const own = await orElse(readUnder(fitrec, definitions, data.subarray(start, gap.end)).then(it => read(it.file)), () => []);
  const isBack = own.length > SOME && own[0] >= SHORT && (later || own[0] <= time);
  return { count: times.length, back: isBack ? { gap, start, definitions, time } : undefined };
}

// ---- what tells how bytes are read

// A header that states no length.
const OPENED = Uint8Array.of(HEADER, 0x20, 100, 0, 0, 0, 0, 0, ...new TextEncoder().encode('.FIT'), 0, 0);

// A file with definitions and bytes, under it.
function openedWith(definitions, bytes) {
  const all = new Uint8Array(HEADER + definitions.length + bytes.length);
  all.set(OPENED);
  all.set(definitions, HEADER);
  all.set(bytes, HEADER + definitions.length);
  return all;
}

// What is readable of bytes under definitions, which stand first in the new file, from a place on. The pieces are those of the bytes.
async function readUnder(fitrec, definitions, data, from = 0) {
  const front = definitions.length, more = HEADER + front - from;
  const { file, kept: all, looked, pieces } = await fitrec.skip(openedWith(definitions, data.subarray(from)), true);
  const own = pieces.map(it => ({ ...it, start: Math.max(from, it.start - more), end: it.end - more })).filter(it => it.end > it.start);
  // Definitions of which nothing follows may be left out.
  const kept = own.reduce((sum, it) => it.kept ? sum + it.end - it.start : sum, 0);
  return { file, pieces: own, kept, looked: looked - front, more: 0, front: all - kept };
}

// So many bytes show under which local number samples stand.
const SHOWN = 2 ** 16;

// The same of a file under the definitions of another one, from its first fault on. The device may have had them under other local numbers:
// then samples stand under the one by which most can be read, and what is left out between them begins with others.
async function readLike(fitrec, like, data, others = []) {
  const { file: lent } = await orElse(fitrec.salvage(like), () => ({ file: OPENED })), layouts = layoutsIn(lent);
  const { file, pieces } = await orElse(fitrec.skip(data), () => ({ file: OPENED, pieces: [] })), from = hasHeader(data) ? data[0] : 0;
  const size = pieces.length && pieces[0].kept && pieces[0].start === from ? pieces[0].end - from : 0, own = file.subarray(HEADER, HEADER + size);
  // The last definition does not look as if it ran into zeros.
  const inOrder = lines => lines.filter(it => it).sort((a, b) => Math.sign(a[a.length - 1]) - Math.sign(b[b.length - 1]));
  let begun = [];
  const opening = lines => bytesOf([own, ...begun.map(startAt), ...inOrder(lines)]);
  const read = (lines, part = data, at = from + size) => readUnder(fitrec, opening(lines), part, at);
  const put = (lines, local, layout) => {
    const made = lines.map(it => it === layout ? null : it);
    made[local] = Uint8Array.from(layout, (n, i) => i ? n : n & 0xF0 | local);
    return made;
  };
  const best = async (choices, ...of) => {
    const kept = [];
    for (const lines of choices) kept.push((await read(lines, ...of)).kept);
    return choices[kept.indexOf(Math.max(...kept))];
  };
  const usual = Array(16).fill(null), middle = data.subarray(Math.max(0, data.length - SHOWN >> 1)).subarray(0, SHOWN);
  for (const it of layouts) usual[it[0] & 15] ||= it;
  // Times in the short form count from one that is stated before them, which may be lost.
  const stated = [...messagesIn(file, HEADER, HEADER + size, [])].map(it => [TIME, CREATED].map(field => valueOf(viewOf(file), it, field)));
  const isTimed = stated.some(([time]) => time >= 0), [created = 0] = stated.map(([, it]) => it).filter(it => it >= FIRST_DATE);
  const moved = layouts.length ? usual.map((_, local) => put(usual, local, layouts[0])) : [];
  const foundSince = async (...times) => {
    begun = times;
    let dated = null, lines = await best([usual, ...others.map(it => put(usual, 0, it)), ...others.length ? [] : moved], middle, 0);
    for (;;) {
      const found = await read(lines), left = found.pieces.filter(it => !it.kept && it.start > from + size && it.end - it.start > CHECKSUM);
      const next = await best([lines, ...left.slice(0, PLACES).flatMap(it => layouts.map(own => put(lines, localOf(data[it.start]), own)))]);
      if (next !== lines) {
        lines = next;
        continue;
      }
      const due = begun.length && (await dueIn(fitrec, data, found, opening(lines)) || created && created + await shortBefore(fitrec, found, from + size));
      // The timer starts at the first sample.
      const firstIn = async it => (await fitrec.columns(it.file, RECORD, [TIME]))[0][0];
      for (let i = 0, time = due || await firstIn(found); i < 2 && time > begun[0]; i++, time = await firstIn(dated)) {
        begun = [time];
        dated = await read(lines);
      }
      return dated && dated.kept >= found.kept ? dated : found;
    }
  };
  const found = await foundSince(), short = isTimed ? found : await foundSince(0);
  return short.kept < found.kept || isTimed ? found : { ...short, isUndated: begun[0] < FIRST_DATE };
}

// How long the samples took whose bytes are lost before those that were found, at their pace: a multiple of what times in the short form tell.
async function shortBefore(fitrec, { file, pieces, kept }, from) {
  const [times] = await fitrec.columns(file, RECORD, [TIME], Math.ceil(file.length / SAMPLE)), first = pieces.find(it => it.kept);
  const seconds = first ? (times[times.length - 1] - times[0]) * (first.start - from) / kept : 0;
  return Math.max(0, Math.round(seconds / SHORT - 0.5)) * SHORT || 0;
}

// The timer starts at a time, from which times in the short form count. The last local number is seldom used.
const startAt = time => Uint8Array.of(0x4F, 0, 0, 21, 0, 3, TIME, 4, 0x86, 0, 1, 0, 1, 1, 0, 0x0F, time, time >> 8, time >> 16, time >> 24, 0, 0);

// The time from which times in the short form count, by the first one that is stated after them; 0 if none is. That may be in what is left out.
async function dueIn(fitrec, data, { file, pieces, front }, opening) {
  const latest = [], [first] = [...messagesIn(opening, 0, opening.length, latest)];
  let time = 0, at = HEADER + front;
  const statedIn = (bytes, from, to, known) => {
    for (const it of messagesIn(bytes, from, to, known)) {
      const stated = valueOf(viewOf(bytes), it, TIME);
      if (stated >= FIRST_DATE) return stated;
      if (it.offset !== null) time += it.offset - time & SHORT - 1;
    }
    return 0;
  };
  for (const { start, end, kept } of pieces) {
    const known = bytesOf([opening.subarray(0, first.end), ...latest.filter(it => it).map(it => it.bytes)]);
    const { file: part } = kept ? { file } : await fitrec.salvage(openedWith(known, data.subarray(start, end)), true);
    const stated = kept ? statedIn(file, at, at += end - start, latest) : statedIn(part, HEADER + known.length, part.length - CHECKSUM, [...latest]);
    if (stated) return stated - time - (stated - time) % SHORT;
  }
  return 0;
}

// The definitions of a file without faults, beginning with the one that most messages have. What a file is stands only at its beginning.
function layoutsIn(file) {
  const latest = [], found = new Map();
  for (const { local } of messagesIn(file, HEADER, file.length - CHECKSUM, latest)) {
    const { number, bytes } = latest[local], key = bytes.subarray(1).join(), count = found.has(key) ? found.get(key).count : 0;
    if (number) found.set(key, { bytes, count: count + 1 });
  }
  return [...found.values()].sort((a, b) => b.count - a.count).map(it => it.bytes);
}

// Of a file without faults its first message and the definitions that are in force at its end.
function definitionsIn(file) {
  const latest = [], [first] = [...messagesIn(file, HEADER, file.length - CHECKSUM, latest)];
  return bytesOf([file.subarray(HEADER, first.end), ...latest.filter(it => it).map(it => it.bytes)]);
}

const bytesOf = parts => Uint8Array.from(parts.flatMap(it => [...it]));

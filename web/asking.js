// What the workers are asked, and the answer to a ride.

import { bytesOf, keptOf } from './picking.js';
import { shortRide } from './rehearsal.js';
import { isLittle } from './telling.js';
import { progress } from './waiting.js';

const source = URL.createObjectURL(new Blob([window.fitrec.worker], { type: 'text/javascript' }));
export const [saver, painter] = [new Worker(source), new Worker(source)];
const asked = new Map();
for (const worker of [saver, painter]) worker.onmessage = ({ data: { number, step, answer, failed } }) => {
  if (step) return progress(step);
  asked.get(number)(answer || { failed });
  asked.delete(number);
};

// The module of the library is compiled once, for both.
window.fitrec.module.then(it => WebAssembly.compile(it)).then(module => [saver, painter].forEach(it => it.postMessage({ module })));

let count = 0;
/** @param {Worker} worker @param {object} about @param {Transferable[]} [lent] @returns {Promise<any>} */
export function question(worker, about, lent = []) {
  return new Promise(done => {
    asked.set(++count, done);
    worker.postMessage({ number: count, ...about }, lent);
  });
}

// What is drawn of files. In WebKit a worker of a page that lies on a disk cannot read them: then the page does.
/** @param {Blob[]} files @param {object} [about] @returns {Promise<any>} */
export async function drawn(files, about = {}) {
  const answer = await question(painter, { files, ...about });
  if (answer.failed !== 'unread') return answer;
  const contents = await Promise.all(files.map(it => it.arrayBuffer()));
  return question(painter, { files: contents, ...about }, contents);
}

/** @param {Said} reason @returns {Answer} */
export function failure(reason) {
  return { heading: 'nothing', reasons: [reason], details: [], next: [], offers: [] };
}

// The answer to a ride, or to one of its offers, with its times moved. What may be whole is drawn while it is judged: a file, or what a
// recording has.
/** @param {Files} ride @param {string[]} how @param {number} [seconds] @returns {Promise<Answer>} */
export async function ask(ride, how, seconds = 0) {
  const { data, journal } = ride, isNew = data && !how.length && !seconds;
  if (ride.isArchive) return failure(['noArchive', { name: ride.name }]);
  progress(0);
  let given, ahead;
  try {
    const files = [data, journal].filter(it => it);
    ahead = isNew && drawn((await Promise.all(files.map(keptOf))).map(it => it.blob));
    given = await bytesOf(ride);
  } catch (error) {
    return failure([error instanceof RangeError ? 'tooLarge' : 'unread']);
  }
  progress(1);
  const lent = [given.data, given.journal, ...(given.parts || [])].filter(it => it && it.length).map(it => it.buffer);
  const answer = await question(saver, { ride: { ...given, seconds }, how }, lent);
  if (answer.failed) return failure([answer.failed]);
  // The layout of our own recordings is known.
  if (answer.isUnknown && answer.isByUs && !ride.like) {
    const own = await ask({ ...ride, like: new Blob([shortRide()[0]]), likeName: '' }, how, seconds);
    if (own.ride && own.ride.time.length && !own.isUnknown) return own;
  }
  const { shown = answer.file, ...said } = answer;
  if (!shown) return said;
  const { gaps, isOurs, ownLaps, isSaved, summary } = said, records = summary && summary.records, isSame = answer.shown && !journal;
  const before = ahead && (isSaved ? closed(await ahead, summary) : isSame && await ahead);
  const seen = before || await drawn([shown], { records, gaps, isOurs, ownLaps });
  if (seen.failed) return failure([seen.failed]);
  if (said.file && said.heading !== 'otherKind' && !seen.added.records && !seen.laps.count && !seen.sums.sessions) return ofNoSample(said, ride);
  const mayBe = { ahead: seen.silent.some(([, , , by]) => by), places: seen.track && seen.track.stray.count };
  const more = said.heading === 'otherKind' ? [] : Object.keys(mayBe).filter(it => mayBe[it]);
  return { ...said, heading: headingOf(said, seen), ride: seen, offers: [...more, ...said.offers] };
}

// Where not a single sample is there: none was recorded, or none can be read.
/** @param {Answer} said @param {Files} ride @returns {Answer} */
function ofNoSample({ gaps, details, isCut, isUnknown, next: asked }, { journal, name }) {
  if (!isCut && !(gaps && gaps.length)) return { ...failure(['emptyWhy']), heading: 'empty', details };
  const isShort = gaps.every(it => it.isLast) && details.some(([key]) => key === 'faultTruncated');
  /** @type {Said[]} */
  const next = isUnknown ? asked : [[journal ? 'copyNext' : isShort ? 'emptyAloneNext' : 'notFitNext']];
  return { ...failure([isShort ? 'cutAtOnce' : 'noMessage', { name }]), next, details, isUnknown };
}

// A ride of which a few seconds are missing is there, and one without samples is not.
function headingOf({ heading, reasons }, { missing, added }) {
  if (!added.records && ['rescued', 'mostly', 'partly'].includes(heading)) return 'totals';
  const isCut = reasons.some(([key]) => /^(cut|olderAfter|laterAfter)/.test(key)), isThere = missing.length && missing.every(isLittle);
  return heading === 'mostly' && isThere && !isCut ? 'rescued' : heading;
}

// What was drawn ahead of a recording, with its last lap by the summary of the saved ride; null if that has other samples or laps.
function closed(ahead, summary) {
  const { laps } = ahead;
  if (ahead.failed || ahead.time.length !== summary.records || laps.count !== summary.laps) return null;
  if (!laps.isOpen) return ahead;
  const last = laps.count - 1, rest = key => summary[key] - laps[key].subarray(0, last).reduce((sum, n) => sum + (n || 0), 0);
  laps.timer[last] = rest('timer');
  laps.distance[last] = summary.distance === null ? NaN : rest('distance');
  if (!last) laps.start[0] = summary.start;
  return { ...ahead, laps: { ...laps, isOpen: false } };
}

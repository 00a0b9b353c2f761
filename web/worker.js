// What the workers do, so that the page never stands still: one finds, judges and saves, while the other reads and draws. Both are of this
// source.

import { curveOf, trackOf } from './drawing.js';
import { open } from './fitrec.mjs';
import { beginningsIn, frontOf } from './fronts.js';
import { rideOf, tablesOf } from './ride.js';
import { answerTo, piecesOf, togetherOf } from './saving.js';

let ready;
const opened = new Promise(done => { ready = done; });

onmessage = async ({ data: { module, number, card, at, goesOn, most, front, cuts, copies, ride, how, files, records, gaps = [], isOurs, ownLaps } }) => {
  if (module) return ready(open(module));
  const report = step => postMessage({ number, step });
  try {
    const fitrec = await opened;
    if (card) {
      const bytes = new Uint8Array(card), found = await fitrec.find(bytes, goesOn, most);
      return postMessage({ number, answer: { ...found, begun: beginningsIn(bytes, at) } });
    }
    if (front) return postMessage({ number, answer: await frontOf(fitrec, new Uint8Array(front)) });
    if (cuts) return postMessage({ number, answer: await piecesOf(fitrec, cuts) });
    if (copies) return postMessage({ number, answer: { made: await togetherOf(fitrec, copies) } });
    if (ride) {
      const answer = await answerTo(fitrec, ride, how), { parts = [] } = answer;
      for (const it of ['file', 'shown']) if (answer[it]) answer[it] = new Blob([answer[it]], { type: 'application/octet-stream' });
      return postMessage({ number, answer }, { transfer: parts.map(it => it.buffer) });
    }
    const tables = await tablesOf(fitrec, files, records);
    report(2);
    const answer = drawn(tables, { gaps, isOurs, ownLaps }, () => report(3));
    const lent = [answer.time, answer.lat, answer.long, answer.distance, ...answer.series.map(it => it.values)];
    postMessage({ number, answer }, { transfer: lent.map(it => it.buffer) });
  } catch (error) {
    const isUnread = error.name === 'NotReadableError';
    postMessage({ number, failed: error instanceof RangeError ? 'tooLarge' : isUnread ? 'unread' : 'unexpected' });
  }
};

// What the page shows of a ride.
function drawn(tables, about, report) {
  const { breaks, ...ride } = rideOf(tables, about), track = trackOf({ ...ride, breaks });
  report();
  const series = ride.series.map(({ parts, breaks: own, ...it }) => {
    return { ...it, curve: ride.time.length > 1 ? curveOf(ride.time, { ...it, parts, breaks: own }) : null };
  });
  return { ...ride, track, series };
}

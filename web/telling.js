// What is said of a ride: what it is called, what is missing, and its numbers.

import { isDated, isReset } from './dates.js';
import { distanceText, durationText, numberText, startText, text, valueText } from './formats.js';
import { LITTLE, minutesIn, MULTISPORT, TRIATHLON } from './ride.js';

// What an activity is called, by its sport; and the texts that say whose it is.
const SPORTS = { 1: 'run', 2: 'ride', 5: 'swim', 21: 'ride', [MULTISPORT]: 'multisport', [TRIATHLON]: 'triathlon' };
const OF = { ride: 'ofRide', run: 'ofRun', swim: 'ofSwim', activity: 'ofActivity', multisport: 'ofMultisport', triathlon: 'ofTriathlon' };
/** @type {(ride?: Drawn) => string} */
export const wordsOf = ride => ride && SPORTS[ride.sport] || 'activity';

/** @type {(heading: string, words: string) => string} */
export const headingText = (heading, words) => text(heading, { yours: text(words), ofYours: text(OF[words]) });

// What the ride adds up to: by its sessions, else by its summary, and else by its samples; and what the others say.
/** @param {Answer} answer @returns {Facts} */
export function factsIn({ summary, ride, isOurs }) {
  const stated = Object.fromEntries(Object.entries(summary || {}).filter(([, n]) => n !== null));
  if (!ride) return { of: stated, added: {}, sums: {}, laps: 0 };
  const { added, sums, ascent, laps, missing } = ride, isPaused = isOurs && missing.some(it => it && it.isPaused);
  return { of: { ...added, ...stated, ...sums }, added, sums, ascent, laps: laps.count, isPaused, isOurs };
}

// In km/h, of centimetres and milliseconds of the timer; null if one is missing.
/** @type {(way: { distance?: number, timer?: number }) => number | null} */
export const speedOf = ({ distance, timer }) => timer > 0 && distance >= 0 && distance !== null ? distance / timer * 36 : null;

// The numbers of a ride as they are shown, and what else says another one: that is at least a hundredth away. In several sessions distances
// may begin anew.
/** @param {Facts} facts @returns {Record<string, Shown>} */
export function numbersOf({ of, added, sums, ascent, laps, isPaused, isOurs }) {
  /** @type {Record<string, Shown>} */
  const numbers = {};
  const isThere = n => n !== null && n !== undefined && n === n, isOne = !(of.sessions > 1 || isOurs);
  const add = (key, n, shown, other, source) => {
    if (!isThere(n)) return;
    const differs = isOne && isThere(other) && Math.abs(other - n) > Math.max(n, other) / 100 && shown(other) !== shown(n);
    numbers[key] = { shown: shown(n), other: differs ? text(source, { n: shown(other) }) : '' };
  };
  add('start', of.start, startText);
  add('duration', of.elapsed, durationText, added.elapsed, 'bySamples');
  // A pause that nobody counted may be in what is missing.
  add('moving', of.timer, n => isPaused ? text('atMost', { n: durationText(n) }) : durationText(n), added.timer, 'bySamples');
  add('distance', of.distance, distanceText, added.distance, 'bySamples');
  if (of.distance && !isPaused) add('speedAverage', speedOf(of), n => valueText('speed', n));
  add('ascent', ascent ?? sums.ascent, n => valueText('height', n), sums.ascent, 'byDevice');
  add('samples', of.records, n => numberText(n));
  if (of.sessions > 1) add('sessions', of.sessions, n => numberText(n));
  if (laps) add('laps', laps, n => numberText(n));
  return numbers;
}

// A device that lost its power goes on after so many seconds, and where nothing shows that it did, after so many.
const CHARGED = 14400, AT_ONCE = 1800;

// Which rides look like parts of one activity: one after another, of the same sport, as far as they state one. The distance of each begins
// anew.
/** @param {Files[]} rides @returns {Files[][]} */
export function partsAmong(rides) {
  const timed = rides.filter(({ facts, file, heading }) => facts.added.records && isDated(facts.added.start) && (file || heading === 'whole'));
  timed.sort((a, b) => a.facts.added.start - b.facts.added.start);
  /** @type {Files[][]} */
  const rows = [];
  for (const ride of timed) {
    const row = rows[rows.length - 1];
    if (row && goesOn(row[row.length - 1], ride)) row.push(ride);
    else rows.push([ride]);
  }
  return rows.filter(it => it.length > 1);
}

// Rides that are one, each with the one that has as much of it or more: of one file_id, and at one time for most of the shorter one. What was
// found in another file is shown as it is there. It may have as many milliseconds that the other one lacks.
/** @param {Files[]} rides @returns {[Files, Files, number][]} */
export function copiesAmong(rides) {
  /** @type {[Files, Files, number][]} */
  const found = [];
  const own = [], of = it => it.facts.added, end = it => of(it).start + of(it).elapsed / 1000;
  const isWhole = it => it.heading === 'whole' ? 1 : 0, shorter = (a, b) => Math.min(of(a).elapsed, of(b).elapsed) / 1000;
  const together = (a, b) => Math.min(end(a), end(b)) - Math.max(of(a).start, of(b).start);
  const known = rides.filter(it => it.id && !it.isPart && of(it).records && !isReset(of(it).start));
  for (const ride of known.sort((a, b) => of(b).records - of(a).records || isWhole(b) - isWhole(a))) {
    const better = own.find(it => it.id === ride.id && it.words === ride.words && together(it, ride) >= shorter(it, ride) / 2);
    if (better) found.push([ride, better, lackOf(better, ride)]);
    else own.push(ride);
  }
  return found;
}

/** @type {(better: Files, ride: Files) => number} */
function lackOf({ times: there = [] }, { times = [] }) {
  const known = new Set(there), all = [...there.length ? times : []];
  const ms = all.reduce((sum, t, i) => known.has(t) || !i ? sum : sum + 1000 * Math.min(t - all[i - 1], LITTLE), 0);
  return ms > 1000 * LITTLE ? ms : 0;
}

/** @type {(before: Files, ride: Files) => boolean} */
function goesOn({ facts: { added }, words, heading }, ride) {
  if (ride.from > 0 && ride.from >= added.distance) return false;
  const pause = ride.facts.added.start - Math.floor(added.start + added.elapsed / 1000);
  const isSame = [words, 'activity'].includes(ride.words) || words === 'activity';
  return isSame && pause >= 0 && pause <= (heading === 'whole' ? AT_ONCE : CHARGED);
}

// No activity stands still for a day, in milliseconds.
const DAY = 86400000;

// What a person wants to know first.
const FIRST = ['notMoved', 'otherKindWhy', 'restWhy', 'olderAfter', 'laterAfter', 'elsewhereAfter', 'timesBack', 'otherAfter', 'missingParts', 'timesEarly',
  'uncounted', 'littleMissing', 'littleInMore', 'onlyTotals', 'lostKinds', 'lostLap', 'lostLaps', 'allThere', 'cutPair', 'readWhy'];

// What is said of an answer, with the times of its ride: a list of texts, each a key and its values.
/** @param {Said[]} reasons @param {Drawn} [ride] @returns {Said[]} */
export function told(reasons, ride) {
  const time = ride && ride.time[ride.time.length - 1], isKnown = ride && !ride.isUntimed && isDated(time);
  // Of several days each time has its own.
  const at = ride && ride.added.elapsed > DAY ? t => ({ day: t }) : t => ({ time: t }), end = at(time);
  const hasTotals = ride && !ride.time.length && (ride.sums.sessions || ride.laps.count);
  // A single session of a whole file may state its times by another way.
  const isFine = ride && ride.sums.sessions === 1 && reasons.some(([key]) => key === 'wholeWhy');
  const uncounted = ride && !isFine ? ride.uncounted : [], isPartial = uncounted.length > 0;
  const said = reasons.flatMap(([key, values = {}]) => {
    if ('end' in values) {
      const isTold = values.end && isKnown;
      return [[isTold || key !== 'cutPair' ? key : 'pairWhy', { ...values, end, goes: isTold ? [['goesTo', { end }]] : '' }]];
    }
    if (values.gaps) return ride && ride.missing.length && !hasTotals ? missingOf(ride.missing, at) : [];
    return hasTotals && ['noTotals', 'allThere'].includes(key) || isPartial && key === 'endingAdded' ? [] : [[key, values]];
  });
  if (hasTotals && !reasons.some(([key]) => key === 'otherKindWhy')) said.push(['onlyTotals']);
  const { laps, kinds } = ride ? ride.lost : { laps: 0, kinds: [] };
  if (kinds.length) said.push(['lostKinds', { kinds: kinds.map(it => [it]) }]);
  if (ride && ride.back !== null) said.push(['timesBack', { time: { time: ride.back } }]);
  for (const it of uncounted) said.push(['uncounted', it]);
  // None of the device's laps is left.
  const alone = said.findIndex(([key, { what = [] } = {}]) => key === 'completed' && what.some(([own]) => own === 'lackedAlone'));
  if (laps && alone >= 0) said[alone] = ['lapsLost'];
  else if (laps) said.push(laps === 1 ? ['lostLap'] : ['lostLaps', { count: laps }]);
  if (ride && ride.laps.isLong) said.push(['lapCounts']);
  const silent = ride ? ride.silent : [], still = silent.filter(([, , , by]) => !by);
  if (still.length) said.push(['noSamples', { gaps: silenceOf(still) }]);
  for (const [time, , , by] of silent) if (by) said.push(['clockAhead', { time: { time }, length: { ms: 1000 * by } }]);
  const { count, cm } = ride && ride.track ? ride.track.stray : { count: 0, cm: 0 };
  if (count) said.push([count === 1 ? 'strayPlace' : 'strayPlaces', { count, far: distanceText(cm) }]);
  const rank = ([key]) => (FIRST.indexOf(key) + 1 || FIRST.length + 1);
  return said.sort((a, b) => rank(a) - rank(b));
}

// So many of the places without samples are named, the longest ones.
const NAMED = 3;

function silenceOf(silent) {
  const longest = [...silent].sort(([, , a], [, , b]) => b - a).slice(0, NAMED), more = silent.length - NAMED;
  const gaps = silent.filter(it => longest.includes(it)).map(([from, to, seconds]) => {
    const ms = 1000 * seconds, at = t => ms > DAY ? { day: t } : { time: t };
    return ['gap', { from: at(from), to: at(to), length: { ms } }];
  });
  return more > 0 ? [...gaps, more === 1 ? ['leftOutOne'] : ['leftOutMore', { count: more }]] : gaps;
}

function missingOf(all, at) {
  const other = all.find(it => it && it.ms > DAY), missing = all.filter(it => it !== other);
  if (other) return [['otherAfter', { from: { day: other.to } }], ...(missing.length ? missingOf(missing, at) : [])];
  if (missing.every(isLittle)) return [missing.length === 1 ? ['littleMissing'] : ['littleInMore', { count: missing.length }]];
  const named = missing.filter(it => !isLittle(it)), more = missing.length - named.length;
  const gaps = named.map(({ from, to, isAbout, isPaused, paused, unread, about, ...length }) => {
    if (from === null) return isDated(to) ? ['gapBefore', { to: at(to) }] : about < Infinity ? ['gapBeginAbout', { length: { ms: minutesIn(about) } }] : ['gapBegin'];
    if (isPaused) return ['gapPaused', { from: at(from), to: at(to) }];
    if (isAbout) return ['gapAbout', { from: at(from), length }];
    if (to === null) return [unread ? 'gapUnread' : 'gapAfter', { from: at(from), part: Math.ceil(100 * unread) }];
    if (paused) return ['gapPause', { from: at(from), to: at(to), length: { ...length, ms: length.ms + paused }, pause: { ms: paused } }];
    return ['gap', { from: at(from), to: at(to), length }];
  });
  if (more) gaps.push(more === 1 ? ['gapsOne'] : ['gapsMore', { count: more }]);
  return [['missingParts', { gaps }], ...(named.some(it => it.isAbout) ? [['timesEarly']] : [])];
}

// Those whose times were not looked up are smaller than the others.
/** @type {(missing: Missing | null) => boolean} */
export const isLittle = it => !it || it.ms !== null && it.ms <= 1000 * LITTLE;

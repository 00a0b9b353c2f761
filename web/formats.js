// Numbers and times in the language and the units that are chosen.

import { dateOf, EPOCH, isDated, isReset, timeIn } from './dates.js';
import { TEXTS } from './texts.js';

export const LANGUAGES = { en: 'English', de: 'Deutsch', fr: 'Français', es: 'Español', it: 'Italiano' };
// What `speak` sets: the language, its region, and what formats in it, which takes long to make.
export let LANGUAGE, LOCALE, NUMBERS, LISTS, CLOCK, MINUTE, SECOND, MOMENT, START, LENGTHS;

// Takes a language, or the first one of the browser that the page has; numbers and dates follow the browser's region of it. English has
// dates with the day first.
/** @param {string | null} own */
export function speak(own) {
  const isOurs = it => own ? it.split('-')[0] === own : it.split('-')[0] in LANGUAGES;
  LOCALE = navigator.languages.find(isOurs) || { en: 'en-GB' }[own || 'en'] || own;
  LANGUAGE = LOCALE.split('-')[0];
  NUMBERS = [0, 1, 2].map(it => new Intl.NumberFormat(LOCALE, { minimumFractionDigits: it, maximumFractionDigits: it }));
  LISTS = new Intl.ListFormat(LOCALE);
  LENGTHS = ['hour', 'minute', 'second'].map(unit => new Intl.NumberFormat(LOCALE, { style: 'unit', unit, unitDisplay: 'short' }));
  const by = how => new Intl.DateTimeFormat(LOCALE, how);
  CLOCK = { hour: by({ hour: 'numeric' }).resolvedOptions().hour12 ? 'numeric' : '2-digit', minute: '2-digit' };
  [MINUTE, SECOND] = [by(CLOCK), by({ ...CLOCK, second: '2-digit' })];
  // With the zone, which is the browser's.
  MOMENT = by({ ...CLOCK, second: '2-digit', timeZoneName: 'short' });
  START = by({ ...CLOCK, day: 'numeric', month: 'long', year: 'numeric', timeZoneName: 'short' });
}

// The text with what is filled in: numbers, words, a time without or with its day, how long something is, or a list of texts, each a key and its values.
/** @param {string} key @param {Record<string, any>} [values] @returns {string} */
export function text(key, values = {}) {
  return TEXTS[LANGUAGE][key].replace(/\{(\w+)\}/g, (_, name) => filledIn(values[name]));
}

function filledIn(value) {
  if (typeof value === 'number') return numberText(value);
  if (Array.isArray(value)) {
    const parts = value.map(([key, values]) => text(key, values));
    return parts.some(part => part.includes(', ')) ? parts.join('; ') : LISTS.format(parts);
  }
  if (value && value.time !== undefined) return shownTime(value.time, SECOND);
  if (value && value.day !== undefined) return startText(value.day);
  if (value && value.ms !== undefined) return lengthText(value);
  return value;
}

/** @type {(n: number, decimals?: number) => string} */
export const numberText = (n, decimals = 0) => NUMBERS[decimals].format(n);

const two = n => String(n).padStart(2, '0');

/** @param {number} ms */
export function durationText(ms) {
  const seconds = Math.round(ms / 1000);
  return `${Math.floor(seconds / 3600)}:${two(Math.floor(seconds / 60) % 60)}:${two(seconds % 60)}`;
}

// How long something is, in the two greatest of hours, minutes and seconds, and how far, if that is known, in centimetres.
function lengthText({ ms, cm }) {
  const seconds = Math.round(ms / 1000), parts = [Math.floor(seconds / 3600), Math.floor(seconds / 60) % 60, seconds % 60];
  const first = parts.findIndex(n => n), own = parts.map((n, k) => n ? LENGTHS[k].format(n) : '').slice(Math.max(0, first), first + 2);
  const length = first < 0 ? LENGTHS[2].format(0) : own.filter(it => it).join(' ');
  return cm > 0 ? `${length} (${distanceText(cm)})` : length;
}

const shownTime = (t, times) => isDated(t) ? times.format(dateOf(t)) : durationText(1000 * t);
/** @type {(t: number) => string} */
export const startText = t => shownTime(t, START), momentText = t => shownTime(t, MOMENT);

/** @param {number} t */
export function zoneText(t) {
  return isDated(t) ? MOMENT.formatToParts(dateOf(t)).find(it => it.type === 'timeZoneName').value : '';
}

/** @param {number} t */
export function dayText(t) {
  const date = dateOf(t);
  return `${date.getFullYear()}-${two(date.getMonth() + 1)}-${two(date.getDate())}`;
}

// With its day, whatever it counts from.
/** @type {(t: number) => string} */
export const dateText = t => START.format(dateOf(t));

// The end of today, up to which a ride may begin, as a field for a time takes it.
export const latest = () => fieldText(Math.floor(new Date().setHours(23, 59, 59) / 1000) - EPOCH);

/** @type {(t: number) => string} */
export const fieldText = t => `${dayText(t)}T${[dateOf(t).getHours(), dateOf(t).getMinutes(), dateOf(t).getSeconds()].map(two).join(':')}`;

// Whether a clock that says this is wrong.
/** @type {(t: number) => boolean} */
export const isOff = t => !(t <= timeIn(latest())) || isReset(t);

// A mark of the axis: the hour and minute, and seconds where the steps need them.
/** @param {number} t @param {number} begin @param {number} step */
export function clockText(t, begin, step) {
  return isDated(t) ? shownTime(t, step < 60 ? SECOND : MINUTE) : durationText(1000 * (t - begin));
}

// ---- units

// In kilometres or miles, with speeds or with paces.
export const SYSTEMS = { kmh: 'km · km/h', perKm: 'km · min/km', mph: 'mi · mph', perMile: 'mi · min/mi' };
export let SYSTEM = 'kmh';

/** @param {string} system */
export function measureIn(system) { SYSTEM = system; }

/** @type {() => boolean} */
export const inMiles = () => SYSTEM === 'mph' || SYSTEM === 'perMile', isPace = () => SYSTEM === 'perKm' || SYSTEM === 'perMile';

// In kilometres, metres or degrees.
export const MILE = 1.609344, FOOT = 0.3048;

// The unit of a series: its text, its number of decimals, and by what it is made of km/h, metres and degrees Celsius.
/** @param {string} name */
export function unitOf(name) {
  const metric = { height: 'metres', warmth: 'degrees', heart: 'bpm', power: 'watts', cadence: 'rpm' }[name];
  const by = (unit, decimals, factor = 1, offset = 0) => {
    return { unit, decimals, to: n => n * factor + offset, from: n => (n - offset) / factor };
  };
  if (name === 'speed') return by(SYSTEM, 1, inMiles() ? 1 / MILE : 1);
  if (name === 'height' && inMiles()) return by('feet', 0, 1 / FOOT);
  return name === 'warmth' && inMiles() && LOCALE === 'en-US' ? by('fahrenheit', 0, 1.8, 32) : by(metric, 0);
}

// The name of a series or a number: a speed that is shown as a pace has another.
const PACES = { speed: 'pace', speedAverage: 'paceAverage' };
/** @type {(name: string) => string} */
export const nameText = name => text(isPace() && PACES[name] || name);

// The value of a series without and with its unit. A pace has minutes and seconds, and none where nobody moves.
/** @param {string} name @param {number} n @param {number} [decimals] */
export function bareText(name, n, decimals) {
  const { decimals: usual, to } = unitOf(name);
  if (name !== 'speed' || !isPace()) return numberText(to(n), decimals ?? usual);
  const seconds = Math.round(3600 / to(n));
  return seconds < 6000 ? `${Math.floor(seconds / 60)}:${two(seconds % 60)}` : '–';
}

/** @type {(name: string, n: number) => string} */
export const valueText = (name, n) => text(unitOf(name).unit, { n: bareText(name, n) });
/** @type {(cm: number) => string} */
export const distanceText = cm => text(inMiles() ? 'miles' : 'km', { n: numberText(cm / 100000 / (inMiles() ? MILE : 1), 2) });

// The curves of a ride over one axis of time, and what is read from them at a time.

import { dateOf, isDated } from './dates.js';
import { make, path, placed, svg } from './dom.js';
import { bareText, clockText, distanceText, isPace, momentText, nameText, numberText, text, unitOf, valueText,
  zoneText } from './formats.js';
import { niceStep } from './grid.js';
import { followTrack, noteOf, pointAt } from './track.js';

// The marks of the axis of time: their places in hundredths and their texts, at whole minutes or hours of the clock, or at round numbers of
// samples.
function timeMarks({ time, isUntimed }, wanted) {
  const begin = time[0], end = time[time.length - 1];
  if (isUntimed) {
    const step = Math.max(1, niceStep(begin, end, wanted)), count = Math.floor((end + 1) / step);
    return Array.from({ length: count }, (_, k) => ({ at: ((k + 1) * step - 1) / (end || 1) * 100, text: numberText((k + 1) * step) }));
  }
  const seconds = end - begin || 1, steps = [1, 2, 5, 10, 15, 30, 60, 120, 300, 600, 900, 1800, 3600, 7200, 10800, 21600, 43200];
  const step = steps.find(it => seconds / it <= wanted) || 86400 * Math.ceil(seconds / 86400 / wanted);
  const shift = isDated(begin) ? -60 * dateOf(begin).getTimezoneOffset() : -begin, marks = [];
  for (let t = Math.ceil((begin + shift) / step) * step - shift; t <= end; t += step) {
    marks.push({ at: (t - begin) / seconds * 100, text: clockText(t, begin, step) });
  }
  return marks;
}

// A picture for each series.
/** @param {Drawn} ride @returns {HTMLElement[]} */
export function chartsOf(ride) {
  const marks = timeMarks(ride, matchMedia('(max-width: 40rem)').matches ? 5 : 9);
  return ride.series.filter(it => it.curve).map(it => chartOf(it, marks, ride));
}

// The lines of a grid in the unit that is shown, each with its height in hundredths and its text. Paces stand at round speeds.
function linesIn(name, { low, high, lines }) {
  const { to, from } = unitOf(name), step = niceStep(to(low), to(high), 5), first = Math.ceil(to(low) / step - 1e-9);
  const own = Array.from({ length: Math.floor(to(high) / step + 1e-9) - first + 1 }, (_, k) => from((first + k) * step));
  const shown = to(low) === low && to(high) === high ? lines : own;
  const decimals = shown.some(n => Math.abs(to(n) - Math.round(to(n))) > 1e-6) ? 1 : 0;
  return shown.map(n => ({ at: (high - n) / (high - low) * 100, text: bareText(name, n, decimals) }));
}

// The line under a series: what it is at least, on average and at most; and what the file's own summary says of that, if it differs.
/** @param {Partial<Series>} series */
export function factsOf({ name, low, average, high, inMotion, mean }) {
  const [own, moving, byDevice] = [average, inMotion, mean].map(n => n > 0 || n < 0 ? valueText(name, n) : null);
  const differs = mean && Math.abs(mean - average) > Math.abs(average) / 100 && byDevice !== own && byDevice !== moving;
  const facts = name === 'speed' && isPace() ? 'paceFacts' : 'facts';
  const said = [text(facts, { low: bareText(name, low), average: bareText(name, average), high: valueText(name, high) })];
  if (moving && moving !== own) said.push(text('inMotion', { n: moving }));
  if (differs) said.push(text('byDevice', { n: byDevice }));
  return said.join(' · ');
}

/** @param {Series} series @param {{ at: number, text: string }[]} marks @param {Drawn} ride */
function chartOf({ name, low, high, average, faults, curve, inMotion, mean }, marks, ride) {
  const shown = [low, average, high].map(n => valueText(name, n)), lines = linesIn(name, curve), last = ride.time.length - 1;
  const across = marks.map(it => `M${it.at * 12} 0V100`).join(''), down = lines.map(it => `M0 ${it.at}H1200`).join('');
  const label = text('curveLabel', { name: nameText(name), low: shown[0], average: shown[1], high: shown[2],
    from: atText(ride, 0), to: atText(ride, last) });
  const drawn = svg({ viewBox: '0 0 1200 100', preserveAspectRatio: 'none', role: 'img', 'aria-label': label },
    path('grid', across + down), path('bars ' + name, curve.bars), path('curve ' + name, curve.line));
  Object.assign(drawn.dataset, { low: curve.low, high: curve.high });
  const heights = lines.map(it => placed(make('span', { className: 'height' }, it.text), null, it.at));
  const times = marks.filter(it => it.at >= 2 && it.at <= 97).map(it => placed(make('span', { className: 'time' }, it.text), it.at, null));
  const plot = make('div', { className: 'plot' }, drawn, make('div', { className: 'cursor', hidden: true }));
  const facts = factsOf({ name, low, average, high, inMotion, mean });
  return make('figure', { className: 'chart' },
    make('figcaption', {}, make('strong', { className: name }, nameText(name)), make('span', {}, ...inParts(facts))),
    make('div', { className: 'axes' }, make('div', { className: 'heights', 'aria-hidden': true }, ...heights), plot,
      make('div', { className: 'zone', 'aria-hidden': true }, ride.isUntimed ? '' : zoneText(ride.time[0])),
      make('div', { className: 'times', 'aria-hidden': true }, ...times)),
    noteOf(faults));
}

// The time of a sample, or its number where none has a time.
const atText = ({ time, isUntimed }, i) => isUntimed ? text('sampleAt', { n: i + 1 }) : momentText(time[i]);

// A line of parts, which is broken between them alone.
const inParts = line => line.split(' · ').flatMap((it, k) => [k ? ' · ' : '', make('span', {}, it)]);

// The reading of all series at one time: by the pointer, a finger, or the keys of a slider.
/** @param {Drawn} ride @param {HTMLElement} pictures */
export function readerOf(ride, pictures) {
  const { time, series, distance } = ride, begin = time[0], seconds = time[time.length - 1] - begin;
  if (!(seconds > 0)) return null;
  const values = make('p', { className: 'values' }), cursors = [...pictures.querySelectorAll('.cursor')];
  const slider = make('input', { type: 'range', min: 0, max: seconds, step: 1, value: 0, id: 'moment', 'aria-label': text('moment') });
  values.append(make('span', {}, text(matchMedia('(pointer: coarse)').matches ? 'readTap' : 'readPoint')));
  let at = 0;
  const show = i => {
    const parts = [['', atText(ride, i)]];
    at = i;
    if (distance[i] >= 0) parts.push(['', distanceText(distance[i])]);
    for (const { name, values: own } of series) {
      const k = lastWith(own, time, i);
      if (k >= 0) parts.push([nameText(name) + ' ', valueText(name, own[k])]);
    }
    // A narrow window has room for the values alone: their units tell them apart.
    values.replaceChildren(...parts.map(([name, value]) => make('span', {}, make('span', { className: 'name' }, name), value)));
    slider.value = time[i] - begin;
    slider.setAttribute('aria-valuetext', parts.map(it => it.join('')).join(', '));
    for (const it of cursors) placed(it, (time[i] - begin) / seconds * 100, null).hidden = false;
    pointAt(ride, pictures, i);
  };
  // A key goes to the next sample, over a pause too.
  slider.addEventListener('input', () => {
    const t = begin + Number(slider.value), i = nearest(time, t), step = t - time[at];
    show(i === at && Math.abs(step) <= 1 ? Math.min(time.length - 1, Math.max(0, at + Math.sign(step))) : i);
  });
  slider.setAttribute('aria-valuetext', atText(ride, 0));
  for (const plot of pictures.querySelectorAll('.plot')) {
    const follow = event => {
      const { left, width } = plot.getBoundingClientRect();
      show(nearest(time, begin + Math.min(1, Math.max(0, (event.clientX - left) / width)) * seconds));
    };
    plot.addEventListener('pointermove', follow);
    plot.addEventListener('pointerdown', follow);
  }
  followTrack(ride, pictures, show);
  return make('div', { id: 'reader' }, slider, values);
}

// The sample whose time is nearest.
function nearest(time, t) {
  let low = 0, high = time.length - 1;
  while (low < high) {
    const middle = (low + high) >> 1;
    if (time[middle] < t) low = middle + 1; else high = middle;
  }
  return low > 0 && t - time[low - 1] < time[low] - t ? low - 1 : low;
}

// The sample that has the value at one, at most ten seconds before; -1 if there is none.
function lastWith(values, time, i) {
  for (let k = i; k >= 0 && time[i] - time[k] <= 10; k--) if (values[k] === values[k]) return k;
  return -1;
}

// The track of a ride: coloured by a series, with its start, its finish, a scale, and the place that is pointed at.

import { make, path, placed, svg } from './dom.js';
import { FOOT, inMiles, nameText, numberText, text, valueText } from './formats.js';

/** @param {Track} track */
export function trackPicture(track) {
  const { width, height, count, paths, metres } = track, at = (/** @type {number[]} */ [x, y], element) => placed(element, x / width * 100, y / height * 100);
  const label = text('trackLabel', { n: count });
  const drawn = svg({ viewBox: `0 0 ${width} ${height.toFixed(1)}`, role: 'img', 'aria-label': label });
  const map = make('div', { className: 'map' }, drawn,
    at(track.finishAt, make('span', { className: 'mark finish' + beside(track, 1), title: text('finish') })),
    at(track.startAt, make('span', { className: 'mark begin' + beside(track, -1), title: text('start') })),
    make('span', { className: 'mark here', hidden: true }));
  const legend = make('div', { className: 'legend' });
  const colour = name => {
    const { paths: own, from, to } = paths.find(it => it.name === name);
    drawn.replaceChildren(path('casing', own.join('')), ...own.map((d, k) => path(name === 'plain' ? 'plain' : 'class' + k, d)));
    const classes = own.map((_, k) => make('span', { className: 'class' + k }));
    const ramp = make('span', { className: 'ramp', 'aria-hidden': true }, ...classes);
    legend.replaceChildren(...(name === 'plain' ? [] : [valueText(name, from), ramp, valueText(name, to)]));
  };
  const choice = make('select', { id: 'colour' }, ...[...paths].reverse().map(it => make('option', { value: it.name }, nameText(it.name))));
  choice.addEventListener('change', () => colour(choice.value));
  choice.value = paths.length > 1 ? paths[1].name : 'plain';
  colour(choice.value);
  const keys = make('div', { className: 'keys' }, make('span', {}, make('i', { className: 'mark begin' }), text('start')),
    make('span', {}, make('i', { className: 'mark finish' }), text('finish')), make('span', {}, text('north')));
  const chooser = paths.length > 1 ? make('label', {}, text('colourBy') + ' ', choice) : null;
  const caption = make('figcaption', {}, make('strong', {}, text('track')), chooser);
  const under = make('div', { className: 'under' }, keys, legend);
  return make('figure', { className: 'track' }, caption, map, scaleOf(width, metres), under, noteOf(track.faults));
}

// What is said of values that are left out of a picture.
/** @param {number} count */
export function noteOf(count) {
  return count ? make('p', { className: 'note' }, text(count === 1 ? 'oneFault' : 'faults', { count })) : null;
}

// Marks of a start and a finish that would cover each other stand side by side.
const CLOSE = 45;

/** @param {Track} track @param {number} side */
function beside({ startAt, finishAt }, side) {
  const [x, y] = startAt.map((n, k) => finishAt[k] - n);
  return Math.hypot(x, y) < CLOSE ? (x < 0 ? -side : side) < 0 ? ' left' : ' right' : '';
}

// A line of a round length.
function scaleOf(width, metres) {
  const [large, small, ratio, unit] = inMiles() ? ['miles', 'feet', 5280, FOOT] : ['km', 'metres', 1000, 1];
  const most = width / 3 * metres / unit, whole = most >= ratio ? ratio : 1, power = 10 ** Math.floor(Math.log10(most / whole));
  const count = power * [5, 2, 1].find(it => it * power <= most / whole), line = make('div', { className: 'scale' });
  line.textContent = text(whole > 1 ? large : small, { n: numberText(count) });
  line.style.width = count * whole * unit / metres / width * 100 + '%';
  return line;
}

// Shows where a sample was.
/** @param {Drawn} ride @param {HTMLElement} pictures @param {number} i */
export function pointAt({ track, lat, long }, pictures, i) {
  /** @type {HTMLElement | null} */
  const here = pictures.querySelector('.here');
  if (!here) return;
  here.hidden = !(lat[i] === lat[i] && long[i] === long[i]);
  const [x, y] = placeOn(track, lat[i], long[i]);
  placed(here, x / track.width * 100, y / track.height * 100);
}

/** @param {Frame} frame @param {number} lat @param {number} long */
export function placeOn({ width, height, scale, narrow, middleX, middleY }, lat, long) {
  return [width / 2 + (long - middleX) * narrow * scale, height / 2 + (middleY - lat) * scale];
}

// Reports the sample that is nearest to the pointer over the track.
/** @param {Drawn} ride @param {HTMLElement} pictures @param {(i: number) => void} report */
export function followTrack({ track, lat, long }, pictures, report) {
  const map = pictures.querySelector('.map');
  if (!map) return;
  const follow = event => {
    const { left, top, width, height } = map.getBoundingClientRect(), step = Math.ceil(lat.length / 20000);
    const x = (event.clientX - left) / width * track.width, y = (event.clientY - top) / height * track.height;
    let best = -1, least = Infinity;
    for (let i = 0; i < lat.length; i += step) {
      const [a, b] = placeOn(track, lat[i], long[i]), far = (a - x) ** 2 + (b - y) ** 2;
      if (far < least) [best, least] = [i, far];
    }
    if (best >= 0) report(best);
  };
  map.addEventListener('pointermove', follow);
  map.addEventListener('pointerdown', follow);
}

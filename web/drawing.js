// The lines of a ride, as paths of SVG: a curve of each series over time, and the track.

import { niceStep } from './grid.js';
import { extremesOf, plausible, sampleAt } from './ranges.js';

// A picture of a curve has so many columns, and is so high; the page stretches it. A track has at most these sides.
const COLUMNS = 1200, CURVE = 100, TRACK = { width: 1000, least: 360, most: 760, edge: 45 }, CLASSES = 8;

// The range of a curve, from one line of its grid to another, and these lines.
function gridOf(from, to, least) {
  const middle = (from + to) / 2, half = Math.max(to - from, least) / 2, step = niceStep(middle - half, middle + half, 3);
  const low = Math.floor((middle - half) / step + 1e-9) * step, high = Math.ceil((middle + half) / step - 1e-9) * step, lines = [];
  for (let n = low; n < high + step / 2; n += step) lines.push(n);
  return { low, high, lines };
}

// The first sample of each column but the first. Samples are in the order of time.
/** @param {Float64Array} time @returns {number[]} */
export function columnsOf(time) {
  const begin = time[0], seconds = time[time.length - 1] - begin || 1;
  return Array.from({ length: COLUMNS - 1 }, (_, k) => sampleAt(time, begin + (k + 1) * seconds / COLUMNS));
}

// A curve: a line through the average of each column, and for each column with several values a bar from its least to its greatest. After a
// break in a column its values are a part of their own.
/** @param {Float64Array} time @param {Series} series @returns {Curve} */
export function curveOf(time, { parts, breaks, from, to, least }) {
  const begin = time[0], seconds = time[time.length - 1] - begin || 1, drawn = [];
  let last = null, k = 0;
  for (const part of parts) {
    const column = Math.min(Math.floor((time[part.first] - begin) * COLUMNS / seconds), COLUMNS - 1), passed = k;
    while (k < breaks.length && breaks[k] <= part.first) k++;
    if (last && last.column === column && k === passed) {
      last.low = Math.min(last.low, part.low);
      last.high = Math.max(last.high, part.high);
      last.sum += part.sum;
      last.seconds += part.seconds;
    } else drawn.push(last = { ...part, column, isBegin: !last || k > passed });
  }
  const grid = gridOf(from, to, least);
  return { ...grid, ...linesOf(drawn, grid) };
}

function linesOf(parts, grid) {
  const y = n => ((grid.high - n) / (grid.high - grid.low) * CURVE).toFixed(1);
  let line = '', bars = '';
  parts.forEach(({ column, low, high, sum, seconds, isBegin }, k) => {
    const isAlone = isBegin && (k + 1 === parts.length || parts[k + 1].isBegin);
    line += `${isBegin ? 'M' : 'L'}${column} ${y(sum / seconds)}${isAlone ? 'h1' : ''}`;
    if (low < high) bars += `M${column} ${y(low)}V${y(high)}`;
  });
  return { line, bars };
}

// Where the places of a track are, across and up, without those that are far from all others, and by how many degrees of latitude one is; null
// if there are none. Longitudes go on beyond 180 degrees; `long` is changed to them. No device is at 0 degrees north and east, which are bytes
// that were never written: such positions are taken out of both.
/** @param {Float64Array} lat @param {Float64Array} long */
export function placesIn(lat, long) {
  let last = NaN, faults = 0;
  for (let i = 0; i < long.length; i++) {
    if (long[i] === 0 && lat[i] === 0) {
      faults++;
      lat[i] = NaN;
    }
    if (long[i] !== long[i] || lat[i] !== lat[i]) long[i] = NaN;
    else {
      if (Math.abs(long[i] - last) > 180) long[i] -= 360 * Math.round((long[i] - last) / 360);
      last = long[i];
    }
  }
  const across = plausible(long, extremesOf(long), 0.002), up = plausible(lat, extremesOf(lat), 0.002);
  if (!(across.to >= across.from && up.to >= up.from)) return null;
  const narrow = Math.max(0.01, Math.cos((up.from + up.to) / 2 * Math.PI / 180)), middleX = (across.from + across.to) / 2;
  const off = (n, { from, to }) => Math.max(from - n, n - to, 0);
  const farOf = (y, x) => Math.hypot(off(x - 360 * Math.round((x - middleX) / 360), across) * narrow, off(y, up));
  return { across, up, narrow, middleX, faults, farOf };
}

// The track, with a path for each class of each series that can colour it, and what leads from degrees to its picture. North is up.
/** @param {{ lat: Float64Array, long: Float64Array, series: Series[], breaks: number[] }} ride @returns {Track | null} */
export function trackOf({ lat, long, series, breaks }) {
  const places = placesIn(lat, long);
  if (!places) return null;
  const { across, up, narrow, middleX, faults, farOf } = places, wide = Math.max((across.to - across.from) * narrow, 2e-4);
  const tall = Math.max(up.to - up.from, 2e-4), { width, least, most, edge } = TRACK;
  const scale = Math.min((width - 2 * edge) / wide, (most - 2 * edge) / tall), height = Math.max(least, tall * scale + 2 * edge);
  const frame = { width, height, scale, narrow, middleX, middleY: (up.from + up.to) / 2 };
  const colours = series.filter(it => it.name === 'speed' || it.name === 'heart'), points = [];
  let count = 0, lastX = 0, lastY = 0;
  const stray = { count: 0, cm: 0 }, metres = 111194.9 / scale;
  for (let i = 0, k = 0, isBroken = 1; i < lat.length; i++) {
    if (i === breaks[k]) isBroken = ++k;
    if (long[i] !== long[i]) continue;
    const far = farOf(lat[i], long[i]);
    if (far > 0) {
      stray.count++;
      stray.cm = Math.max(stray.cm, far * scale * metres * 100);
      continue;
    }
    const x = width / 2 + (long[i] - frame.middleX) * narrow * scale, y = height / 2 + (frame.middleY - lat[i]) * scale;
    count++;
    if (!isBroken && Math.abs(x - lastX) + Math.abs(y - lastY) < 1) continue;
    points.push({ i, x: x.toFixed(1), y: y.toFixed(1), isBroken });
    [lastX, lastY, isBroken] = [x, y, 0];
  }
  const first = points[0].i, finish = long.findLastIndex(n => n >= across.from && n <= across.to);
  const paths = [{ name: 'plain', paths: classesOf(points, () => 0, 1) }, ...colours.map(it => colouredBy(points, it))];
  return { ...frame, count, faults, stray, first, finish, paths, metres };
}

function colouredBy(points, { name, values, from, to }) {
  let last = 0;
  const classAt = i => {
    if (values[i] >= from && values[i] <= to) last = Math.min(CLASSES - 1, Math.floor((values[i] - from) / (to - from || 1) * CLASSES));
    return last;
  };
  return { name, from, to, paths: classesOf(points, classAt, CLASSES) };
}

// A path for each class. A piece of the track has the class of its end.
function classesOf(points, classAt, count) {
  const paths = Array(count).fill('');
  let before = -1;
  points.forEach(({ i, x, y, isBroken }, k) => {
    const own = classAt(i), isAlone = isBroken && (k + 1 === points.length || points[k + 1].isBroken);
    if (isAlone) paths[own] += `M${x} ${y}h.1`;
    if (!isBroken) paths[own] += own === before ? `L${x} ${y}` : `M${points[k - 1].x} ${points[k - 1].y}L${x} ${y}`;
    before = isBroken ? -1 : own;
  });
  return paths;
}

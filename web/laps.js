// The laps of a ride, as a table.

import { make } from './dom.js';
import { clockText, distanceText, durationText, nameText, numberText, text, valueText } from './formats.js';
import { speedOf } from './telling.js';

// So many rows are shown at once.
const ROWS = 200;

/** @param {Laps} laps */
export function lapTable(laps) {
  const { count, number, start, timer, distance, isOpen } = laps, isMeasured = distance.some(n => n === n);
  const speedIn = k => speedOf({ distance: distance[k], timer: timer[k] }), shown = (n, of) => n === n && n !== null ? of(n) : '';
  const isThere = name => laps[name] && laps[name].some(n => n === n);
  const value = (name, series) => isThere(name) && [name, k => shown(laps[name][k], n => valueText(series, n))];
  const columns = [
    ['lap', k => numberText(number[k]) + (isOpen && k === count - 1 ? '*' : '')],
    ['begun', k => clockText(start[k], start[0], 1)],
    ['moving', k => durationText(timer[k])],
    isMeasured && ['distance', k => shown(distance[k], distanceText)],
    isMeasured && ['speedAverage', k => shown(speedIn(k), n => valueText('speed', n))],
    value('heartAverage', 'heart'), value('heartGreatest', 'heart'), value('powerAverage', 'power'),
  ].filter(it => it);
  const head = columns.map(([name]) => make('th', { scope: 'col' }, nameText(name)));
  const rowOf = k => {
    const [first, ...rest] = columns.map(([, cell]) => cell(k));
    return make('tr', {}, make('th', { scope: 'row' }, first), ...rest.map(it => make('td', {}, it)));
  };
  const body = make('tbody', {}), more = make('button', { type: 'button', className: 'button second' });
  const show = () => {
    const first = body.rows.length, left = Math.max(0, count - first - ROWS);
    body.append(...Array.from({ length: Math.min(ROWS, count - first) }, (_, k) => rowOf(first + k)));
    more.hidden = !left;
    more.textContent = text('moreLaps', { count: Math.min(ROWS, left) });
  };
  more.addEventListener('click', show);
  show();
  const caption = make('caption', {}, text('lapsTitle'));
  const table = make('table', {}, caption, make('thead', {}, make('tr', {}, ...head)), body);
  const notes = isOpen ? [make('p', { className: 'note' }, '* ' + text('openLap'))] : [];
  return [sideways(table), make('p', { className: 'buttons' }, more), ...notes];
}

// A table in a box that scrolls sideways, with a mark at its edge as long as it goes on there.
function sideways(table) {
  const box = make('div', { className: 'scrolled', tabIndex: 0, role: 'region', 'aria-label': text('lapsTitle') }, table);
  const mark = make('span', { className: 'goes', title: text('goesSideways'), 'aria-hidden': true }, '→');
  const look = () => { mark.hidden = box.scrollWidth - box.clientWidth - box.scrollLeft < 2; };
  box.addEventListener('scroll', look);
  new ResizeObserver(look).observe(box);
  return make('div', { className: 'sideways' }, box, mark);
}

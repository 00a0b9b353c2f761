// A ride as a table of its samples, and as a track.

import { dateOf, isDated } from './dates.js';

const COLUMNS_OF = { speed: 'speed_kmh', heart: 'heart_rate_bpm', height: 'altitude_m', power: 'power_w', cadence: 'cadence_rpm',
  warmth: 'temperature_c' };

// The columns of the table that have values: their names, their decimals and their values. Distances are metres.
function columnsIn({ lat, long, distance, series }) {
  return [['latitude', 7, lat], ['longitude', 7, long.map(around)], ['distance_m', 2, distance.map(n => n / 100)],
    ...series.map(({ name, values }) => [COLUMNS_OF[name], 2, values])].filter(([, , values]) => values.some(n => n === n));
}

// A longitude that was drawn beyond 180 degrees, as the file has it.
const around = n => n - 360 * Math.round(n / 360);

const shortened = (n, decimals) => n === n ? String(Number(n.toFixed(decimals))) : '';
const isoText = t => dateOf(t).toISOString().replace('.000Z', 'Z');
const timeIn = ({ isUntimed }, t) => isUntimed ? '' : isDated(t) ? isoText(t) : shortened(t, 3);

/** @param {Drawn} ride */
export function csvOf(ride) {
  const columns = columnsIn(ride), lines = [['time', ...columns.map(([name]) => name)].join(',')];
  ride.time.forEach((t, i) => {
    lines.push([timeIn(ride, t), ...columns.map(([, decimals, values]) => shortened(values[i], decimals))].join(','));
  });
  return new Blob([lines.join('\r\n') + '\r\n'], { type: 'text/csv' });
}

// The track as GPX 1.1, with the extensions that `show --gpx` of the program has; null if there is none.
/** @param {Drawn} ride */
export function gpxOf(ride) {
  const { time, lat, long, series } = ride, of = Object.fromEntries(series.map(it => [it.name, it.values])), points = [];
  const tag = (name, n, decimals) => n === n && n !== undefined ? `<${name}>${n.toFixed(decimals)}</${name}>` : '';
  const at = (name, i) => of[name] ? of[name][i] : undefined;
  time.forEach((t, i) => {
    if (lat[i] !== lat[i] || long[i] !== long[i]) return;
    const when = !ride.isUntimed && isDated(t) ? `<time>${isoText(t)}</time>` : '';
    const inner = tag('gpxtpx:atemp', at('warmth', i), 0) + tag('gpxtpx:hr', at('heart', i), 0) + tag('gpxtpx:cad', at('cadence', i), 0);
    const more = tag('power', at('power', i), 0) + (inner && `<gpxtpx:TrackPointExtension>${inner}</gpxtpx:TrackPointExtension>`);
    points.push(`<trkpt lat="${lat[i].toFixed(8)}" lon="${around(long[i]).toFixed(8)}">${tag('ele', at('height', i), 1)}${when}`
      + `${more && `<extensions>${more}</extensions>`}</trkpt>`);
  });
  const spaces = 'xmlns="http://www.topografix.com/GPX/1/1" xmlns:gpxtpx="http://www.garmin.com/xmlschemas/TrackPointExtension/v1"';
  const head = `<?xml version="1.0" encoding="UTF-8"?>\n<gpx version="1.1" creator="fitrec" ${spaces}>\n<trk><trkseg>\n`;
  const text = `${head}${points.join('\n')}\n</trkseg></trk>\n</gpx>\n`;
  return points.length ? new Blob([text], { type: 'application/gpx+xml' }) : null;
}

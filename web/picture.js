// A ride as one picture: its name, its numbers, its track and its curves.

import { factsOf } from './charts.js';
import { make } from './dom.js';
import { nameText } from './formats.js';

const SHEET = { width: 1200, edge: 40, row: 72, curve: 150, gap: 64 };

/** @param {string} title @param {Record<string, Shown>} numbers @param {Drawn} ride @returns {Promise<Blob>} */
export function pictureOf(title, numbers, { track, series }) {
  const { width, edge, row, curve, gap } = SHEET, inner = width - 2 * edge, curves = series.filter(it => it.curve);
  const style = getComputedStyle(document.documentElement), colour = name => style.getPropertyValue('--' + name).trim();
  // The start is long, and has two places of four.
  const entries = Object.entries(numbers).flatMap(it => it[0] === 'start' ? [it, null] : [it]);
  const rows = Math.ceil(entries.length / 4), ratio = inner / 1000;
  const mapHeight = track ? track.height * ratio + gap : 0, height = 2 * edge + 50 + rows * row + mapHeight + curves.length * (curve + gap);
  const canvas = make('canvas', { width, height: Math.ceil(height) }), pen = canvas.getContext('2d');
  const write = (shown, x, y, size, name, weight = 400) => {
    pen.font = `${weight} ${size}px system-ui, sans-serif`;
    pen.fillStyle = colour(name);
    pen.fillText(shown, x, y);
  };
  const stroke = (d, /** @type {number[]} */ [sx, sy, x, y], name, line) => {
    const moved = new Path2D();
    moved.addPath(new Path2D(d), new DOMMatrix([sx, 0, 0, sy, x, y]));
    Object.assign(pen, { strokeStyle: colour(name), lineWidth: line, lineJoin: 'round', lineCap: 'round' });
    pen.stroke(moved);
  };
  pen.fillStyle = colour('card');
  pen.fillRect(0, 0, width, height);
  write(title, edge, edge + 30, 32, 'ink', 700);
  entries.forEach((entry, k) => {
    const x = edge + k % 4 * inner / 4, y = edge + 80 + Math.floor(k / 4) * row;
    if (!entry) return;
    write(nameText(entry[0]), x, y, 17, 'quiet');
    write(entry[1].shown, x, y + 28, 22, 'ink', 600);
  });
  let y = edge + 50 + rows * row;
  if (track) {
    const place = [ratio, ratio, edge, y], { paths } = track.paths[1] || track.paths[0];
    stroke(paths.join(''), place, 'casing', 7);
    paths.forEach((d, k) => stroke(d, place, paths.length > 1 ? 'class' + k : 'accent', 4));
    for (const [[x, down], name] of /** @type {[number[], string][]} */ ([[track.finishAt, 'ink'], [track.startAt, 'accent']])) {
      pen.fillStyle = colour(name);
      pen.fillRect(edge + x * ratio - 7, y + down * ratio - 7, 14, 14);
    }
    y += mapHeight;
  }
  for (const { name, curve: drawn, ...it } of curves) {
    write(nameText(name), edge, y + 18, 19, name, 700);
    pen.font = '400 16px system-ui, sans-serif';
    const facts = factsOf({ name, ...it });
    write(facts, width - edge - pen.measureText(facts).width, y + 18, 16, 'quiet');
    const place = [inner / 1200, curve / 100, edge, y + 30];
    stroke('M0 0H1200M0 100H1200', place, 'line', 1);
    stroke(drawn.bars, place, name, 1);
    stroke(drawn.line, place, name, 2);
    y += curve + gap;
  }
  return new Promise(done => canvas.toBlob(done, 'image/png'));
}

// The files that are made of a ride, and which of them are not downloaded yet.

import { byId, make } from './dom.js';
import { csvOf, gpxOf } from './exports.js';
import { text } from './formats.js';
import { pictureOf } from './picture.js';
import { numbersOf } from './telling.js';

// The ride whose file is offered.
let offered = null;

// Offers the file that was made of a ride, and the same in other forms.
/** @param {Answer} answer @param {Files | null} of */
export function offer({ file, name, ride }, of) {
  const base = (name || '').replace(/\.fit$/, ''), kind = { type: 'application/octet-stream' };
  const shared = file && new File([file], name, kind);
  offered = of;
  link(byId('save'), file, name, file ? text('download', { name }) : '');
  byId('save').onclick = () => tookIt(of);
  byId('share').hidden = !(shared && navigator.canShare && navigator.canShare({ files: [shared] }));
  byId('share').onclick = () => navigator.share({ files: [shared] }).then(() => tookIt(of, true), () => {});
  showTaken();
  const hasSamples = ride && ride.time.length > 0;
  /** @type {[key: string, ending: string, makeIt: () => Blob | Promise<Blob>][]} */
  const others = hasSamples ? [['asCsv', 'csv', () => csvOf(ride)]] : [];
  if (hasSamples && ride.track) others.unshift(['asGpx', 'gpx', () => gpxOf(ride)]);
  if (hasSamples) others.push(['asPicture', 'png', () => pictureOf(base, numbersOf(of.facts), ride)]);
  byId('others').replaceChildren(...others.map(([key, ending, makeIt]) => {
    const button = make('button', { type: 'button', className: 'second', id: key }, text(key));
    button.addEventListener('click', async () => download(await makeIt(), `${base}.${ending}`));
    return button;
  }));
}

function download(file, name) {
  const at = make('a', {});
  link(at, file, name, '');
  at.click();
}

/** @type {(ride: Files | null) => boolean} */
export const isOpen = ride => ride && ride.file && ride.heading !== 'whole' && !ride.isTaken;

/** @param {Files} ride @param {boolean} [isShared] */
export function tookIt(ride, isShared = false) {
  Object.assign(ride, { isTaken: true, isDownloaded: ride.isDownloaded || !isShared });
  if (ride === offered) showTaken();
}

function showTaken() {
  const { file, saved, isDownloaded } = offered || {};
  byId('taken').textContent = !file ? '' : isDownloaded ? text('downloaded', { name: saved }) : isOpen(offered) ? text('notYet') : '';
}

// A file to be downloaded.
/** @param {any} element @param {Blob | null} file @param {string} name @param {string} label */
export function link(element, file, name, label) {
  URL.revokeObjectURL(element.href);
  element.hidden = !file;
  if (!file) return element.removeAttribute('href');
  element.href = URL.createObjectURL(file);
  element.download = name;
  element.textContent = label;
}

// What is shown while a person waits: progress, from 0.3 s on.

import { byId } from './dom.js';
import { text } from './formats.js';

let timer = 0, queue = '';

/** @param {number} step */
export function progress(step) {
  byId('progress').value = step;
}

/** @param {boolean} isBusy */
export function work(isBusy) {
  clearTimeout(timer);
  document.body.classList.toggle('busy', isBusy);
  byId('progress').hidden = true;
  byId('busy').textContent = '';
  if (isBusy) timer = setTimeout(() => {
    byId('progress').hidden = false;
    byId('busy').textContent = text('busy') + queue;
  }, 300);
}

// Which of several rides is worked on.
/** @param {string} which */
export function workOn(which) {
  queue = which;
  if (!byId('progress').hidden) byId('busy').textContent = text('busy') + queue;
}

// What a person has chosen: the language and the units. The browser keeps both, where it allows that.

import { make } from './dom.js';

/** @type {(name: string) => string | null} */
export const chosen = name => {
  try {
    return localStorage.getItem('fitrec.' + name);
  } catch {
    return null;
  }
};

function prefer(name, value) {
  try {
    localStorage.setItem('fitrec.' + name, value);
  } catch {
    // It then holds for this visit.
  }
}

// A list to choose from, which reports what is chosen.
/** @param {any} element @param {Record<string, string>} options @param {string} value @param {(value: string) => void} report */
export function chooserOf(element, options, value, report) {
  element.replaceChildren(...Object.entries(options).map(([key, shown]) => make('option', { value: key }, shown)));
  element.value = value;
  element.onchange = () => {
    prefer(element.id, element.value);
    report(element.value);
  };
}

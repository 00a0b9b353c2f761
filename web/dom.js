// The elements of the page: those that are there by their names, and new ones.

/** @type {(id: string) => any} of the kind that the page has under this name */
export const byId = id => document.getElementById(id);

export function make(name, attributes = {}, ...children) {
  const made = document.createElement(name);
  for (const [key, value] of Object.entries(attributes)) {
    if (key in made) made[key] = value; else made.setAttribute(key, value);
  }
  made.append(...children.filter(it => it !== null && it !== undefined));
  return made;
}

export function svg(attributes, ...children) {
  const made = document.createElementNS('http://www.w3.org/2000/svg', 'svg');
  for (const [key, value] of Object.entries(attributes)) made.setAttribute(key, value);
  made.append(...children);
  return made;
}

export function path(kind, d) {
  const made = document.createElementNS('http://www.w3.org/2000/svg', 'path');
  made.setAttribute('class', kind);
  made.setAttribute('d', d);
  return made;
}

// Something at a place of a picture, in hundredths of its width and height.
export function placed(element, left, top) {
  if (left !== null) element.style.left = left + '%';
  if (top !== null) element.style.top = top + '%';
  return element;
}

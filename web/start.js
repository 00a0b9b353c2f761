// Begins the page: inflates what it shows, its style and its script, which the policy knows by their checksums, and gives the script what its
// workers need.

import { inflated } from './inflating.js';

const add = (to, name, attributes) => to.append(Object.assign(document.createElement(name), attributes));

async function start() {
  const [style, shown, script, worker] = new TextDecoder().decode(await inflated('@INFLATED@')).split('\0');
  window.fitrec = { worker, module: inflated('@MODULE@'), isServed };
  add(document.head, 'style', { textContent: style });
  document.querySelector('main').innerHTML = shown;
  add(document.body, 'script', { textContent: script });
}

// Where the page is served, it is an app.
const isServed = location.protocol.startsWith('http');
for (const [rel, href] of isServed ? [['manifest', 'manifest.webmanifest'], ['icon', 'icon.svg']] : []) add(document.head, 'link', { rel, href });

start().catch(() => { document.querySelector('h1').textContent = 'This page needs a newer browser.'; });

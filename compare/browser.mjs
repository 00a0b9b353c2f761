#!/usr/bin/env node
// Opens the page in a headless browser, and answers what it shows.
//
//     browser.mjs BROWSER PAGE FOLDER    reads a list of visits from standard input, and writes a list of answers
//
// BROWSER is chromium, firefox or webkit: tools/BROWSER.mjs drives it.
//
// A visit has `width`, `dark`, `languages` (such as "de-CH"), `zone` (such as "Europe/Berlin"), `touch`, `print`, `unread` (from which byte
// on activity.fit cannot be read), `address` (of the page, if it is not the file PAGE), and `steps`. A step is one of
//
//     { files, drop }     paths are chosen by the file input, or dropped on the page, which takes folders too
//     { click }           a selector is clicked
//     { keys }            such as ["Tab", "Enter"]
//     { point }           a selector, and the place in it in hundredths of its width and height: the pointer goes there
//     { touchAt }         the same for a finger
//     { evaluate }        what an expression is
//     { download }        by a click on the selector, or by the key Enter
//     { screenshot }      a path
//     { removed }         paths of files or folders, which are removed as if a card was pulled out
//     { wait }            milliseconds
//     { installed }       what keeps it from being installed as an app, which Chromium alone says
//     { reload }          opens it anew, without a network
//
// Where a ride is asked for, it waits for the answer. An answer has what the page shows after each step, what each step made (the value of
// an expression, the path of a download), each request, and each line that the browser logged. A browser that ends by itself, or does not
// answer, is started once more for that visit, and this is said on standard error.

import { mkdtempSync, readFileSync, readdirSync, rmSync, statSync, writeFileSync } from 'node:fs';
import { join } from 'node:path';

const [name, page, folder] = process.argv.slice(2);
const { start } = await import(`./tools/${name}.mjs`);
const GONE = 'the browser is gone';

const pause = milliseconds => new Promise(done => setTimeout(done, milliseconds));

async function until(holds) {
  for (const begun = Date.now(); Date.now() < begun + 300_000; await pause(10)) {
    const found = await holds();
    if (found) return found;
  }
  throw new Error('waited too long');
}

const SHOWN = `(() => {
  const text = id => document.getElementById(id).innerText, all = (selector, of) => [...document.querySelectorAll(selector)].map(of);
  const visible = it => it.checkVisibility() && !it.closest('[hidden]');
  const named = [...document.querySelectorAll('input, a, button, select, svg, table, progress')].filter(visible);
  const nameOf = it => it.getAttribute('aria-label') || it.getAttribute('aria-labelledby') || it.innerText
    || (it.labels && it.labels[0] || {}).innerText || '';
  return { heading: text('heading'), reason: text('reason'), next: text('next'), focus: document.activeElement.id,
    list: all('#rides tbody tr', row => [...row.cells].map(it => it.innerText)), listHeading: text('listHeading'), listNote: text('listNote'),
    numbers: Object.fromEntries(all('dl > div', it => [it.children[0].innerText, [...it.children].slice(1).map(own => own.innerText).join(' ')])),
    pictures: all('figure', it => it.querySelector('figcaption strong').innerText),
    captions: Object.fromEntries(all('figure.chart figcaption', it => [it.children[0].innerText, it.children[1].innerText])),
    labels: all('svg', it => it.getAttribute('aria-label')), notes: all('.note', it => it.innerText),
    curves: Object.fromEntries(all('figure.chart', it => [it.querySelector('strong').innerText, {
      line: it.querySelector('.curve').getAttribute('d'), bars: it.querySelector('.bars').getAttribute('d'),
      ...it.querySelector('svg').dataset }])),
    laps: all('#laps tr', row => [...row.cells].map(it => it.innerText)), offers: all('#offers button', it => it.innerText),
    details: all('#details li', it => it.textContent).join(' '), where: text('where'), taken: text('taken'),
    values: all('.values > span', it => it.innerText),
    download: document.getElementById('save').hidden ? '' : document.getElementById('save').download,
    unnamed: named.filter(it => !nameOf(it).trim()).length, wide: document.documentElement.scrollWidth > innerWidth };
})()`;

// From this byte on activity.fit cannot be read.
const unreadFrom = place => `(() => {
  const { slice, arrayBuffer } = Blob.prototype, ends = new WeakMap(), isData = it => it.name === 'activity.fit';
  Blob.prototype.slice = function (from, to) {
    const part = slice.call(this, from, to);
    if (isData(this)) ends.set(part, from + part.size);
    return part;
  };
  Blob.prototype.arrayBuffer = function () {
    const end = isData(this) ? this.size : ends.get(this) || 0;
    return end > ${place} ? Promise.reject(new DOMException('', 'NotReadableError')) : arrayBuffer.call(this);
  };
})()`;

const IS_OPEN = 'document.readyState === "complete" && document.title !== "fitrec"';
const IS_ANSWERED = `!document.body.classList.contains('busy') && ['result', 'list'].some(id => !document.getElementById(id).hidden)`;
const WINDOW = { width: 1280, height: 900, dark: false, languages: 'en-US', zone: 'UTC', touch: false, print: false };

const click = (tab, selector) => tab.evaluate(`document.querySelector(${JSON.stringify(selector)}).click()`);

function placeOf(tab, [selector, across = 50, down = 50]) {
  return tab.evaluate(`(() => {
    const element = document.querySelector(${JSON.stringify(selector)});
    element.scrollIntoView({ block: 'center' });
    const { left, top, width, height } = element.getBoundingClientRect();
    return { x: left + width * ${across} / 100, y: top + height * ${down} / 100 };
  })()`);
}

// A browser writes under another name, or nothing, until all is there.
function downloadedTo(to) {
  const names = readdirSync(to), isThere = names.length === 1 && !/\.(crdownload|part)$/.test(names[0]) && statSync(join(to, names[0])).size;
  return isThere && join(to, names[0]);
}

// What each step does. It answers what it made, if anything.
const STEPS = {
  async files(tab, files, { drop }) {
    const begun = Date.now();
    await (drop ? tab.drop(files) : tab.choose(files));
    await pause(20);
    await until(() => tab.evaluate(IS_ANSWERED));
    return Date.now() - begun;
  },
  async click(tab, selector) {
    await click(tab, selector);
    await pause(20);
    await until(() => tab.evaluate(IS_ANSWERED));
  },
  async keys(tab, keys) {
    for (const key of keys) await tab.press(key);
  },
  point: async (tab, where) => { await tab.point(await placeOf(tab, where)); },
  touchAt: async (tab, where) => { await tab.touch(await placeOf(tab, where)); },
  evaluate: (tab, expression) => tab.evaluate(expression),
  async download(tab, by) {
    const to = mkdtempSync(join(folder, 'down-'));
    await tab.downloadTo(to);
    await (by === 'Enter' ? tab.press(by) : click(tab, by));
    if (tab.downloaded) await tab.downloaded();
    return until(() => downloadedTo(to));
  },
  async screenshot(tab, path) {
    await tab.evaluate('scrollTo(0, 0)');
    writeFileSync(path, Buffer.from(await tab.picture(), 'base64'));
  },
  removed: (tab, paths) => paths.forEach(path => rmSync(path, { recursive: true })),
  wait: (tab, milliseconds) => pause(milliseconds),
  installed: tab => tab.installed(),
  async reload(tab) {
    await tab.disconnect();
    await tab.evaluate('document.title = "fitrec"');
    await tab.reload();
    await until(() => tab.evaluate(IS_OPEN).catch(() => false));
  },
};

let browser;

async function visited({ steps, unread, address = 'file://' + page, ...how }) {
  browser ??= await start(mkdtempSync(join(folder, name + '-')));
  const tab = await browser.open({ ...WINDOW, ...how }), made = [], shown = [], failed = [];
  try {
    await tab.go(address);
    await until(() => tab.evaluate(IS_OPEN));
    if (unread) await tab.evaluate(unreadFrom(unread));
    for (const step of steps) {
      const kind = Object.keys(step).find(key => key in STEPS);
      made.push(await STEPS[kind](tab, step[kind], step) ?? null);
      shown.push(await tab.evaluate(SHOWN));
    }
  } catch (error) {
    if (error.message.includes(GONE)) throw error;
    failed.push(String(error.stack));
  }
  await tab.close();
  return { made, shown, requests: tab.requests, logged: [...tab.logged, ...failed] };
}

// The longest visits take a tenth of this on a slow machine.
const soon = answer => Promise.race([answer, pause(400_000).then(() => { throw new Error(GONE + ': it does not answer'); })]);

const answers = [];
for (const visit of JSON.parse(readFileSync(0, 'utf8'))) {
  answers.push(await soon(visited(visit)).catch(error => {
    console.error(`${name}, visit ${answers.length}, once more: ${error.message}`);
    browser?.kill();
    browser = undefined;
    return soon(visited(visit));
  }));
}
await soon(browser?.end());
process.stdout.write(JSON.stringify(answers), () => process.exit());

// Headless Firefox for browser.mjs, driven by Marionette, which is a part of it: lines of JSON over a socket.

import { spawn } from 'node:child_process';
import { existsSync, mkdirSync, readFileSync, writeFileSync } from 'node:fs';
import { connect } from 'node:net';
import { join } from 'node:path';
import { Tab } from './webdriver.mjs';

// A file is downloaded without a question, and the folder that is dropped here is read as one that a person drops.
const SETTINGS = { 'marionette.port': 0, 'browser.download.folderList': 2, 'browser.download.always_ask_before_handling_new_types': false,
  'browser.download.alwaysOpenPanel': false, 'dom.filesystem.pathcheck.disabled': true };
const NO_PROXY = 0, PROXY = 1, COARSE = 1, FINE_AND_HOVERS = 6;

export async function start(folder) {
  const profile = join(folder, 'profile'), port = join(profile, 'MarionetteActivePort');
  mkdirSync(profile, { recursive: true });
  const lines = Object.entries(SETTINGS).map(([name, value]) => `user_pref(${JSON.stringify(name)}, ${JSON.stringify(value)});\n`);
  writeFileSync(join(profile, 'user.js'), lines.join(''));
  const words = ['--headless', '--no-remote', '--marionette', '--remote-allow-system-access', '--profile', profile];
  const browser = spawn('firefox-esr', words, { stdio: 'ignore' }), ended = new Promise(done => browser.on('close', done));
  process.on('exit', () => browser.kill());
  while (!existsSync(port) || !readFileSync(port, 'utf8')) await new Promise(done => setTimeout(done, 50));
  const { send, leave } = await connected(Number(readFileSync(port, 'utf8')));
  await send('WebDriver:NewSession', { capabilities: { alwaysMatch: {} } });
  await send('WebDriver:SetTimeouts', { script: 600000 });
  const inBrowser = (script, ...args) => privileged(send, script, args);
  await inBrowser(LISTEN);
  return {
    async open(how) {
      const { handle } = await send('WebDriver:NewWindow', { type: 'tab', focus: true });
      await send('WebDriver:SwitchToWindow', { handle });
      const tab = new FirefoxTab(send, inBrowser);
      await tab.begin(how);
      return tab;
    },
    async end() {
      await send('Marionette:Quit', { flags: ['eForceQuit'] }).catch(() => {});
      leave();
      await ended;
    },
    kill() { browser.kill('SIGKILL'); },
  };
}

// What sends a command, and answers its result; and what leaves.
async function connected(port) {
  const socket = connect(port, '127.0.0.1'), waiting = new Map();
  let received = Buffer.alloc(0), sent = 0;
  socket.on('data', data => {
    received = Buffer.concat([received, data]);
    for (let colon; (colon = received.indexOf(':')) >= 0;) {
      const end = colon + 1 + Number(received.subarray(0, colon));
      if (received.length < end) break;
      const message = JSON.parse(received.subarray(colon + 1, end));
      received = received.subarray(end);
      if (Array.isArray(message)) waiting.get(message[1])(message);
    }
  });
  socket.on('error', () => {}).on('close', () => waiting.forEach(answer => answer([1, 0, { message: 'the browser is gone' }])));
  const send = (name, params = {}) => new Promise((done, fail) => {
    waiting.set(++sent, ([, , error, result]) => error ? fail(new Error(name + ': ' + error.message)) : done(result));
    const text = JSON.stringify([0, sent, name, params]);
    socket.write(Buffer.byteLength(text) + ':' + text);
  });
  return { send, leave: () => socket.destroy() };
}

// What a script of the browser itself answers.
async function privileged(send, script, args) {
  await send('Marionette:SetContext', { value: 'chrome' });
  try {
    return (await send('WebDriver:ExecuteScript', { script, args })).value;
  } finally {
    await send('Marionette:SetContext', { value: 'content' });
  }
}

// Notes the requests of pages, and what they do wrong.
const LISTEN = `
  const seen = window.seen = { requests: [], logged: [] };
  Services.obs.addObserver(channel => {
    const { loadInfo, URI } = channel.QueryInterface(Ci.nsIHttpChannel), { loadingPrincipal } = loadInfo;
    if (loadInfo.browsingContextID || loadingPrincipal && loadingPrincipal.isContentPrincipal) seen.requests.push(URI.spec);
  }, 'http-on-opening-request');
  Services.console.registerListener({ observe(message) {
    const isOfPage = message instanceof Ci.nsIScriptError && !message.isFromChromeContext && message.innerWindowID;
    if (isOfPage && !(message.flags & Ci.nsIScriptError.warningFlag)) seen.logged.push(String(message));
  } });`;

const BEGIN = `
  const [{ width, height, dark, languages, zone, touch, print, settings }] = arguments, tab = gBrowser.selectedBrowser;
  Object.assign(tab.browsingContext, { prefersColorSchemeOverride: dark ? 'dark' : 'light', mediumOverride: print ? 'print' : '',
    timezoneOverride: zone, languageOverride: languages, touchEventsOverride: touch ? 'enabled' : 'none' });
  for (const [name, value] of Object.entries(settings)) Services.prefs.setIntPref(name, value);
  for (const [side, size] of [['width', width], ['height', height]])
    for (const least of ['min-', 'max-', '']) tab.style.setProperty(least + side, size + 'px');
  Object.assign(window.seen, { requests: [], logged: [] });`;

// What is dropped are files and folders of the disk: a folder comes first. A page may read them once they are dropped.
const DROP = `
  const { FileUtils } = ChromeUtils.importESModule('resource://gre/modules/FileUtils.sys.mjs'), given = new window.DataTransfer();
  const [first, ...more] = arguments[0].map(path => new FileUtils.File(path));
  given.mozSetDataAt('application/x-moz-file', first, 0);
  return Promise.all(more.map(it => File.createFromNsIFile(it))).then(files => {
    files.forEach(it => given.items.add(it));
    for (const kind of ['dragover', 'drop']) {
      const event = new window.DragEvent(kind, { dataTransfer: given.mozCloneForEvent('on' + kind), bubbles: true, cancelable: true });
      window.document.body.dispatchEvent(event);
    }
  });`;

class FirefoxTab extends Tab {
  constructor(send, inBrowser) {
    super(async (name, params) => {
      const result = await send('WebDriver:' + name, params);
      return 'value' in result ? result.value : result;
    });
    this.inBrowser = inBrowser;
  }

  async begin(how) {
    const pointer = how.touch ? COARSE : FINE_AND_HOVERS;
    const settings = { 'ui.primaryPointerCapabilities': pointer, 'ui.allPointerCapabilities': pointer, 'network.proxy.type': NO_PROXY };
    await this.inBrowser(BEGIN, { ...how, settings });
  }

  drop(files) { return this.command('ExecuteScript', { script: DROP, args: [files], sandbox: 'system' }); }

  downloadTo(folder) { return this.inBrowser(`Services.prefs.setStringPref('browser.download.dir', arguments[0])`, folder); }

  // Each request goes to where nothing answers.
  async disconnect() {
    await this.inBrowser(`
      Services.prefs.setStringPref('network.proxy.http', '127.0.0.1');
      Services.prefs.setIntPref('network.proxy.http_port', 1);
      Services.prefs.setBoolPref('network.proxy.allow_hijacking_localhost', true);
      Services.prefs.setIntPref('network.proxy.type', arguments[0]);`, PROXY);
  }

  async close() {
    Object.assign(this, await this.inBrowser('return window.seen'));
    const handles = await this.command('CloseWindow');
    await this.command('SwitchToWindow', { handle: handles[0] });
  }
}

// Headless Chromium for browser.mjs, driven by its own protocol.

import { spawn } from 'node:child_process';
import { join } from 'node:path';

const KEYS = { Tab: 9, Enter: 13, ' ': 32, ArrowLeft: 37, ArrowUp: 38, ArrowRight: 39, ArrowDown: 40, End: 35, Home: 36 };

// A tab is never one in the background, which would wait for everything else on a busy machine.
const WORDS = ['--headless=new', '--no-sandbox', '--disable-gpu', '--remote-debugging-pipe', '--disable-renderer-backgrounding',
  '--disable-backgrounding-occluded-windows', '--disable-background-timer-throttling'];

export async function start(folder) {
  const words = [...WORDS, '--user-data-dir=' + join(folder, 'profile')];
  const browser = spawn('chromium', [...words, 'about:blank'], { stdio: ['ignore', 'ignore', 'ignore', 'pipe', 'pipe'] });
  const waiting = new Map(), listeners = [];
  let received = '', sent = 0;
  browser.stdio[4].on('data', data => {
    received += data;
    for (let end; (end = received.indexOf('\0')) >= 0;) {
      const message = JSON.parse(received.slice(0, end));
      received = received.slice(end + 1);
      if (message.id) waiting.get(message.id)(message);
      else listeners.forEach(listener => listener(message));
    }
  });
  const ended = new Promise(done => browser.on('close', done));
  const gone = () => waiting.forEach(answer => answer({ error: { message: 'the browser is gone' } }));
  browser.stdio[4].on('close', gone);
  browser.stdio[3].on('error', gone);
  const send = (method, params = {}, sessionId) => new Promise((done, fail) => {
    waiting.set(++sent, message => message.error ? fail(new Error(method + ': ' + message.error.message)) : done(message.result));
    browser.stdio[3].write(JSON.stringify({ id: sent, method, params, sessionId }) + '\0');
  });
  return {
    async open(how) {
      const { targetId } = await send('Target.createTarget', { url: 'about:blank' });
      const { sessionId } = await send('Target.attachToTarget', { targetId, flatten: true });
      const tab = new Tab(send, targetId, sessionId, how.width);
      listeners.push(message => { if (message.sessionId === sessionId) tab.hear(message); });
      await tab.begin(how);
      return tab;
    },
    async end() {
      await send('Browser.close').catch(() => {});
      browser.kill();
      await ended;
    },
    kill() { browser.kill('SIGKILL'); },
  };
}

class Tab {
  requests = [];
  logged = [];

  constructor(send, targetId, sessionId, width) {
    Object.assign(this, { send, targetId, width });
    this.call = (method, params) => send(method, params, sessionId);
  }

  hear({ method, params }) {
    if (method === 'Network.requestWillBeSent') this.requests.push(params.request.url.replace(/^(blob|data):.*/, '$1:'));
    if (method === 'Log.entryAdded') this.logged.push(params.entry.text);
    if (method === 'Runtime.exceptionThrown') this.logged.push(JSON.stringify(params.exceptionDetails));
  }

  async begin({ width, height, dark, languages, zone, touch, print }) {
    for (const part of ['Page', 'DOM', 'Runtime', 'Network', 'Log']) await this.call(part + '.enable');
    await this.call('Emulation.setDeviceMetricsOverride', { width, height, deviceScaleFactor: 1, mobile: touch });
    if (touch) await this.call('Emulation.setTouchEmulationEnabled', { enabled: true });
    const features = [{ name: 'prefers-color-scheme', value: dark ? 'dark' : 'light' }];
    await this.call('Emulation.setEmulatedMedia', { media: print ? 'print' : '', features });
    await this.call('Emulation.setTimezoneOverride', { timezoneId: zone });
    await this.call('Emulation.setUserAgentOverride', { userAgent: await this.evaluate('navigator.userAgent'), acceptLanguage: languages });
  }

  go(url) { return this.call('Page.navigate', { url }); }

  async evaluate(expression) {
    const { result, exceptionDetails } = await this.call('Runtime.evaluate', { expression, awaitPromise: true, returnByValue: true });
    if (exceptionDetails) throw new Error(expression.slice(0, 200) + ': ' + (exceptionDetails.exception || {}).description);
    return result.value;
  }

  async choose(files) {
    const { root } = await this.call('DOM.getDocument');
    const { nodeId } = await this.call('DOM.querySelector', { nodeId: root.nodeId, selector: '#files' });
    await this.call('DOM.setFileInputFiles', { nodeId, files });
  }

  async drop(files) {
    const data = { items: [], files, dragOperationsMask: 1 };
    for (const type of ['dragEnter', 'dragOver', 'drop']) await this.call('Input.dispatchDragEvent', { type, x: 100, y: 100, data });
  }

  async press(key) {
    const pressed = { key, code: key === ' ' ? 'Space' : key, windowsVirtualKeyCode: KEYS[key], text: { Enter: '\r', ' ': ' ' }[key] };
    for (const type of ['keyDown', 'keyUp']) await this.call('Input.dispatchKeyEvent', { type, ...pressed });
  }

  point(place) { return this.call('Input.dispatchMouseEvent', { type: 'mouseMoved', ...place }); }

  async touch(place) {
    for (const [type, touchPoints] of [['touchStart', [place]], ['touchEnd', []]]) await this.call('Input.dispatchTouchEvent', { type, touchPoints });
  }

  downloadTo(downloadPath) { return this.send('Browser.setDownloadBehavior', { behavior: 'allow', downloadPath }); }

  async picture() {
    const clip = { x: 0, y: 0, width: this.width, height: await this.evaluate('document.documentElement.scrollHeight'), scale: 1 };
    return (await this.call('Page.captureScreenshot', { captureBeyondViewport: true, clip })).data;
  }

  async installed() { return (await this.call('Page.getInstallabilityErrors')).installabilityErrors.map(error => error.errorId); }

  async disconnect() {
    await this.call('Network.emulateNetworkConditions', { offline: true, latency: 0, downloadThroughput: -1, uploadThroughput: -1 });
  }

  reload() { return this.call('Page.reload'); }

  close() { return this.send('Target.closeTarget', { targetId: this.targetId }); }
}

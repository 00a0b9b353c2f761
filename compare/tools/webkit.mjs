// WebKit for browser.mjs: MiniBrowser of WebKitGTK, on a screen of Xvfb, driven by WebKitWebDriver. It has no way to another window than a
// wide one, to a drop, or to its log, and it downloads without saying where: what is offered is taken from the page.

import { spawn } from 'node:child_process';
import { readdirSync, writeFileSync } from 'node:fs';
import { request } from 'node:http';
import { createServer } from 'node:net';
import { join } from 'node:path';
import { Tab } from './webdriver.mjs';

const LIBRARIES = '/usr/lib/x86_64-linux-gnu';
const PATHS = { Navigate: '/url', ExecuteAsyncScript: '/execute/async', FindElement: '/element', PerformActions: '/actions',
  SetWindowRect: '/window/rect', SetTimeouts: '/timeouts' };

const freePort = () => new Promise(done => {
  const server = createServer().listen(0, '127.0.0.1', () => {
    const { port } = server.address();
    server.close(() => done(port));
  });
});

// The driver's answer, over a connection of its own: `fetch` would give up on what takes 300 seconds, and use one that the driver may be
// closing.
const answered = (port, method, path, body) => new Promise((done, failed) => {
  const headers = { 'content-length': Buffer.byteLength(body) };
  const asked = request({ host: '127.0.0.1', port, method, path, headers, agent: false }, async answer => {
    try {
      let text = '';
      for await (const part of answer.setEncoding('utf8')) text += part;
      done(text);
    } catch (error) {
      failed(error);
    }
  });
  asked.on('error', error => failed(new Error('the browser is gone: ' + error.message))).end(body);
});

export async function start(folder) {
  const screen = spawn('Xvfb', ['-displayfd', '3', '-screen', '0', '1400x1100x24'], { stdio: ['ignore', 'ignore', 'ignore', 'pipe'] });
  const display = await new Promise(done => screen.stdio[3].once('data', number => done(':' + String(number).trim())));
  const port = await freePort(), env = { ...process.env, DISPLAY: display, LC_ALL: 'en_US.UTF-8', TZ: 'UTC', HOME: folder };
  const driver = spawn('WebKitWebDriver', ['--port=' + port], { stdio: 'ignore', env });
  const kill = () => [driver, screen].forEach(it => it.kill()), ended = [driver, screen].map(it => new Promise(done => it.on('close', done)));
  process.on('exit', kill);
  const library = readdirSync(LIBRARIES).find(name => name.startsWith('webkit2gtk-')), binary = join(LIBRARIES, library, 'MiniBrowser');
  const send = async (method, path, body) => {
    const { value } = JSON.parse(await answered(port, method, path, body ? JSON.stringify(body) : ''));
    if (value && value.error) throw new Error(`${path}: ${value.message || value.error}`);
    return value;
  };
  for (let isThere = false; !isThere; isThere = await send('GET', '/status').then(() => true, () => false)) {
    await new Promise(done => setTimeout(done, 100));
  }
  return {
    async open({ width, height }) {
      const options = { 'webkitgtk:browserOptions': { binary, args: ['--automation'] } };
      const { sessionId } = await send('POST', '/session', { capabilities: { alwaysMatch: options } }), tab = new WebKitTab(send, '/session/' + sessionId);
      await tab.command('SetTimeouts', { script: 600000 });
      await tab.command('SetWindowRect', { width, height });
      return tab;
    },
    async end() {
      kill();
      await Promise.all(ended);
    },
    kill,
  };
}

// What the page offers is kept by its address.
const KEEP = `(() => {
  const { createObjectURL } = URL, made = window.made = new Map();
  URL.createObjectURL = blob => {
    const url = createObjectURL.call(URL, blob);
    made.set(url, blob);
    return url;
  };
  addEventListener('click', event => {
    const link = event.target.closest('a[download]');
    if (!link) return;
    event.preventDefault();
    window.taken = [link.download, made.get(link.href)];
  });
})()`;
const TAKEN = `(async ([name, blob]) => [name, [...new Uint8Array(await blob.arrayBuffer())]])(window.taken)`;

class WebKitTab extends Tab {
  constructor(send, session) {
    super((name, { id, ...params }) => id ? send('POST', `${session}/element/${id}/value`, params) : send('POST', session + PATHS[name], params));
    this.send = send;
    this.session = session;
  }

  async go(url) {
    await super.go(url);
    await this.evaluate(KEEP);
  }

  downloadTo(folder) { this.folder = folder; }

  async downloaded() {
    const [name, bytes] = await this.evaluate(TAKEN);
    writeFileSync(join(this.folder, name), Uint8Array.from(bytes));
  }

  picture() { return this.send('GET', this.session + '/screenshot'); }

  close() { return this.send('DELETE', this.session); }
}

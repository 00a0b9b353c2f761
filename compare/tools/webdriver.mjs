// A tab of a browser that takes the commands of WebDriver, for firefox.mjs and webkit.mjs. `command` sends one, and answers its result.

const KEYS = { Tab: '\uE004', Enter: '\uE007', ' ': ' ', ArrowLeft: '\uE012', ArrowUp: '\uE013', ArrowRight: '\uE014', ArrowDown: '\uE015',
  End: '\uE010', Home: '\uE011' };

export class Tab {
  requests = [];
  logged = [];

  constructor(command) {
    this.command = command;
  }

  go(url) { return this.command('Navigate', { url }); }

  async evaluate(expression) {
    const script = `const done = arguments[arguments.length - 1];
      (async () => (${expression}))().then(value => done({ value }), error => done({ error: String(error) }));`;
    const { value, error } = await this.command('ExecuteAsyncScript', { script, args: [] });
    if (error) throw new Error(expression.slice(0, 200) + ': ' + error);
    return value;
  }

  async choose(files) {
    const element = await this.command('FindElement', { using: 'css selector', value: '#files' });
    await this.command('ElementSendKeys', { id: Object.values(element)[0], text: files.join('\n') });
  }

  press(key) {
    return this.act({ type: 'key', actions: ['keyDown', 'keyUp'].map(type => ({ type, value: KEYS[key] })) });
  }

  point(place) { return this.act({ type: 'pointer', parameters: { pointerType: 'mouse' }, actions: [move(place)] }); }

  touch(place) {
    const actions = [move(place), { type: 'pointerDown', button: 0 }, { type: 'pointerUp', button: 0 }];
    return this.act({ type: 'pointer', parameters: { pointerType: 'touch' }, actions });
  }

  act(actions) { return this.command('PerformActions', { actions: [{ id: actions.type, ...actions }] }); }

  // As a person does it: the command to refresh asks no service worker.
  reload() { return this.evaluate('void location.reload()'); }

  picture() { return this.command('TakeScreenshot', { full: true }); }
}

const move = ({ x, y }) => ({ type: 'pointerMove', x: Math.round(x), y: Math.round(y) });

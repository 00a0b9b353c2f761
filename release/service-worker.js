// Keeps the page where it is served, so that it opens without a connection. A new version of the page is a new name.
const NAME = 'fitrec-fa4be5d0ac2d3312', FILES = ['fitrec.html', 'manifest.webmanifest', 'icon.svg'];

addEventListener('install', event => {
  event.waitUntil(caches.open(NAME).then(cache => cache.addAll(FILES)).then(() => skipWaiting()));
});

addEventListener('activate', event => {
  const old = async () => (await caches.keys()).filter(it => it.startsWith('fitrec-') && it !== NAME).map(it => caches.delete(it));
  event.waitUntil(old().then(it => Promise.all(it)).then(() => clients.claim()));
});

// The page is the same under every query. Where the folder itself is opened, what a server gives there goes first.
const isFolder = ({ mode, url }) => mode === 'navigate' && url.split(/[?#]/)[0] === registration.scope;

async function answerTo(request) {
  const cache = await caches.open(NAME);
  if (!isFolder(request)) return await cache.match(request, { ignoreSearch: true }) || fetch(request);
  const given = await fetch(request).catch(() => null);
  return given && given.ok ? given : cache.match('fitrec.html');
}

addEventListener('fetch', event => event.respondWith(answerTo(event.request)));

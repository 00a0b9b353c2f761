// What a person chooses, and what is shown of it.

import { ask, drawn, failure, question, saver } from './asking.js';
import { chartsOf, readerOf } from './charts.js';
import { chooserOf, chosen } from './choices.js';
import { clockOf, questionOf } from './clock.js';
import { isDated } from './dates.js';
import { byId, make } from './dom.js';
import { dayText, LANGUAGE, LANGUAGES, measureIn, nameText, speak, SYSTEM, SYSTEMS, text } from './formats.js';
import { lapTable } from './laps.js';
import { filesOf, keep, oneOf, pairsIn, ridesIn, ridesOf, wholesOf } from './picking.js';
import { shortRide } from './rehearsal.js';
import { isOpen, link, offer, tookIt } from './taking.js';
import { copiesAmong, factsIn, headingText, numbersOf, partsAmong, speedOf, told, wordsOf } from './telling.js';
import { placeOn, trackPicture } from './track.js';
import { unpacked } from './unpacking.js';
import { work, workOn } from './waiting.js';
import { zipOf } from './zip.js';

// ---- what was chosen

// Each choice has a number: the answer to an earlier one is not shown. What is shown is kept, to be shown in another language.
let rides = [], current = null, turn = 0, shownAnswer = null, shownNotes = [], others = 0;

// The ride that is shown with the one file that is chosen, if it lacks that; or null.
function completed([ride, ...more]) {
  if (!ride || more.length || !current) return null;
  if (!ride.data && current.data && !current.journal) return { ...current, journal: ride.journal, how: null };
  if (!ride.journal && current.journal && !current.data) return { ...ride, journal: current.journal };
  return null;
}

// A ride that tells nothing of how to read it, as another one of its device tells it; null if that does not either.
async function readLike(ride, { data, name }) {
  const like = { ...ride, like: data, likeName: name, how: null }, { ride: drawn, isUnknown, heading } = await ask(like, []);
  return drawn && drawn.time.length && !isUnknown && heading !== 'otherKind' ? like : null;
}

const together = pair => oneOf(pair, copies => question(saver, { copies }));

// The ride that is shown put together with the one file that is chosen, if both are pieces or copies of one; or null.
async function inOne(found) {
  if (!current || found.length !== 1 || current.halves) return null;
  const { rides: [whole, ...more] } = await wholesOf([current, ...found], [], cuts => question(saver, { cuts }));
  return more.length ? together([current, ...found]) : whole;
}

async function take(files) {
  const mine = ++turn;
  work(true);
  byId('list').hidden = byId('result').hidden = true;
  try {
    const { files: chosen, cut } = await unpacked(await files, () => mine === turn), { rides: given, rest, others: count } = await ridesOf(chosen);
    for (const ride of given) if (mine === turn) await keep(ride);
    const same = await pairsIn(given), isRefused = given.some(it => it.isArchive), copies = same.map(([it]) => it).filter(it => !it.isPart);
    const { rides: found, rest: left } = await wholesOf(given.filter(it => !copies.includes(it)), rest, cuts => question(saver, { cuts }));
    /** @type {Said[]} */
    const notes = isRefused ? [] : cut.map(name => ['archiveCut', { name }]), images = chosen.filter(it => it.isPart).map(it => it.folder);
    for (const it of new Set(images)) notes.push(['onlyWhole', { name: it.slice(0, -1) }]);
    if (same.length > 1) notes.push(['sameFiles', { count: same.length }]);
    else for (const [own, other] of same) notes.push(['sameFile', { name: own.folder + own.name, other: other.folder + other.name }]);
    if (mine !== turn) return;
    const own = completed(found) || await inOne(found), isHelp = !own && current && current.isUnknown && found.length === 1 && found[0].data;
    const whole = isHelp ? await readLike(current, found[0]) : own;
    if (mine !== turn) return;
    if (whole) {
      rides = rides.map(it => it === current ? whole : it);
      return await choose(whole);
    }
    if (isHelp) notes.push(['likeNot', { name: current.name, like: found[0].name }]);
    if (found.length === 1) found[0].said = notes;
    rides = found;
    [shownNotes, others] = [notes, Math.max(0, count - rest.length + left.length)];
    await (rides.length > 1 ? presentAll(mine) : choose(rides[0] || null));
  } catch (error) {
    if (mine !== turn) return;
    rides = [];
    current = null;
    present(failure([error instanceof RangeError ? 'tooLarge' : 'unread']));
    work(false);
  }
}

// A ride that is shown again is as it was made last.
async function choose(ride, how = ride && ride.how || [], seconds = ride && ride.seconds || 0) {
  const mine = ++turn;
  current = ride;
  work(true);
  const answer = ride ? await ask(ride, how, seconds) : failure(['noFile']);
  if (mine !== turn) return;
  if (answer.parts) {
    rides = ridesIn(ride, answer.parts);
    [shownNotes, others] = [[], 0];
    return presentAll(mine);
  }
  const isNew = ride && (how !== ride.how || seconds !== ride.seconds);
  if (ride) note(ride, how, answer);
  if (isNew && rides.length > 1) await list();
  if (mine !== turn) return;
  present(answer, how);
  work(false);
}

// Whether the times of a file that is whole are wrong.
const isWholeOff = ({ heading, ride }, clock) => heading === 'whole' && (clock && clock.isWrong || ride && ride.back !== null);

// What the list says of a ride, and by which offers it was made, with its times moved by how many seconds.
function note(ride, how, answer) {
  const { heading, file, seconds = 0, isUnknown } = answer, facts = factsIn(answer);
  name(ride, answer, facts.of.start);
  Object.assign(ride, { how, seconds, heading, file, isUnknown, words: wordsOf(answer.ride), facts,
    isOff: isWholeOff(answer, clockOf(answer, facts)), times: answer.ride && heading !== 'whole' ? answer.ride.time : undefined,
    id: answer.ride && answer.ride.id, from: answer.ride && answer.ride.distance.find(it => it >= 0), isTaken: false, isDownloaded: false });
}

// The name of a new file: by the day on which the activity began, where the browser is.
function name(ride, answer, start) {
  const original = ride.name.replace(/\.[^.]*$/, ''), isDay = isDated(start) && answer.heading !== 'otherKind';
  const base = isDay ? `${dayText(start)}-${wordsOf(answer.ride)}` : answer.file ? original + '-rescued' : original;
  const taken = rides.filter(it => it !== ride && it.file && !(ride.halves || []).includes(it)).map(it => it.saved);
  ride.saved = base + '.fit';
  for (let count = 2; answer.file && taken.includes(ride.saved); count++) ride.saved = `${base}-${count}.fit`;
  answer.name = ride.saved;
}

// ---- several rides

// So many of them are asked how to read another.
const HELPERS = 3;

async function presentAll(mine) {
  current = null;
  for (let i = 0; i < rides.length; i++) {
    const ride = rides[i];
    workOn(' ' + text('ofMany', { n: i + 1, all: rides.length }));
    const answer = await ask(ride, []);
    if (mine !== turn) return;
    if (answer.parts) {
      rides.splice(i--, 1, ...ridesIn(ride, answer.parts));
      continue;
    }
    note(ride, [], answer);
  }
  // Copies that are damaged are put together, where none is whole.
  for (let i = 0; i < rides.length; i++) for (let k = i + 1; k < rides.length; k++) {
    const isThere = rides.some(it => it.heading === 'whole' && it.id && it.id === rides[i].id), own = isThere ? null : await together([rides[i], rides[k]]);
    if (mine !== turn) return;
    if (!own) continue;
    rides.splice(k--, 1);
    rides[i] = own;
    note(own, [], await ask(own, []));
    if (mine !== turn) return;
  }
  // Others of the same choice may tell how to read those that do not.
  for (const ride of rides.filter(it => it.isUnknown)) {
    const helpers = rides.filter(it => it !== ride && !it.isUnknown && it.facts.added.records > 0);
    const isWhole = it => it.heading === 'whole' ? 1 : 0;
    for (const other of helpers.sort((a, b) => isWhole(b) - isWhole(a)).slice(0, HELPERS)) {
      const like = await readLike(ride, other);
      if (mine !== turn) return;
      if (!like) continue;
      const answer = await ask(like, []);
      if (mine !== turn) return;
      rides[rides.indexOf(ride)] = like;
      note(like, [], answer);
      break;
    }
  }
  const copies = copiesAmong(rides);
  rides = rides.filter(it => !copies.some(([copy]) => copy === it));
  const noteOf = (key, [own, other, ms]) => [key, { name: own.folder + own.name, other: other.folder + other.name, length: { ms } }];
  const poorer = copies.filter(([,, ms]) => !ms);
  if (poorer.length > 1) shownNotes.push(['sameFiles', { count: poorer.length }]);
  else shownNotes.push(...poorer.map(it => noteOf('sameRide', it)));
  for (const it of copies) if (it[2]) shownNotes.push(noteOf('sameMore', it));
  if (rides.length === 1) {
    rides[0].said = shownNotes;
    return choose(rides[0]);
  }
  await list();
  if (mine !== turn) return;
  byId('list').focus();
  workOn('');
  work(false);
}

// Shows what there is of each ride, and the files of all that are made.
async function list() {
  const mine = turn, made = rides.filter(it => it.file), count = made.length;
  const zip = count > 1 ? await zipOf(made.map(it => ({ name: it.saved, file: it.file }))) : null;
  if (mine !== turn) return;
  const file = zip || (count ? made[0].file : null), called = zip ? 'activities.zip' : count ? made[0].saved : '';
  link(byId('saveAll'), file, called, '');
  labelAll = [zip ? 'downloadAll' : 'download', { count, name: called }];
  showList();
  byId('saveAll').onclick = () => made.forEach(it => tookIt(it));
  byId('list').hidden = false;
}

// Offers to join the files of what look like parts of one activity.
function offerToJoin() {
  byId('halves').replaceChildren(...partsAmong(rides).flatMap(halves => {
    const name = halves.map(it => it.name).join(' + '), button = make('button', { type: 'button' }, text('joinThem'));
    button.addEventListener('click', () => choose({ name, folder: '', halves }));
    return [make('p', {}, text('halves', { names: halves.map(it => it.name).join(', ') })), make('p', { className: 'buttons' }, button)];
  }));
}

let labelAll = null;

function showList() {
  byId('saveAll').textContent = text(...labelAll);
  const of = isOne => rides.filter(isOne).length, off = of(it => it.isOff), whole = of(it => it.heading === 'whole') - off;
  const other = of(it => it.heading === 'otherKind');
  const made = of(it => it.file && !['whole', 'otherKind'].includes(it.heading)), all = rides.length - other, left = others + other;
  const each = [['rescuedCount', made], ['wholeCount', whole], ['offCount', off], ['restCount', all - whole - off - made]];
  const counts = each.filter(([, count]) => count);
  byId('listHeading').textContent = text('listTitle', { all, counts: counts.map(([key, count]) => [key, { count }]) });
  const notes = left ? [...shownNotes, [left === 1 ? 'otherFile' : 'otherFiles', { count: left }]] : shownNotes;
  byId('listNote').textContent = notes.map(it => text(...it)).join(' ');
  offerToJoin();
  byId('rides').replaceChildren(make('thead', {}, make('tr', {}, ...['file', 'start', 'duration', 'distance', 'state', 'action'].map(it =>
    make('th', { scope: 'col' }, text(it))))), make('tbody', {}, ...rides.map(rowOf)));
}

function rowOf(ride) {
  const { heading, words, facts, isOff } = ride, numbers = numbersOf(facts);
  const show = make('button', { type: 'button', 'aria-label': text('show') + ' ' + ride.folder + ride.name }, text('show'));
  show.addEventListener('click', () => choose(ride));
  return make('tr', {}, make('th', { scope: 'row' }, ride.folder + ride.name),
    ...['start', 'duration', 'distance'].map(it => make('td', {}, numbers[it] ? numbers[it].shown : '')),
    make('td', {}, headingText(isOff ? 'wholeOff' : heading, words)), make('td', {}, show));
}

// ---- one ride

function present(answer, how = [], isAgain = false) {
  const { reasons, details, next, offers, file, ride } = answer, sentence = ([key, values]) => text(key, values), facts = factsIn(answer);
  const clock = clockOf(answer, facts), isOff = clock && clock.isWrong && !answer.seconds, isWrong = isWholeOff(answer, clock);
  shownAnswer = { answer, how };
  byId('heading').textContent = headingText(isWrong ? 'wholeOff' : answer.heading, wordsOf(ride));
  const which = rides.length > 1 && current ? make('p', {}, make('strong', {}, current.folder + current.name)) : '';
  const untimed = ride && ride.isUntimed ? [['untimed']] : [];
  // Where its times are wrong, neither is it fine, nor do they tell when samples are missing.
  const said = told([...reasons, ...untimed], ride).filter(([key]) => !isWrong || !['wholeWhy', 'noSamples'].includes(key));
  const [lead, ...more] = said.map(sentence);
  byId('reason').replaceChildren(which, make('p', { className: 'lead' }, lead || ''), make('p', { className: 'more' }, more.join(' ')));
  byId('next').replaceChildren(...[...next, ...current && current.said || []].map(it => make('p', {}, sentence(it))));
  byId('offers').replaceChildren(...offers.filter(it => it !== 'bare').map(it => offerOf(it, how)));
  byId('rarely').replaceChildren(...offers.filter(it => it === 'bare').map(it => offerOf(it, how)));
  byId('details').replaceChildren(...details.map(it => make('li', {}, sentence(it))));
  byId('repairer').hidden = !details.length;
  const numbers = ride ? numbersOf(facts) : {};
  if (isOff) numbers.start.shown = text('unknown');
  byId('numbers').replaceChildren(...Object.entries(numbers).map(pair));
  showClock(answer, clock, how);
  // No website takes a file without its date.
  byId('where').textContent = file && answer.isWhole && !isOff ? text('where') : '';
  byId('where').hidden = !byId('where').textContent;
  offer(answer, current);
  byId('result').hidden = false;
  draw(ride, facts.isPaused ? null : speedOf(facts.of));
  if (!isAgain) byId('result').focus();
}

// When it began is asked first where its clock was wrong, and else in a fold.
function showClock(answer, clock, how) {
  const ride = current, isAsked = clock && clock.isWrong;
  const forms = clock ? [questionOf(clock, answer, seconds => choose(ride, how, seconds))] : [];
  byId('asked').replaceChildren(...isAsked ? forms : []);
  byId('mayAsk').replaceChildren(...isAsked ? [] : forms);
  byId('clock').hidden = isAsked || !clock;
}

// The line under the speeds has the average that stands among the numbers.
function draw(ride, average) {
  const pictures = byId('pictures'), track = ride && ride.track, speed = ride && ride.series.find(it => it.name === 'speed');
  if (speed && average) speed.average = average;
  if (track) {
    track.startAt = placeOn(track, ride.lat[track.first], ride.long[track.first]);
    track.finishAt = placeOn(track, ride.lat[track.finish], ride.long[track.finish]);
  }
  const charts = ride ? chartsOf(ride) : [];
  const curves = charts.length ? [make('div', { className: 'charts' }, ...charts)] : [];
  pictures.replaceChildren(...(track ? [trackPicture(track)] : []), ...curves);
  pictures.classList.toggle('both', Boolean(track && charts.length));
  const reader = ride && pictures.children.length ? readerOf(ride, pictures) : null;
  if (reader) pictures.prepend(reader);
  byId('laps').replaceChildren(...(ride && ride.laps.count ? lapTable(ride.laps) : []));
}

function offerOf(offer, how) {
  const made = make('button', { type: 'button', className: 'button second' }, text('offer_' + offer)), ride = current;
  made.addEventListener('click', () => choose(ride, offer === 'back' ? how.slice(0, -1) : [...how, offer]));
  return made;
}

function pair([key, { shown, other }]) {
  return make('div', {}, make('dt', {}, nameText(key)), make('dd', {}, shown), other ? make('dd', { className: 'other' }, other) : null);
}

// ---- the page

const isTouched = () => matchMedia('(pointer: coarse)').matches;

// All that is there, in the language and the units that are chosen.
function showAgain() {
  document.documentElement.lang = LANGUAGE;
  document.title = text('title');
  for (const it of document.querySelectorAll('[data-text]')) it.textContent = text(it.dataset.text);
  for (const it of document.querySelectorAll('[data-label]')) it.ariaLabel = text(it.dataset.label);
  byId('hint').textContent = text(isTouched() ? 'hintTap' : 'hint');
  if (!byId('list').hidden) showList();
  if (!byId('result').hidden) present(shownAnswer.answer, shownAnswer.how, true);
}

// A short ride is saved and drawn unseen: then what a long one needs is compiled before one is chosen.
function rehearse() {
  const [data, journal] = shortRide();
  question(saver, { ride: { data, journal }, how: [] });
  drawn([new Blob([data]), new Blob([journal])]).then(chartsOf);
}

function begin() {
  const [language, units] = [chosen('language'), chosen('units')];
  speak(language in LANGUAGES ? language : null);
  if (units in SYSTEMS) measureIn(units);
  chooserOf(byId('language'), LANGUAGES, LANGUAGE, it => { speak(it); showAgain(); });
  chooserOf(byId('units'), SYSTEMS, SYSTEM, it => { measureIn(it); showAgain(); });
  showAgain();
  for (const it of document.querySelectorAll('[for=folder], #folder')) it.hidden = isTouched() || !('webkitdirectory' in byId('folder'));
  for (const id of ['files', 'folder']) byId(id).addEventListener('change', async ({ target }) => {
    await take(filesOf(target));
    target.value = '';
  });
  byId('drop').addEventListener('submit', event => event.preventDefault());
  for (const kind of ['dragover', 'dragleave', 'drop']) {
    addEventListener(kind, event => {
      event.preventDefault();
      byId('over').hidden = kind !== 'dragover';
      if (kind === 'drop') take(filesOf(event.dataTransfer));
    });
  }
  addEventListener('beforeunload', event => { if (rides.some(isOpen)) event.preventDefault(); });
  if (window.fitrec.isServed && navigator.serviceWorker) navigator.serviceWorker.register('service-worker.js').catch(() => {});
  rehearse();
}

begin();

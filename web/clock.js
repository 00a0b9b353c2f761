// The question when a ride began, and the moving of all its times by the answer.

import { EARLIEST, isReset, timeIn } from './dates.js';
import { make } from './dom.js';
import { dateText, fieldText, isOff, latest, text } from './formats.js';
import { headingText, wordsOf } from './telling.js';

// What the clock said at the start, before anything was moved, and whether that cannot be: then at the end too, since a clock that is set on
// the way is right from there on.
/** @param {Answer} answer @param {Facts} facts @returns {{ said: number, isWrong: boolean } | null} */
export function clockOf({ heading, seconds = 0, ride }, { of: { start } }) {
  if (!ride || ride.isUntimed || heading === 'otherKind' || !(start >= 0)) return null;
  const { time } = ride, said = start - seconds;
  return { said, isWrong: isOff(said) && (!time.length || isOff(time[time.length - 1] - seconds)) };
}

// The question. A clock that began anew says nothing, so its field is empty. `move` takes by how many seconds all times are moved.
/** @param {{ said: number, isWrong: boolean }} clock @param {Answer} answer @param {(seconds: number) => void} move */
export function questionOf({ said, isWrong }, { seconds = 0, ride, isUndated }, move) {
  const isPart = ride.missing.some(it => it && it.from === null), isLost = isUndated && !seconds;
  const begin = said + seconds, value = isReset(begin) ? '' : fieldText(begin), step = value ? 1 : 60, isAsked = isWrong && !seconds;
  const field = make('input', { id: 'began', type: 'datetime-local', required: true, min: EARLIEST, max: latest(), step, value });
  const why = isWrong && (isLost || !isUndated) ? make('p', { id: 'beganWhy' }, isLost ? text('dateLost') : text('clockWrong', { date: dateText(said) })) : null;
  const answer = make('button', { id: 'moveTimes', className: isAsked ? '' : 'second' }, text('moveTimes'));
  const back = make('button', { type: 'button', id: 'keepTimes', className: 'second', hidden: !seconds }, text('offer_times'));
  const form = make('form', { className: 'clock' }, why, make('label', { htmlFor: 'began' }, isPart ? text('beganPart') : headingText('began', wordsOf(ride))),
    make('p', { className: 'buttons' }, field, answer, back));
  if (why) field.setAttribute('aria-describedby', why.id);
  back.addEventListener('click', () => move(0));
  form.addEventListener('submit', event => {
    event.preventDefault();
    move(timeIn(field.value) - said);
  });
  return form;
}

// What times say: seconds since 1989-12-31 00:00 UTC.

export const EPOCH = 631065600, FIRST_DATE = 0x10000000;

// A time is a date from FIRST_DATE on, and below counts from when the device was switched on.
/** @type {(t: number) => boolean} */
export const isDated = t => t >= FIRST_DATE && t < 0xFFFFFFFF;
/** @type {(t: number) => Date} */
export const dateOf = t => new Date((t + EPOCH) * 1000);

// The time of what a field for a time has, in the browser's zone, and the first that it takes.
/** @type {(value: string) => number} */
export const timeIn = value => new Date(value).getTime() / 1000 - EPOCH;
export const EARLIEST = '2000-01-01T00:00';

// Whether a clock that says this began anew: many do so on the first of January of an early year.
/** @type {(t: number) => boolean} */
export const isReset = t => t < timeIn(EARLIEST) || /^20(0.|1[01])-01-01/.test(dateOf(t).toISOString());

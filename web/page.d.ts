// What the modules of the page give each other. Times are seconds since 1989-12-31 00:00 UTC, lengths of time milliseconds, distances
// centimetres.

// What start.js gives the page: the source of its workers, the module of the library, and whether the page is served.
interface Window { fitrec: { worker: string, module: Promise<ArrayBuffer>, isServed: boolean } }

interface Float64Array { findLastIndex(holds: (n: number, k: number) => boolean): number }
interface Uint8Array { findLastIndex(holds: (n: number, k: number) => boolean): number }

declare class DecompressionStream { constructor(format: string); readable: ReadableStream<Uint8Array>; writable: WritableStream<any> }

// A file that was chosen, or came out of an archive or, as a part, out of an image; or one of those that is refused by its name.
interface Chosen { file: File, folder: string, isArchive?: boolean, isPart?: boolean }

// The files of a ride, and another one of its device that tells how to read them; what was made of it last, by which offers, and by how many
// seconds its times are moved; what is said of the choice, the names of the pieces that it was cut into, or of its copies, and what its file_id states.
interface Files { data?: Blob, journal?: File, name: string, folder: string, isArchive?: boolean, isPart?: boolean,
  how?: string[], seconds?: number, heading?: string, file?: Blob, saved?: string, words?: string, facts?: Facts, isTaken?: boolean,
  isDownloaded?: boolean, isUnknown?: boolean, like?: Blob, likeName?: string, said?: Said[], halves?: Files[], pieces?: string[], isCopies?: boolean,
  id?: string, from?: number, times?: Float64Array, isOff?: boolean }

// What a worker is given of them.
interface Given { data?: Uint8Array, journal?: Uint8Array, name?: string, journalName?: string, isPart?: boolean, unread?: number, isTorn?: boolean, undone?: string, isMended?: boolean, seconds?: number,
  confirmed?: number, like?: Uint8Array, likeName?: string, parts?: Uint8Array[], pieces?: string[], isCopies?: boolean }

// A text by its key, and what is filled in.
type Said = [key: string, values?: Record<string, any>];

interface Summary { records: number | null, laps: number | null, sessions: number | null, start: number | null, elapsed: number | null,
  timer: number | null, distance: number | null }

// A definition of messages: the number of their kind, whether numbers begin with their high byte, where their fields of 32 bits stand, their
// size, and its own bytes. And a data message, and a part of a file that is kept or left out.
interface Definition { number: number, isBig: boolean, places: number[], size: number, bytes: Uint8Array }
interface Piece { start: number, end: number, kept: boolean }
interface Message { start: number, end: number, local: number, definition: Definition, offset: number | null }

// A file whose times are moved by so many seconds, if they are, and what is said of that.
interface Moved { file: Uint8Array, set?: { isOpen: boolean } | null, isPlaced?: boolean, seconds?: number, reasons: any[], details: any[] }

// A place in a new file where something of the old one is left out: how many samples stand before it and about how many were in it, if they
// were counted, and whether a time in the short form follows, and is guessed. The part of the old one goes from `start` to `end`. At the end
// of the file `unread` is how much of it cannot be read, from 0 to 1, and `part` how much of it the part is.
interface Gap { at: number, start: number, end: number, size: number, isLast: boolean, isShort?: boolean, isGuessed?: boolean, before?: number,
  samples?: number, unread?: number, part?: number }

// What is said of a ride, its new file or the file that is shown, by how many seconds its times are moved, or the files that are chained in
// it. The device has written the first `ownLaps` of its laps, or all. `isUnknown` says that nothing in it tells how to read its samples, and `rest` where the clock went back, and what is in force there.
interface Answer { heading?: string, reasons?: Said[], details?: Said[], next?: Said[], offers?: string[], file?: any, shown?: any,
  seconds?: number, parts?: Uint8Array[], summary?: Summary, gaps?: Gap[], isWhole?: boolean, isSaved?: boolean, isOurs?: boolean, ownLaps?: number, isCut?: boolean,
  name?: string, ride?: Drawn, isUnknown?: boolean, isUndated?: boolean, isByUs?: boolean, isConfirmed?: boolean,
  rest?: { start: number, definitions: Uint8Array } }

// Samples that count as one: the first of them, their least and greatest value, and the sum of values by their seconds.
interface Part { first?: number, low: number, high: number, sum: number, seconds: number }

interface Curve { line: string, bars: string, low: number, high: number, lines: number[] }

interface Series { name: string, values: Float64Array, low: number, average: number, high: number, from: number, to: number, least: number,
  faults: number, inMotion: number | null, mean: number | null, parts?: Part[], breaks?: number[], curve?: Curve | null }

interface Laps { count: number, isOpen: boolean, isLong?: boolean, number?: Float64Array, start?: Float64Array, timer?: Float64Array, distance?: Float64Array,
  heartAverage?: Float64Array, heartGreatest?: Float64Array, powerAverage?: Float64Array }

// A picture of a track, how many places are far from all others, and how far at most, and what leads from degrees to a place in it.
interface Frame { width: number, height: number, scale: number, narrow: number, middleX: number, middleY: number }
interface Track extends Frame { count: number, faults: number, stray: { count: number, cm: number }, first: number, finish: number, metres: number, startAt?: number[],
  finishAt?: number[],
  paths: { name: string, from?: number, to?: number, paths: string[] }[] }

// What the page shows of a ride.
interface Drawn { time: Float64Array, lat: Float64Array, long: Float64Array, distance: Float64Array, series: Series[], laps: Laps,
  track?: Track | null, sport?: number, isUntimed: boolean, missing: (Missing | null)[], silent: number[][],
  uncounted: { from: { time: number }, length: { ms: number, cm: number } }[], added: Partial<Summary>,
  ascent: number | null, sums: Partial<Summary> & { ascent?: number }, pauses: number[][], breaks?: number[],
  lost: { laps: number, kinds: string[] }, back: number | null, id: string }

// What is missing, in which a pause may be, or was for so many milliseconds; how long the bytes that are left out tell that it was; and how much of the file they are at its
// end.
interface Missing { from: number | null, to: number | null, ms: number | null, cm: number | null, isAbout: boolean, about: number,
  isPaused?: boolean, paused?: number, unread?: number }

// What a ride adds up to, by its samples and by its sessions, and whether a pause may be missing that nobody counted.
interface Facts { of: any, added: Partial<Summary>, sums: Partial<Summary> & { ascent?: number }, ascent?: number | null, laps: number,
  isPaused?: boolean, isOurs?: boolean }

interface Shown { shown: string, other: string }

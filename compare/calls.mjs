#!/usr/bin/env node
// Calls web/fitrec.mjs for compare/page.py: reads a list of calls from standard input, each a name, paths of files and other arguments, and
// writes what each answers. The module's path is in FITREC_MODULE. Bytes are written as hexadecimal digits, what is refused as its kind and
// place.

import { readFileSync } from 'node:fs';
import { open } from '../web/fitrec.mjs';

const fitrec = await open(readFileSync(process.env.FITREC_MODULE));

function shown(answer) {
  if (answer instanceof Uint8Array) return Buffer.from(answer).toString('hex');
  if (answer instanceof Float64Array) return [...answer].map(n => Number.isNaN(n) ? null : n);
  if (Array.isArray(answer)) return answer.map(shown);
  if (answer && typeof answer === 'object') return Object.fromEntries(Object.entries(answer).map(([key, value]) => [key, shown(value)]));
  return answer;
}

const answers = [];
for (const { name, files, more = [] } of JSON.parse(readFileSync(0, 'utf8'))) {
  const contents = files.map(it => new Uint8Array(readFileSync(it)));
  try {
    answers.push(shown(await fitrec[name](...(name === 'join' ? [contents] : contents), ...more)));
  } catch ({ kind, place, message }) {
    answers.push(kind ? { kind, place } : { message });
  }
}
process.stdout.write(JSON.stringify(answers));

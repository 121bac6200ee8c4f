/* Compares the program in a page with the native one: the same standard output, standard error and status.
 *
 *     tests/verdicts.mjs PAGE PROGRAM FOLDER
 *
 * FOLDER has the files that the command lines read, and these, in cases.json. The last line is `N passed, M failed`. */
import {spawnSync} from 'node:child_process';
import fs from 'node:fs';
import path from 'node:path';
import {performance} from 'node:perf_hooks';

import {Browser, Count, urlOf} from './browser.mjs';

const MOST_OUTPUT = 2 ** 30;
const LIMIT = 2 ** 31; /* bytes: more than any of them needs */

const [file, program, folder] = process.argv.slice(2);
const cases = JSON.parse(fs.readFileSync(path.join(folder, 'cases.json'), 'utf8'));
const count = new Count(), times = {
  native: 0,
  web: 0,
  memory: 0
};

function native({words, stdin}) {
  const began = performance.now();
  const done = spawnSync(program, words, {cwd: folder, input: stdin ?? '', maxBuffer: MOST_OUTPUT, encoding: 'utf8'});
  times.native += performance.now() - began;
  return {status: done.status, out: done.stdout, err: done.stderr};
}

/* The files that a command line names, or that it would read if they were there. */
function filesOf(words) {
  const named = words.filter(word => word !== 'cases.json' && fs.existsSync(path.join(folder, word)));
  return Object.fromEntries(named.map(name => [name, fs.readFileSync(path.join(folder, name), 'utf8')]));
}

async function inPage(page, {words, stdin}) {
  const answer = await page.call(`request => lanes.slow.ask('test', request).catch(error => ({ failure: String(error) }))`,
      {words, files: filesOf(words), input: stdin ?? '', limit: LIMIT});
  times.web += answer.ms ?? 0;
  times.memory = Math.max(times.memory, answer.bytes ?? 0);
  return answer.failure ? answer : {status: answer.status, out: answer.out, err: answer.err};
}

/* Long texts aren't printed. */
const short = it => JSON.stringify(it).slice(0, 400);

const browser = new Browser();
try {
  const page = await browser.open();
  await page.go(urlOf(file));
  await page.until(`lanes.slow && $('starting').hidden`);
  for (const it of cases) {
    const [wanted, found] = [native(it), await inPage(page, it)];
    const isSame = JSON.stringify(wanted) === JSON.stringify(found);
    count.holds(`diacmd ${it.words.join(' ')}`, isSame, isSame ? 'same' : `${short(found)}, and not ${short(wanted)}`);
  }
} finally {
  await browser.close();
}
console.log(`${cases.length} runs: native ${Math.round(times.native)} ms, with its processes; in the page ${
    Math.round(times.web)} ms, ${(times.memory / 2 ** 20).toFixed(1)} MiB at most`);
count.end();

/* Uses the page as a person does: mouse, keys, pasted texts.
 *
 *     tests/page.mjs PAGE PROGRAM FOLDER [PICTURE]
 *
 * PROGRAM is the native one, FOLDER has stack.wasm, a module whose stack overflows, and cases/long.hex, a message of 16 MB. PICTURE is
 * written, as the README has it. The last line is `N passed, M failed`. */
import {spawnSync} from 'node:child_process';
import fs from 'node:fs';
import path from 'node:path';
import {setTimeout as sleep} from 'node:timers/promises';
import {fileURLToPath} from 'node:url';

import {Browser, Count, urlOf} from './browser.mjs';

const [file, program, folder, picture] = process.argv.slice(2);
const TOP = fileURLToPath(new URL('../..', import.meta.url));
const CONTROL = 2; /* the modifier of a key */
const RUNS = 60;   /* enough to see memory that grows with each run */
const EIGHT = [
  'Usage-Request: too-many Report: 0..* sent, 0..4 accepted', 'Usage-Request: format Kind: 3 sent, not in the list',
  'Usage-Request/Report: missing Started: 0..1 sent, 1 accepted',
  'Usage-Request/Report: m-bit Started: M clear sent, M set accepted',
  'Usage-Request/Report: format Volume: Unsigned32 sent, Unsigned64 accepted',
  'Usage-Answer: unknown Zone: M set sent, not known', 'Drop-Request: application 16777300: not accepted',
  'Drop-Request[application 16777301]: missing Price: 0..1 sent, 1 accepted'
];
/* UPGRADING.md, main.txt to next.txt */
const REPORTS = `010000608000012e000000000000000100000002000001074000000b613b3100
0000232a8000001000007ed9000000010000232a8000001000007ed900000002
0000232a8000001000007ed9000000030000232a8000001000007ed900000004
`;
/* README.md, usage.hex */

const count = new Count();
const browser = new Browser();
let page;

/* Waits until nothing runs or waits, twice: an answer may lead to the next question. */
async function settled() {
  for (let i = 0; i < 2; i++) {
    await sleep(80);
    await page.until(`delayed === 0 && $('cancel').hidden && lanes.slow.isIdle && lanes.quick.isIdle`, 120000);
  }
}

/* Types a text in place of another; the focus then leaves the field. */
async function put(selector, text) {
  await page.click(selector);
  await page.key('a', {code: 'KeyA', virtual: 65, modifiers: CONTROL});
  if (text) await page.type(text);
  else await page.key('Delete', {virtual: 46});
  await settled();
}

async function putAndLeave(selector, text) {
  await put(selector, text);
  await page.key('Tab', {virtual: 9});
  await settled();
}

async function example(name) {
  await page.call('openExample', name);
  await settled();
}

async function choose(id, value) {
  await page.eval(`$('${id}').value = ${JSON.stringify(value)}, $('${id}').dispatchEvent(new Event('change')), 0`);
  await settled();
}

async function click(selector) {
  await page.click(selector);
  await settled();
}

const breakLines = () => page.eval(`[...document.querySelectorAll('#lines .row')].map(it => it.title)`);
const value = id => page.eval(`$('${id}').value`);

async function theStart() {
  const began = Date.now();
  await page.go(urlOf(file));
  count.holds('it says that it starts',
      await page.eval(`!$('starting').hidden && document.querySelector('main').inert && $('lines').childElementCount === 0`));
  await page.until(`document.querySelector('#lines .row')`);
  console.log(`from the load to the first answer: ${Date.now() - began} ms`);
  await settled();
  count.is('the start is over', [true, false], await page.eval(`[$('starting').hidden, document.querySelector('main').inert]`));
}

async function whatBreaks() {
  count.is('the lines', EIGHT, await breakLines());
  await click('#lines-2');
  const why = await page.texts('#line-detail .why');
  count.holds('the fault is marked', why.some(it => it.includes('5005 missing Started')), why);
  count.is('both declarations', ['[ Started ]', '{ Started }'], await page.texts('#line-detail .card .shown'));
  count.is('the rule in B is shown', ['{ Started }'], await page.texts('#pane-b .shown'));
  if (picture) {
    await page.eval(`document.activeElement.blur()`);
    await page.picture(picture);
  }
  await page.click('#lines-2');
  await page.key('ArrowDown', {virtual: 40});
  count.is('a key chooses the next line', 'true', await page.eval(`$('lines-3').getAttribute('aria-selected')`));
  await settled();
  await page.key('/', {code: 'Slash', virtual: 191});
  count.is('a key goes to the filter', 'filter', await page.eval('document.activeElement.id'));
  await page.type('volume');
  await settled();
  await page.key('Enter', {virtual: 13});
  await settled();
  count.is('the filter', [EIGHT[4]], await breakLines());
  count.is('the bytes of a fault of data', 4, (await page.texts('#line-detail .hex .x')).length);
  await page.eval(`$('filter').value = '', drawBreaks()`);
  await click('#meaning');
  count.holds('other meaning', (await page.texts('#lines .group')).some(it => it.includes('Unsigned32 sent, Float32 read')));
  await click('#meaning');
}

async function commandsAndAccepted() {
  await putAndLeave('#commands', 'Drop-Request');
  count.is('of one command', EIGHT.slice(6), await breakLines());
  await putAndLeave('#commands', 'Nothing');
  count.holds('an unknown command', (await page.texts('#lines .empty'))[0].includes('A has no command Nothing'));
  await putAndLeave('#commands', '');
  await click('#lines-0');
  await click('#line-detail .tools button');
  count.is('an accepted line is gone', EIGHT.slice(1), await breakLines());
  count.is('it is in the list', `${EIGHT[0]}\n`, await value('accepted'));
  count.is('it is counted', 'Accepted lines: 1 accepted', (await page.texts('#accepted-counts'))[0]);
  await put('#accepted', `${EIGHT[0]}\nUsage-Request: missing Other: 0..1 sent, 1 accepted\n`);
  count.holds('a stale entry', (await page.texts('#lines .row')).some(it => it.startsWith('stale Usage-Request: missing Other')));
  await put('#accepted', 'no entry');
  count.holds('a text that is no list', (await page.texts('#lines .empty'))[0].includes('syntax at line 1'));
  await put('#accepted', `${EIGHT.join('\n')}\n`);
  count.holds('nothing else breaks', (await page.texts('#lines .empty'))[0].includes('Nothing else breaks'));
  await click('#swap');
  count.is('each direction has its list', '', await value('accepted'));
  await click('#swap');
  count.is('and it is back', EIGHT.length + 1, (await value('accepted')).split('\n').length);
  await page.eval(`setAccepted(''), ask()`);
  await settled();
}

async function textsAndUndo() {
  const before = await page.eval('panes.b.text');
  await put('#pane-b textarea', '%avp Session-Id 263 UTF8String must\n%avp Kind 9002 vendor 32473 Unsigned23 any\n');
  count.is('a fault is underlined', ['Unsigned23'], await page.texts('#pane-b .underlined'));
  count.holds('and explained', (await page.texts('#pane-b .pane-note'))[0].includes('B:2:29'));
  count.holds('no answer looks like one', (await page.texts('#lines'))[0].startsWith('B is no dictionary'),
      (await page.texts('#lines'))[0]);
  await click('#pane-b .pane-note button');
  count.is('a click goes to it', true,
      await page.eval(`document.activeElement === panes.b.area && panes.b.area.selectionStart === 64`));
  await page.key('z', {code: 'KeyZ', virtual: 90, modifiers: CONTROL});
  await settled();
  count.is('undo of a text', before, await page.eval('panes.b.text'));
  await page.eval(`panes.b.choose('gx.txt')`);
  await settled();
  count.is('a dictionary of several files', 8, (await page.texts('#pane-b .file')).length);
  count.is('a place in a file', 'ts29212.txt:1', await page.eval(`panes.b.placeOf(panes.b.lineOf(panes.b.parts[7].from))`));
  await click('#pane-b .file:nth-child(2) button:nth-child(2)');
  count.is('a file is removed', 7, (await page.texts('#pane-b .file')).length);
  await page.eval(`panes.b.setParts([...panes.b.withoutPart(-1), { name: 'own.txt', text: '; own' }])`);
  await settled();
  count.is('a file is added', 'own.txt', await page.eval(`panes.b.parts.at(-1).name`));
  for (let i = 0; i < 3; i++) await click('#pane-b .pane-bar button:last-child');
  count.is('undo of the files and the choice', [before, 'next.txt'], await page.eval(`[panes.b.text, panes.b.choice.value]`));
  await page.key('y', {code: 'KeyY', virtual: 89, modifiers: CONTROL});
  await page.eval(`panes.b.redo()`);
  count.is('redo', 'gx.txt', await page.eval('panes.b.choice.value'));
  await page.eval(`panes.b.undo()`);
  await settled();
}

async function messages() {
  await example('At most three reports');
  await click('#tab-check');
  count.is('one message of three lines', REPORTS, await value('message'));
  count.holds('both verdicts',
      /^ *1 +A valid Usage +B fault 5009 at 80 too-many Usage-Report/.test((await page.texts('#verdicts .row'))[0]),
      (await page.texts('#verdicts .row'))[0]);
  count.is('the bytes of the fault', 16, (await page.texts('#message-detail .hex .x')).length);
  await click('#message-detail .tools button:nth-child(2)');
  count.holds('as text', (await page.texts('#message-detail pre')).some(it => it.startsWith('Usage hop 1 end 2')));
  await put('#message', 'Usage hop 1 end 2\nSession-Id "a;1"\nUsage-Report 7\n');
  count.holds('a text is a message', /A valid Usage/.test((await page.texts('#verdicts .row'))[0]));
  await put('#message', 'Usage hop 1 end 2\nUsage-Reports 7\n');
  count.holds('a wrong text is explained', (await page.texts('#message-fault'))[0].includes('Usage-Reports'));
  count.is('and has no verdict', 0, (await page.texts('#verdicts .row')).length);
  await example('A message of S6a, as text');
  count.holds('valid under S6a', /A valid Update-Location-Request/.test((await page.texts('#verdicts .row'))[0]));
  await example('An upgrade with eight breaks');
  await click('#tab-check');
  await click('#message-example');
  count.is('a message of each command', 3, (await page.texts('#verdicts .row')).length);
}

/* A message of 16 MB, of AVPs without data. */
async function longMessage() {
  const file = path.join(folder, 'cases/long.hex'), avp = '0001869f8000000c00007ed9';
  const wanted = spawnSync(program, ['check', '--lines', '@base', file], {encoding: 'utf8'}).stdout;
  const times = (fs.statSync(file).size - 40) / avp.length, head = fs.readFileSync(file, 'latin1').slice(0, 40);
  const answer = await page.eval(
      `lanes.quick.ask('long', { words: ['check', '--lines', '@base', '-'], input: '${head}' + '${avp}'.repeat(${times}) })`);
  count.is('a message of 16 MB', wanted, answer.out);
  console.log(`a message of ${20 + times * 12} bytes: ${Math.round(answer.ms)} ms, ${(answer.bytes / 2 ** 20).toFixed(0)} MiB`);
}

async function otherTabs() {
  await click('#tab-diff');
  count.is('differences', 12, (await page.texts('#diff-lines .row')).length);
  await click('#tab-lint');
  const first = await page.eval(`document.querySelector('#lint-lines .row').textContent`);
  count.holds('findings', /^no-error A:8:2/.test(first), first);
  await click('#tab-command');
  await put('#words', 'uses A.txt Price');
  await page.key('Enter', {virtual: 13});
  await settled();
  count.is(
      'any command', 'Usage-Answer: Price 0..1\nDrop-Request: Price 0..1\n', await page.eval(`$('command-out').firstChild.data`));
}

async function connection() {
  await example('A connection with departures');
  count.is('a step for each message', 8, (await page.texts('.l-step')).length);
  const words = await page.eval(`[...document.querySelectorAll('.l-step')].map(it => it.getAttribute('aria-label'))`);
  count.is('a departure at its message',
      'Line 4, from the responder: DWA, 2001, answers 3, after 3 ms. departure origin-host: "other.example", "server.example" before (RFC 6733 4.3.1)',
      words[3]);
  count.is('departures have a triangle, notes a circle', [5, 2],
      await page.eval(`['.l-departure', '.l-note'].map(it => document.querySelectorAll(it).length)`));
  count.is('answers are dashed', 4, await page.eval(`document.querySelectorAll('.l-arrow[stroke-dasharray]').length`));
  await page.eval(`document.querySelectorAll('.l-step')[3].dispatchEvent(new Event('click'))`);
  await settled();
  count.holds('its message', (await page.texts('#connection-detail .tree'))[0].includes('other.example'));
  await put('#connection-text', '> 0.1 zz');
  count.holds('a refused line', (await page.texts('#connection-ladder'))[0].includes('Line 1 is refused: not hexadecimal'));
}

/* The page's report is that of the command line. */
async function report() {
  await page.eval(
      `panes.a.setState({ text: shipped.files['main.txt'], parts: [{ name: 'a.txt', from: 0 }], choice: '' }), panes.b.setState({ text: shipped.files['next.txt'], parts: [{ name: 'b.txt', from: 0 }], choice: '' }), 0`);
  await settled();
  await click('#tab-report');
  for (const name of ['a.txt', 'b.txt']) fs.writeFileSync(path.join(folder, name), await page.eval(`panes.${name[0]}.text`));
  const own = options => spawnSync(path.join(TOP, 'integrations/report/make-report'), [...options, 'a.txt', 'b.txt'],
      {cwd: folder, encoding: 'utf8', env: {...process.env, DIACMD: program}});
  const [markdown, html] = [own([]), own(['--html'])];
  count.is('the status of make-report', 1, markdown.status);
  count.is('the report as Markdown', markdown.stdout, await page.eval('toMarkdown(reports.blocks)'));
  count.is('the report as HTML', html.stdout, await page.eval('toHtml(reports.blocks)'));
  count.is('it has no script', false, /<script/i.test(html.stdout));
  const lines = markdown.stdout.split('\n').filter(it => it.startsWith('- `')).map(it => it.split('`')[1]);
  count.is('its first lines', EIGHT, lines.filter(it => EIGHT.includes(it)).slice(0, 8));
  count.holds('both directions', lines.length > EIGHT.length && markdown.stdout.includes('## B sends, A reads'));
}

async function link() {
  await example('An upgrade with eight breaks');
  await page.eval(
      `panes.b.setState({ ...panes.b.state, text: panes.b.text.replace('{ Started }', '[ Started ]'), choice: '' }), 0`);
  await settled();
  const lines = await breakLines();
  count.is('a change is asked about', 7, lines.length);
  await click('#share');
  const url = await page.eval('location.href');
  count.holds('a short link', url.includes('#') && url.length < 3000, url.length);
  const other = await browser.open();
  await other.go(url);
  await other.until(`document.querySelector('#lines .row') || !$('refused').hidden`);
  count.is('a link opens the same', lines, await other.eval(`[...document.querySelectorAll('#lines .row')].map(it => it.title)`));
}

const overflow = () => page.eval(`document.documentElement.scrollWidth - document.documentElement.clientWidth`);

async function appearance() {
  await click('#theme');
  count.is('dark', 'dark', await page.eval(`document.documentElement.dataset.theme`));
  await click('#theme');
  /* 200 % of a window of 1280 pixels, and a telephone */
  for (const [width, height] of [[640, 450], [390, 800]]) {
    await page.size(width, height);
    for (const name of ['breaks', 'check', 'connection', 'report', 'command']) {
      await page.call('chooseTab', name);
      await sleep(100);
      count.is(`no part is cut at ${width} pixels: ${name}`, 0, await overflow());
    }
  }
  await page.size(1400, 900);
  await page.call('chooseTab', 'breaks');
  await page.click('#help');
  count.is('help is open', true, await page.eval(`$('about').open`));
  await page.key('Escape', {virtual: 27});
}

async function noAnswers() {
  const memory = await page.eval(
      `lanes.quick.ask('test', { words: ['breaking', 'A.txt', 'B.txt'], files: { 'A.txt': textOfShipped('gx.txt'), 'B.txt': textOfShipped('s6a.txt') }, limit: 1 << 20 })`);
  count.is('memory is refused', [3, 'no memory', ''], [memory.status, memory.err.trim().split('\n').pop(), memory.out]);
  await page.eval(`panes.a.choose('policy-and-charging.txt'), panes.b.choose('ietf.txt'), $('sends').value = 'any', 0`);
  await page.until(`lanes.slow.running`);
  await page.key('Escape', {virtual: 27});
  await sleep(100);
  count.is('a cancelled run has no answer', ['cancelled', true, 0],
      await page.eval(
          `[$('status').textContent, $('lines').textContent.includes('There is no answer'), document.querySelectorAll('#lines .row').length]`));
  const stack = fs.readFileSync(path.join(folder, 'stack.wasm')).toString('base64');
  await page.eval(
      `(async () => { window.kept = lanes.slow; lanes.slow = new Lane(kept.source, await WebAssembly.compile(fromBase64('${
          stack}'))); })()`);
  await page.call('ask');
  await settled();
  count.holds('a full stack has no answer',
      (await page.texts('#lines .empty'))[0].includes('There is no answerA memory access was out of bounds'),
      (await page.texts('#lines'))[0]);
  count.is('nor a count', null, await page.eval(`document.querySelector('#tab-breaks .count')`));
  await page.eval(`lanes.slow = kept, 0`);
  await example('An upgrade with eight breaks');
  count.is('the next run answers', EIGHT, await breakLines());
}

async function manyRuns() {
  const sizes = await page.eval(`(async () => { const sizes = []; for (let i = 0; i < ${
      RUNS}; i++) sizes.push((await lanes.slow.ask('test', { words: ['breaking', 'A.txt', 'B.txt'], files: sharedFiles() })).bytes); return sizes; })()`);
  count.is('each run begins with the same memory', 1, new Set(sizes).size);
}

async function nothingLeaves() {
  count.is('the policy refuses a connection', 'refused',
      await page.eval(`fetch('http://127.0.0.1:9/').then(() => 'sent', () => 'refused')`));
  count.is('nothing was requested', [],
      page.requests.filter(it => !/^(file|blob|data):/.test(it) && !it.startsWith('http://127.0.0.1:9/')));
  count.is('errors of the page', [], page.errors.filter(it => !/127\.0\.0\.1|Content Security Policy/.test(it)));
}

async function readers() {
  const {nodes} = await page.send('Accessibility.getFullAXTree');
  const roles = new Set(
      ['button', 'combobox', 'textbox', 'searchbox', 'checkbox', 'tab', 'listbox', 'splitter', 'region', 'dialog']);
  const seen = nodes.filter(it => !it.ignored);
  count.is(
      'controls without a name', [], seen.filter(it => roles.has(it.role?.value) && !it.name?.value).map(it => it.role.value));
  const order = await page.eval(
      `[...document.querySelectorAll('h1, #starting, .pane textarea, [role=tablist], [role=tabpanel]:not([hidden])')].map(it => it.id || it.getAttribute('aria-label') || it.textContent)`);
  count.is('the order in which it is read',
      ['Wittalen', 'starting', 'Dictionary A, which sends', 'Dictionary B, which reads', 'Questions', 'breaks'], order);
}

/* A browser without memory64, one without WebAssembly, and one without workers. */
async function oldBrowsers() {
  for (const [script, words] of [['WebAssembly.validate = () => false', 'memory64'],
           ['delete window.WebAssembly', 'no WebAssembly'],
           ['window.Worker = class { constructor() { throw new Error("no workers here"); } }', 'no workers here']]) {
    const other = await browser.open();
    await other.send('Page.addScriptToEvaluateOnNewDocument', {source: script});
    await other.go(urlOf(file));
    await other.until(`!$('refused').hidden`);
    const [text, answers, isInert] =
        await other.eval(`[$('refused').textContent, $('lines').childElementCount, document.querySelector('main').inert]`);
    count.holds(`it says what is missing: ${words}`, text.includes(words) && text.includes('can’t run the program'), text);
    count.is('and there is nothing like an answer', [0, true], [answers, isInert]);
  }
}

const PARTS = [
  theStart, whatBreaks, commandsAndAccepted, textsAndUndo, messages, longMessage, otherTabs, connection, report, link, appearance,
  noAnswers, manyRuns, readers, nothingLeaves, oldBrowsers
];

try {
  page = await browser.open();
  await page.size(1400, 900);
  await page.scheme('light');
  for (const part of PARTS) {
    try {
      await part();
    } catch (error) {
      count.holds(part.name, false, error.message);
    }
  }
} finally {
  await browser.close();
}
count.end();

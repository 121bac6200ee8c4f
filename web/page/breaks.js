'use strict';
/* The tab What breaks: the lines of `breaking`, with what each is about in both texts, fixes, and a message. */

const MOST_ROWS = 60; /* of one group; a filter shows the others */

const breaks = {
  rows: [],
  lines: [],
  shown: [],
  list: null
};

/* The lists of accepted lines of both directions. Swapping the panes swaps them. */
const accepted = {
  there: '',
  back: ''
};

const options = () => ['--sends', $('sends').value, '--unknown', $('unknown').value];
const commands = () => $('commands').value.split(/[\s,]+/).filter(Boolean);

function breakingWords() {
  const list = $('accepted').value.trim() ? ['--accepted', 'accepted.txt'] : [];
  return [
    'breaking', '--json', '--messages', '--quiet', ...options(), ...($('meaning').checked ? ['--meaning'] : []), ...list, 'A.txt',
    'B.txt', ...commands()
  ];
}

async function askBreaks() {
  busy('asking what breaks…');
  const answer = await run('slow', 'breaks', breakingWords(), {files: {'accepted.txt': $('accepted').value}, question: true});
  busy('');
  const found = objects(answer.out), counts = found.find(row => row.causes !== undefined);
  breaks.rows = found;
  breaks.lines = counts ? found.filter(row => row.text !== undefined) : [];
  if (!counts) {
    noBreaks('bad', ...refusalOf(answer, found[0] ?? {}));
    return;
  }
  $('status').textContent = `${plural(breaks.lines.length, 'line')} in ${Math.round(answer.ms)} ms`;
  $('accepted-counts').textContent = acceptedWords(counts);
  setCount('breaks', breaks.lines.length, true);
  drawBreaks();
}

function acceptedWords({accepted: count, stale}) {
  if (!$('accepted').value.trim()) return 'Accepted lines';
  return `Accepted lines: ${count} accepted${stale ? `, ${plural(stale, 'stale entry', 'stale entries')}` : ''}`;
}

/* Why there is no list of lines: a title and a note. */
function refusalOf(answer, {error, kind, name, line}) {
  if (answer.status === 3)
    return [
      'Memory was refused', `The program needs more than ${MEMORY_LIMIT / 2 ** 20} MiB for this. It answered so; it has no list.`
    ];
  if (error === 'accepted')
    return [
      'The accepted lines are no list',
      `${kind}${line ? ` at line ${line}` : ''}: see docs/UPGRADING.md for the forms of an entry.`
    ];
  if (error === 'breaking')
    return name ? [`A has no command ${name}`, 'Its commands are those whose definition begins with a Diameter header.'] :
                  ['A has no commands', 'Choose or paste a dictionary with commands.'];
  return [`${error === 'dictionary 2' ? 'B' : 'A'} is no dictionary`, 'Its faults are listed below its text.'];
}

function noBreaks(kind, title, note) {
  breaks.lines = [];
  breaks.shown = [];
  setCount('breaks', null);
  breaks.list.fill([emptyNote(kind, title, note)]);
  $('line-detail').replaceChildren();
}

/* ---- the list ---- */

const badgeOf = line =>
    badge(line.undecided || line.reason === 'meaning' ? '' : 'bad', line.undecided ? 'undecided' : line.reason);
const wordsOfCause = line => causeOf(line).replace(/^(undecided )?[a-z-]+ /, '');

function breakRow(line, ...children) {
  breaks.shown.push(line);
  return make('div', {className: 'row', title: line.text}, ...children);
}

/* The nodes of one group of lines, and its rows. */
function groupNodes(key, members, byCause) {
  const [first] = members;
  if (byCause && members.length === 1) {
    const row = breakRow(first, badgeOf(first), text('span', 'cause', wordsOfCause(first)), text('span', 'soft', pathOf(first)));
    row.classList.add('alone');
    return {nodes: [row], rows: [row]};
  }
  const title = byCause ? [badgeOf(first), text('span', 'mono', wordsOfCause(first))] : [text('span', 'mono', key)];
  const head = make('div', {className: 'group', attr: {role: 'presentation'}}, ...title, text('span', 'grow', ''),
      text('span', 'soft', plural(members.length, byCause ? 'place' : 'line')));
  const rows = members.slice(0, MOST_ROWS)
                   .map(line => byCause ? breakRow(line, pathOf(line)) :
                                          breakRow(line, badgeOf(line), ` ${wordsOfCause(line)}`,
                                              text('span', 'soft', `  ${line.path?.join('/') ?? ''}`)));
  const more = members.length - rows.length;
  return {nodes: [head, ...rows, more > 0 ? text('div', 'note', `… ${more} more: filter for them`) : ''], rows};
}

function staleNodes() {
  const stale = breaks.rows.filter(row => typeof row.stale === 'string');
  return stale.map(it => make('div', {className: 'row'}, badge('', 'stale'), ` ${it.stale}`,
                       text('span', 'soft', `   line ${it.line} of the accepted lines`)));
}

function nothingNode() {
  const words = `Nothing ${$('accepted').value.trim() ? 'else ' : ''}${$('meaning').checked ? 'differs' : 'breaks'}`;
  const about = commands().length ? `of ${commands().join(', ')}` : 'of every command of A';
  const except = $('accepted').value.trim() ? ', but for the accepted lines' : '';
  const note = `Each message that A’s side sends, ${about}, is valid under B${except}.`;
  return emptyNote('good', words, `${note} This is proved (docs/GUARANTEES.md) for the sender and the receiver chosen above.`);
}

function drawBreaks() {
  const wanted = $('filter').value.trim().toLowerCase().split(/\s+/).filter(Boolean);
  const found = breaks.lines.filter(line => wanted.every(word => line.text.toLowerCase().includes(word)));
  breaks.shown = [];
  $('line-detail')
      .replaceChildren(found.length ?
              text('div', 'empty', 'Choose a line: both declarations, fixes and a shortest message are shown here.') :
              '');
  if (!breaks.rows.some(row => row.causes !== undefined)) return;
  if (breaks.lines.length === 0) {
    breaks.list.fill([...staleNodes(), nothingNode()]);
    return;
  }
  const byCause = $('grouping').value === 'cause';
  const drawn = [...grouped(found, byCause ? causeOf : commandOf)].map(([key, members]) => groupNodes(key, members, byCause));
  const none = found.length ? [] : [text('div', 'empty', `none of ${plural(breaks.lines.length, 'line')} has these words`)];
  breaks.list.fill([...drawn.flatMap(it => it.nodes), ...none, ...staleNodes()], drawn.flatMap(it => it.rows));
}

/* ---- one line ---- */

/* Nodes of a text in which code is between backquotes. */
const inlineNodes = it => it.split('`').map((part, i) => i % 2 ? text('code', '', part) : part);

/* What a line is about in one of the texts. */
function declaration(title, pane, place) {
  const box = make('div', {className: 'card'}, text('h4', '', title));
  if (!place) {
    box.append(text('div', 'soft', 'nothing'));
    return box;
  }
  for (const {number, parts: [before, marked, after]} of excerpt(pane.text, place.line, place.column))
    box.append(make('div', {className: 'code'}, text('span', 'soft', `${number ?? ''}`.padStart(4) + '  '), before,
        marked ? text('span', 'shown', marked) : '', after));
  box.append(
      button(`go to ${pane.placeOf(place.line)}:${place.column}`, () => pane.go(place.line, place.column), {className: 'link'}));
  return box;
}

function acceptLine(entry) {
  const area = $('accepted');
  area.value = `${area.value}${area.value && !area.value.endsWith('\n') ? '\n' : ''}${entry}\n`;
  $('accepted-box').open = true;
  rememberAccepted();
  ask();
}

async function chooseBreak(number) {
  const line = breaks.shown[number], {what, a, b} = adviceOf(adviceRows(shipped.faults), line);
  const place = make('div', {}, text('div', 'empty', '…'));
  const fix = (side, words) => make('p', {className: 'fix'}, text('b', '', `Fix in ${side}: `), ...inlineNodes(words));
  $('line-detail')
      .replaceChildren(text('h3', 'said', line.text),
          make('p', {className: 'fix'}, ...inlineNodes(`${what.slice(0, 1).toUpperCase()}${what.slice(1)}.`)),
          make('div', {className: 'pair'}, declaration('A, the sender', panes.a, line.a),
              declaration('B, the receiver', panes.b, line.b), fix('A', a), fix('B', b)),
          make('div', {className: 'tools'}, button('Accept this line', () => acceptLine(line.text)),
              button('Accept its cause everywhere', () => acceptLine(`*: ${causeOf(line)}`))),
          text('h3', '', line.reason === 'meaning' ? 'A shortest message with it' : 'A shortest message that breaks so'), place);
  for (const key of ['a', 'b']) line[key] ? panes[key].show(line[key].line, line[key].column) : panes[key].unmark();
  if (!line.message) {
    place.replaceChildren(text('p', 'note', 'There is none for an undecided line.'));
    return;
  }
  const open = button('Open in Check', () => {
    $('message').value = line.message;
    chooseTab('check');
    ask();
  });
  await guarded(place,
      () => showMessage(
          place, line.message, {names: 'A.txt', sides: ['B'], unknown: $('unknown').value, topic: 'line', tools: [open]}));
}

/* ---- options ---- */

function rememberAccepted() { accepted.there = $('accepted').value; }

function setAccepted(list) {
  $('accepted').value = list;
  rememberAccepted();
}

function swapAccepted() {
  [accepted.there, accepted.back] = [accepted.back, accepted.there];
  $('accepted').value = accepted.there;
}

/* The names of A's commands, for the field that asks for them. */
function offerCommands() {
  const names = [...panes.a.text.matchAll(/^\s*<?\s*([A-Za-z0-9-]+)\s*>?\s*::=\s*<\s*Diameter/gm)].map(it => it[1]);
  $('command-names').replaceChildren(...names.map(value => make('option', {value})));
}

function listenToBreaks() {
  breaks.list = new List($('lines'), chooseBreak);
  for (const id of ['sends', 'unknown', 'meaning']) $(id).addEventListener('change', ask);
  $('commands').addEventListener('change', ask);
  $('grouping').addEventListener('change', drawBreaks);
  $('filter').addEventListener('input', debounce(120, drawBreaks));
  $('filter').addEventListener('keydown', event => {
    if (event.key !== 'ArrowDown' && event.key !== 'Enter') return;
    event.preventDefault();
    $('lines').focus();
    if (breaks.list.rows.length) breaks.list.select(0);
  });
  $('accepted').addEventListener('input', debounce(400, () => {
    rememberAccepted();
    ask();
  }));
  $('accepted-open').addEventListener('click', () => openFiles(files => {
    setAccepted(files.map(it => it.text).join('\n'));
    ask();
  }));
  $('accepted-save').addEventListener('click', () => saveText('known.txt', $('accepted').value));
}

'use strict';
/* The tab Connection: the messages of a captured connection, as `follow` reads them, as a ladder: the two ends are vertical lines, each
 * message an arrow between them, and each departure and note a sign at its message, with its words. It is readable without colours:
 * requests have whole lines and answers dashed ones; a departure has a triangle, and a note a circle. */

const LADDER = {
  width: 1000,
  left: 190,
  right: 810,
  head: 46,
  row: 30,
  line: 17,
  wrap: 72,
  most: 500
}; /* pixels; characters; messages */
const SVG = 'http://www.w3.org/2000/svg';

const connection = {
  steps: [],
  list: null
};

/* The lines of `follow`, by message: each with its departures and notes. */
function stepsOf(rows, given) {
  const steps = new Map(), words = number => (given[number - 1] ?? '').trim().split(/\s+/);
  const begun = ({line, end, ...more}) =>
      ({line, end, ...more, hex: words(line).at(-1), time: words(line).length > 2 ? `${words(line)[1]} s` : '', findings: []});
  for (const row of rows) {
    if (row.message) steps.set(row.line, begun(row));
    else if (row.departure || row.note) {
      if (!steps.has(row.line)) steps.set(row.line, begun({line: row.line, end: row.end}));
      steps.get(row.line).findings.push(row);
    }
  }
  return [...steps.values()];
}

const seconds = after => after < 1e6 ? `${after / 1e3} µs` : after < 1e9 ? `${after / 1e6} ms` : `${after / 1e9} s`;

function stepWords(it) {
  if (it.message === 'unread') return `unread, ${plural(it.bytes, 'byte')}`;
  if (!it.message) return 'message';
  const words = [it.command ?? it.code];
  const add = (value, said) => {
    if (value !== undefined && value !== null) words.push(said);
  };
  add(it.application || null, `application ${it.application}`);
  add(it.cause, `cause ${it.cause}`);
  add(it.result, it.vendor ? `${it.vendor}:${it.result}` : it.result);
  add(it.error_flag || null, 'E');
  add(it.answers, `answers ${it.answers}`);
  add(it.after, `after ${seconds(it.after)}`);
  add(it.common, `common: ${it.common}`);
  return words.join(', ');
}

const section = it => it.section ? ` (RFC 6733 ${it.section})` : '';
const findingWords = it => `${it.departure ? 'departure' : 'note'} ${it.departure ?? it.note}: ${it.text}${section(it)}`;

/* The words of a text on lines of at most so many characters. */
function wrapped(it, most) {
  const rows = [''];
  for (const word of it.split(' ')) {
    if (rows.at(-1) && rows.at(-1).length + 1 + word.length > most) rows.push('');
    rows[rows.length - 1] += (rows.at(-1) ? ' ' : '') + word;
  }
  return rows;
}

function svg(tag, attributes, ...children) {
  const it = document.createElementNS(SVG, tag);
  for (const [name, value] of Object.entries(attributes)) it.setAttribute(name, value);
  it.append(...children);
  return it;
}

/* The arrow of a message, with the number of its line, and its words above. */
function arrow(it, y) {
  const {left, right} = LADDER, isRight = it.end === '>';
  const [from, to] = isRight ? [left, right] : [right, left], tip = isRight ? to - 9 : to + 9;
  return [
    svg('text', {x: (left + right) / 2, y: y - 5, 'text-anchor': 'middle', class: 'l-words'}, stepWords(it)),
    svg('text', {x: isRight ? left - 8 : right + 8, y: y + 4, 'text-anchor': isRight ? 'end' : 'start', class: 'l-line'},
        `${it.line}`),
    svg('text', {x: 8, y: y + 4, class: 'l-line'}, it.time),
    svg('line',
        {x1: from, y1: y, x2: tip, y2: y, class: 'l-arrow', ...(it.message === 'answer' ? {'stroke-dasharray': '7 4'} : {})}),
    svg('path', {d: `M${to} ${y}L${tip} ${y - 5}V${y + 5}z`, class: 'l-tip'}),
  ];
}

/* A sign at the sender's line, and beside it the words of a departure or a note. */
function sign(it, y) {
  const isLeft = it.end === '>', x = isLeft ? LADDER.left : LADDER.right;
  const shape = it.departure ? svg('path', {d: `M${x} ${y - 13}l9 15h-18z`, class: 'l-departure'}) :
                               svg('circle', {cx: x, cy: y - 5, r: 8, class: 'l-note'});
  const mark = svg('text', {x, y: y - 1, 'text-anchor': 'middle', class: 'l-mark'}, it.departure ? '!' : 'i');
  const place = {
    x: isLeft ? x + 16 : x - 16,
    'text-anchor': isLeft ? 'start' : 'end',
    class: it.departure ? 'l-departure-words' : 'l-note-words'
  };
  const words = wrapped(findingWords(it), LADDER.wrap).map((row, i) => svg('text', {...place, y: y + i * LADDER.line}, row));
  return {nodes: [shape, mark, ...words], height: 6 + words.length * LADDER.line};
}

/* One message, from this height on. */
function step(it, top) {
  let y = top + LADDER.row;
  const nodes = arrow(it, y);
  y += 6;
  for (const finding of it.findings) {
    const drawn = sign(finding, y + 16);
    nodes.push(...drawn.nodes);
    y += drawn.height;
  }
  const head = `Line ${it.line}, from the ${it.end === '>' ? 'initiator' : 'responder'}: ${stepWords(it)}`;
  const label = [head, ...it.findings.map(findingWords)].join('. ');
  const group = svg('g', {class: 'l-step', role: 'listitem', 'aria-label': label, tabindex: '-1'},
      svg('rect', {x: 0, y: top + 8, width: LADDER.width, height: y - top - 6, class: 'l-back'}), ...nodes);
  return {group, bottom: y};
}

function ladder(steps) {
  const {width, left, right, head} = LADDER, groups = [];
  let y = head;
  for (const it of steps) {
    const drawn = step(it, y);
    drawn.group.onclick = () => chooseStep(it);
    groups.push(drawn.group);
    y = drawn.bottom;
  }
  const height = y + 20;
  const ends = [[left, 'opened the connection  >'], [right, '<  accepted it']].flatMap(
      ([x, words]) => [svg('text', {x, y: 22, 'text-anchor': 'middle', class: 'l-end'}, words),
          svg('line', {x1: x, y1: 32, x2: x, y2: height - 8, class: 'l-life'})]);
  return svg('svg', {
    xmlns: SVG,
    viewBox: `0 0 ${width} ${height}`,
    class: 'ladder',
    role: 'list',
    'aria-label': 'The messages of the connection'
  },
      ...ends, ...groups);
}

/* The message of a line of the text, by the names of the dictionary. */
async function chooseStep(it) {
  const dictionary = $('connection-side').value, place = $('connection-detail');
  await guarded(place, () => showMessage(place, it.hex, {
    names: dictionary === 'base' ? '@base' : `${dictionary.toUpperCase()}.txt`,
    sides: dictionary === 'base' ? [] : [dictionary.toUpperCase()],
    topic: 'step'
  }));
}

function followWords(isJson) {
  const side = $('connection-side').value, dictionary = side === 'base' ? [] : ['--dict', `${side.toUpperCase()}.txt`];
  return [
    'follow', ...(isJson ? ['--json'] : []), ...($('middle').checked ? ['--middle'] : []),
    ...($('judge').checked ? ['--check'] : []), ...dictionary, 'connection.txt'
  ];
}

async function askConnection() {
  const given = $('connection-text').value, place = $('connection-ladder');
  $('connection-detail').replaceChildren();
  if (!given.trim()) {
    place.replaceChildren(text('div', 'empty',
        'Paste the lines of a connection: “> 0.1 0100…” for the end that opened it, “<” for the other, perhaps the time in seconds, and the message.'));
    setCount('connection', null);
    return;
  }
  busy('following…');
  const answer = await run('quick', 'follow', followWords(true), {files: {'connection.txt': given}, question: true});
  lastQuestion = followWords(false).join(' ');
  busy('');
  const rows = objects(answer.out), refused = rows.find(it => it.error);
  if (answer.status > 1) {
    const title = answer.status === 3   ? 'Memory was refused' :
        refused?.error === 'connection' ? `Line ${refused.line} is refused: ${refused.kind}` :
                                          'The dictionary is refused';
    place.replaceChildren(emptyNote('bad', title, answer.err.trim()));
    setCount('connection', null);
    return;
  }
  connection.steps = stepsOf(rows, given.split('\n'));
  const departures = rows.filter(it => it.departure).length, shown = connection.steps.slice(0, LADDER.most);
  setCount('connection', departures, true);
  $('status').textContent = `${plural(connection.steps.length, 'message')}, ${plural(departures, 'departure')}`;
  const left = connection.steps.length - shown.length;
  place.replaceChildren(
      ladder(shown), left ? text('p', 'note', `… ${plural(left, 'more message')}: the tab Command has them`) : '');
  $('connection-detail').replaceChildren(make('pre', {textContent: answer.err.trim()}));
}

/* The ladder as a file of its own, with its styles. */
function saveLadder() {
  const drawn = document.querySelector('.ladder')?.cloneNode(true);
  if (!drawn) return;
  drawn.prepend(svg('style', {},
      'text{font:13px sans-serif}.l-back{fill:#fff}.l-life,.l-arrow{stroke:#000;stroke-width:1.4}.l-departure,.l-note{fill:#fff;stroke:#000;stroke-width:1.4}.l-departure-words,.l-end{font-weight:bold}'));
  saveText('connection.svg', new XMLSerializer().serializeToString(drawn), 'image/svg+xml');
}

function listenToConnection() {
  for (const id of ['connection-side', 'middle', 'judge']) $(id).addEventListener('change', ask);
  $('connection-text').addEventListener('input', debounce(350, ask));
  const set = files => {
    $('connection-text').value = files.map(it => it.text).join('\n');
    ask();
  };
  $('connection-open').addEventListener('click', () => openFiles(set));
  $('connection-save').addEventListener('click', saveLadder);
  acceptDrops($('connection-text'), set);
}

'use strict';
/* The tab Check: messages in hexadecimal digits, or as readable text, under one dictionary or both. */

const SHOWN_VERDICTS = 2000;
const MIN_DIGITS = 40; /* of a message: its header */

const messages = {
  found: [],
  sides: [],
  list: null
};

/* The messages of a text of digits. Each line is one, if the first or half of them are as long as their headers say, or all begin as
 * messages do. Else the digits of all lines are joined, and cut by the lengths in the headers. */
function messagesOf(digits) {
  const all = digits.split('\n').map(it => it.replace(/\s+/g, '').toLowerCase()).filter(Boolean);
  const isWhole = it => it.length >= MIN_DIGITS && parseInt(it.slice(2, 8), 16) * 2 === it.length;
  const isBegun = it => it.length >= MIN_DIGITS && it.startsWith('01');
  if (all.length < 2 || isWhole(all[0]) || 2 * all.filter(isWhole).length >= all.length || all.every(isBegun)) return all;
  const joined = all.join(''), found = [];
  for (let at = 0; at < joined.length;) {
    const length = parseInt(joined.slice(at + 2, at + 8), 16) * 2;
    const end = length >= MIN_DIGITS && at + length <= joined.length ? at + length : joined.length;
    found.push(joined.slice(at, end));
    at = end;
  }
  return found;
}

/* The messages that the user gave, or null if the text is no message. */
async function givenMessages(given, names) {
  $('message-fault').hidden = true;
  if (/^[\s0-9a-fA-F]*$/.test(given)) return messagesOf(given);
  const made = await run(
      'quick', 'make', ['make', '--values', 'values.txt', '--dict', names, 'message.txt'], {files: {'message.txt': given}});
  if (made.status === 0) return lines(made.out);
  $('message-fault').hidden = false;
  $('message-fault').textContent = made.err.trim() || made.out.trim();
  return null;
}

function noMessages(note) {
  messages.found = [];
  messages.list.fill(note ? [text('div', 'empty', note)] : []);
  $('message-detail').replaceChildren();
  busy('');
}

const levelOptions = () => $('levels').value.trim() ? ['--levels', $('levels').value.trim()] : [];

async function askMessages() {
  const side = $('check-side').value, names = side === 'b' ? 'B.txt' : 'A.txt';
  if (!$('message').value.trim()) {
    noMessages('Paste messages, or open a file.');
    return;
  }
  busy('checking…');
  const found = await givenMessages($('message').value, names);
  if (!found) {
    noMessages('');
    return;
  }
  messages.found = found;
  const verdicts = {},
        words = ['check', '--lines', '--json', '--quiet', '--unknown', $('check-unknown').value, ...levelOptions()];
  let ms = 0;
  messages.sides = [];
  for (const it of side === 'both' ? ['A', 'B'] : [side.toUpperCase()]) {
    const answer = await run('quick', 'lines', [...words, `${it}.txt`, '-'], {input: `${found.join('\n')}\n`, question: true});
    ms += answer.ms;
    verdicts[it] = answer.status < 2 ? objects(answer.out) : null;
    if (verdicts[it]) messages.sides.push(it);
  }
  busy('');
  $('status').textContent = `${plural(found.length, 'message')} in ${Math.round(ms)} ms`;
  drawVerdicts(verdicts);
}

function verdictWords(it) {
  if (!it) return 'no dictionary';
  if (it.verdict === 'valid') return `valid ${it.command}`;
  if (it.verdict === 'fault')
    return `fault ${it.code} at ${it.at} ${it.reason} ${it.avp ? it.avp.name ?? `${it.avp.code}:${it.avp.vendor}` : '-'}`;
  return it.verdict ?? `${it.error}: ${it.kind}`;
}

function drawVerdicts(verdicts) {
  const sides = Object.keys(verdicts), isBad = i => sides.some(side => verdicts[side]?.[i]?.verdict !== 'valid');
  const rows = messages.found.slice(0, SHOWN_VERDICTS)
                   .map((_, i) => make('div', {className: 'row'}, text('span', 'soft', `${String(i + 1).padStart(4)}  `),
                            ...sides.flatMap(side => [badge(verdicts[side]?.[i]?.verdict === 'valid' ? 'good' : 'bad', side),
                                                 ` ${verdictWords(verdicts[side]?.[i])}   `])));
  const more = messages.found.length - rows.length;
  messages.list.fill([...rows, more > 0 ? text('div', 'note', `… ${plural(more, 'more message')}`) : ''], rows);
  if (rows.length) messages.list.select(Math.max(0, rows.findIndex((_, i) => isBad(i))));
}

function chooseMessage(number) {
  const isOfB = $('check-side').value === 'b' || !messages.sides.includes('A');
  const place = $('message-detail');
  return guarded(place, () => showMessage(place, messages.found[number], {
    names: isOfB ? 'B.txt' : 'A.txt',
    sides: messages.sides,
    unknown: $('check-unknown').value,
    levels: $('levels').value.trim(),
    topic: 'message',
  }));
}

/* The shortest valid message of each command of A. */
async function shortestMessages() {
  const answer = await run('slow', 'examples', ['examples', '--quiet', 'A.txt']);
  const rows = lines(answer.out).map(line => line.split('\t')).filter(row => row.length === 3);
  $('message').value = rows.filter(row => / shortest$/.test(row[1])).map(row => row[2]).join('\n');
  ask();
}

function listenToCheck() {
  messages.list = new List($('verdicts'), chooseMessage);
  for (const id of ['check-side', 'check-unknown']) $(id).addEventListener('change', ask);
  $('levels').addEventListener('input', debounce(300, ask));
  $('message').addEventListener('input', debounce(350, ask));
  $('message-open').addEventListener('click', () => openFiles(files => {
    $('message').value = files.map(it => it.text).join('\n');
    ask();
  }));
  $('message-example').addEventListener('click', () => guarded($('message-detail'), shortestMessages));
  acceptDrops($('message'), files => {
    $('message').value = files.map(it => it.text).join('\n');
    ask();
  });
}

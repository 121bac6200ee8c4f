'use strict';
/* A report on an upgrade: what breaks between two dictionaries, in both directions, by cause and by command, with fixes and messages, as
 * one HTML file without scripts or as Markdown. It is made of what `breaking --json` reports: by make-report beside this file, and by the
 * page of web/, of which this file is a part. */

const SENDS = ['listed', 'filled', 'known', 'any']; /* each sender sends all that the one before sends */

const SEVERITIES = [
  [
    'rules', 'Sent by rules',
    'A sender breaks that sends no AVP but those that its rules list, and any of its dictionary in groups without rules.'
  ],
  [
    'wildcards', 'Sent by wildcards',
    'A sender breaks only by an AVP that a wildcard `[ AVP ]` lets in: one that adds such AVPs, or a relay.'
  ],
  ['meaning', 'Read as something else', 'The receiver accepts the bytes, and reads them as another format.'],
];

/* ---- advice: the table of docs/FAULTS.md, What breaks ---- */

/* The rows of the table: a line as an example, what breaks, and the fixes in B and in A. */
function adviceRows(faults) {
  const table =
      faults.slice(faults.indexOf('| Line | What breaks | Fix in B | Fix in A |')).split('\n\n')[0].trim().split('\n').slice(2);
  let before = [];
  return table.map(line => {
    const cells = line.replace(/^\||\|$/g, '').split(/(?<!\\)\|/).map(cell => cell.trim());
    if (cells[3] === 'the same') cells[3] = cells[2];
    before = cells.map((cell, i) => cell === 'as above' ? before[i] : cell);
    const [example, what, b, a] = before;
    return {words: example.replace(/`/g, '').split(/[ :,]+/), what, b, a};
  });
}

/* What a line's row advises: of the rows of its reason the one whose example has most words of the line. The table calls the sender A
 * and the receiver B. */
function adviceOf(rows, line, sides = {
  A: 'A',
  B: 'B'
}) {
  const words = new Set(causeOf(line).split(/[ :]+/));
  const own = rows.filter(it => it.words[0] === (line.undecided ? 'undecided' : line.reason));
  const share = it => it.words.filter(word => words.has(word)).length / it.words.length;
  const best = own.sort((x, y) => share(y) - share(x))[0] ?? {what: '', a: '', b: ''};
  const named = it =>
      it.replace(/\b[AB]\b/g, side => sides[side]).replace(/\bX\b/g, line.avp?.name ?? 'X').replace(/ ?\(?see below\)?/, '');
  return {what: named(best.what), a: named(best.a), b: named(best.b)};
}

/* ---- lines ---- */

const pathOf = line => line.text.slice(0, line.text.indexOf(': '));
const causeOf = line => line.text.slice(line.text.indexOf(': ') + 2);
const commandOf = line => line.command + (line.application === undefined ? '' : `[application ${line.application}]`);

function grouped(items, keyOf) {
  const groups = new Map();
  for (const it of items) {
    const key = keyOf(it);
    if (!groups.has(key)) groups.set(key, []);
    groups.get(key).push(it);
  }
  return groups;
}

const sendersUpTo = sends => SENDS.slice(0, SENDS.indexOf(sends) + 1);

const severityOf = (line, sends) => line.reason === 'meaning' ? 'meaning' : ['listed', 'filled'].includes(sends) ? 'rules' : 'wildcards';

/* The answers of one direction, by sender, as one: its lines, each with its severity, and what the list accepts. A line that several
 * senders have is that of the one that sends least. */
function directionOf({from, to, answers, advice}) {
  const found = new Map();
  for (const [sends, rows] of answers)
    for (const line of rows.filter(it => it.text !== undefined && !found.has(it.text)))
      found.set(line.text, {...line, severity: severityOf(line, sends), advice: adviceOf(advice, line, {A: from, B: to})});
  const last = answers.at(-1)[1], counts = last.find(it => it.causes !== undefined);
  const stale = last.filter(it => typeof it.stale === 'string').map(it => it.stale);
  return {
    from,
    to,
    lines: [...found.values()],
    accepted: counts?.accepted ?? 0,
    stale,
    refused: counts ? null : last.find(it => it.error) ?? {}
  };
}

/* ---- the report, as blocks: [kind, ..] ---- */

const code = it => `\`${it}\``;

function summaryBlock(directions) {
  const counts = it => SEVERITIES.map(([key]) => countsOf(it.lines.filter(line => line.severity === key)));
  const rows = directions.map(
      it => [`${it.from} sends, ${it.to} reads`, ...(it.refused ? ['no answer', '', ''] : counts(it)), String(it.accepted)]);
  return ['table', ['Direction', ...SEVERITIES.map(it => it[1]), 'Accepted'], rows];
}

const counted = (count, one) => `${count} ${one}${count === 1 ? '' : 's'}`;
const countsOf = found =>
    found.length === 0 ? 'none' : `${counted(found.length, 'line')}, ${counted(new Set(found.map(causeOf)).size, 'cause')}`;

function causeBlocks(it, found) {
  const rows = [...grouped(found, causeOf)].map(([cause, members]) => {
    const {what, a, b} = members[0].advice;
    const places = [...new Set(members.map(pathOf))];
    return [
      code(cause), what, a, b,
      places.slice(0, 4).map(code).join(', ') + (places.length > 4 ? ` and ${places.length - 4} more` : '')
    ];
  });
  return ['table', ['Cause', 'What breaks', `Fix in ${it.from}`, `Fix in ${it.to}`, 'Where'], rows];
}

function nothingWords({from, to, accepted}, sends) {
  const [also, except] = accepted ? ['else ', ', but for what the list accepts'] : ['', ''];
  return `Nothing ${also}breaks: each message that ${from} sends (${code(`--sends ${sends}`)}) is valid for ${to}${except}.`;
}

function directionBlocks(it, sends) {
  const head = ['heading', 2, `${it.from} sends, ${it.to} reads`];
  if (it.refused) {
    const why = [it.refused.error, it.refused.kind, it.refused.name].filter(Boolean).join(', ');
    return [head, ['text', `There is no answer: ${why || 'an input could not be read, or memory was refused'}.`]];
  }
  const blocks = [head];
  if (it.lines.length === 0) blocks.push(['text', nothingWords(it, sends)]);
  for (const [key, title, note] of SEVERITIES) {
    const found = it.lines.filter(line => line.severity === key);
    if (found.length) blocks.push(['heading', 3, `${title}: ${countsOf(found)}`], ['text', note], causeBlocks(it, found));
  }
  if (it.stale.length) blocks.push(['heading', 3, 'Stale entries of the list'], ['list', it.stale.map(line => ({text: line}))]);
  if (it.lines.length) blocks.push(['heading', 3, 'By command']);
  for (const [command, members] of grouped(it.lines, commandOf))
    blocks.push(['heading', 4, command], ['list', members.map(listItem)]);
  return blocks;
}

const listItem = line =>
    ({text: line.text, note: SEVERITIES.find(([key]) => key === line.severity)[1].toLowerCase(), message: line.message});

/* The blocks of a report. `names` are those of A and B; `sends` is the widest sender, and `version` that of the program. */
function reportBlocks({names, sends, unknown, directions, version}) {
  const asked = `A is ${names.A}, B is ${names.B}. Senders: ${code(sends)} at most; unknown AVPs: ${code(unknown)}.`;
  const line = 'A line is a way in which a message that is valid for its sender is rejected by the receiver, or read as something else.';
  return [
    ['heading', 1, `What breaks between ${names.A} and ${names.B}`],
    ['text', `${asked} ${line}`],
    summaryBlock(directions),
    ...directions.flatMap(it => directionBlocks(it, sends)),
    ['text', `Made by ${version}. After each line comes a shortest message, in hexadecimal digits, that breaks so.`],
  ];
}

/* ---- Markdown ---- */

const cell = it => it.replace(/\|/g, '\\|').replace(/\n/g, ' ');

function markdownItem({text, note, message}) {
  const item = `- ${code(text)}${note ? ` (${note})` : ''}`;
  return message ? `${item}\n\n      ${message}\n` : item;
}

const MARKDOWN = {
  heading: (level, title) => `${'#'.repeat(level)} ${title}`,
  text: it => it,
  table: (head, rows) => [head, head.map(() => '---'), ...rows].map(row => `| ${row.map(cell).join(' | ')} |`).join('\n'),
  list: items => items.map(markdownItem).join('\n'),
};

const toMarkdown = blocks => `${blocks.map(([kind, ...parts]) => MARKDOWN[kind](...parts)).join('\n\n')}\n`;

/* ---- HTML ---- */

const escaped = it => it.replace(/&/g, '&amp;').replace(/</g, '&lt;').replace(/>/g, '&gt;').replace(/"/g, '&quot;');
/* Text in which code is between backquotes. */
const inline = it => it.split('`').map((part, i) => i % 2 ? `<code>${escaped(part)}</code>` : escaped(part)).join('');

function htmlItem({text, note, message}) {
  const own = `<code>${escaped(text)}</code>`, about = note ? ` <span>${escaped(note)}</span>` : '';
  const more = message ? `<details><summary>message</summary><code>${escaped(message)}</code></details>` : '';
  return `<li>${own}${about}${more}</li>`;
}

const HTML = {
  heading: (level, title) => `<h${level}>${escaped(title)}</h${level}>`,
  text: it => `<p>${inline(it)}</p>`,
  table: (head, rows) => {
    const cells = (row, begin, end) => `<tr>${row.map(it => begin + inline(it) + end).join('')}</tr>`;
    const body = rows.map(row => cells(row, '<td>', '</td>')).join('\n');
    return `<table>\n<thead>${cells(head, '<th scope="col">', '</th>')}</thead>\n<tbody>\n${body}\n</tbody></table>`;
  },
  list: items => `<ul>\n${items.map(htmlItem).join('\n')}\n</ul>`,
};

const STYLE = `
body { font: 15px/1.5 system-ui, sans-serif; max-width: 75rem; margin: 2rem auto; padding: 0 1rem; color: #1c2430; background: #fff; }
table { border-collapse: collapse; width: 100%; margin: .6rem 0 1.2rem; }
th, td { border: 1px solid #b9c1cc; padding: .25rem .5rem; text-align: left; vertical-align: top; }
th { background: #eef1f5; }
code { font: 13px/1.4 ui-monospace, monospace; overflow-wrap: anywhere; }
li { margin: .2rem 0; }
li span { color: #5b6675; }
h2 { margin-top: 2.2rem; border-bottom: 2px solid #1c2430; }
summary { cursor: pointer; color: #2458c5; }
@media print { details > * { display: block; } }
`;

function toHtml(blocks) {
  const body = blocks.map(([kind, ...parts]) => HTML[kind](...parts)).join('\n');
  return `<!doctype html>
<html lang="en">
<head>
<meta charset="utf-8">
<meta name="viewport" content="width=device-width, initial-scale=1">
<meta http-equiv="Content-Security-Policy" content="default-src 'none'; style-src 'unsafe-inline'">
<title>${escaped(blocks[0][2])}</title>
<style>${STYLE}</style>
</head>
<body>
${body}
</body>
</html>
`;
}

if (typeof module !== 'undefined')
  module.exports = {SENDS, adviceRows, directionOf, reportBlocks, sendersUpTo, toHtml, toMarkdown};

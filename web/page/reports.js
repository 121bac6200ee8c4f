'use strict';
/* The tab Report: what breaks in both directions, to keep or to send. integrations/report/report.js makes it. */

const reports = {
  blocks: null
};

/* The answers of one direction, for each sender up to the chosen one. */
async function answersOf(first, second, list) {
  const answers = [];
  for (const sends of sendersUpTo($('report-sends').value)) {
    const words = [
      'breaking', '--json', '--messages', '--meaning', '--quiet', '--sends', sends, '--unknown', $('unknown').value,
      ...(list.trim() ? ['--accepted', 'accepted.txt'] : []), first, second
    ];
    const answer = await run('slow', 'report', words, {files: {'accepted.txt': list}});
    answers.push([sends, objects(answer.out)]);
  }
  return answers;
}

async function askReport() {
  reports.blocks = null;
  $('report-view').replaceChildren(text('p', 'empty', 'making the report…'));
  busy('making the report…');
  const advice = adviceRows(shipped.faults), directions = [];
  for (const [from, to, list] of [['A', 'B', accepted.there], ['B', 'A', accepted.back]])
    directions.push(directionOf({from, to, advice, answers: await answersOf(`${from}.txt`, `${to}.txt`, list)}));
  busy('');
  reports.blocks = reportBlocks({
    names: {A: panes.a.title, B: panes.b.title},
    sends: $('report-sends').value,
    unknown: $('unknown').value,
    directions,
    version: shipped.version
  });
  $('report-view').replaceChildren(...reports.blocks.map(([kind, ...parts]) => REPORT_NODES[kind](...parts)));
}

/* The blocks of a report as nodes of the page. */
const REPORT_NODES = {
  heading: (level, title) => text(`h${level + 1}`, 'report-head', title),
  text: it => make('p', {}, ...inlineNodes(it)),
  table: (head, rows) => make('table', {className: 'report-table'},
      make('thead', {}, make('tr', {}, ...head.map(it => make('th', {attr: {scope: 'col'}}, ...inlineNodes(it))))),
      make('tbody', {}, ...rows.map(row => make('tr', {}, ...row.map(it => make('td', {}, ...inlineNodes(it))))))),
  list: items => make('ul', {},
      ...items.map(it => make('li', {}, text('code', '', it.text), it.note ? text('span', 'soft', ` ${it.note}`) : '',
                       it.message ? make('details', {}, text('summary', '', 'message'), text('code', '', it.message)) : ''))),
};

function listenToReport() {
  $('report-sends').addEventListener('change', ask);
  const save = (name, type, render) => () => {
    if (reports.blocks) saveText(name, render(reports.blocks), type);
  };
  $('report-html').addEventListener('click', save('upgrade.html', 'text/html', toHtml));
  $('report-markdown').addEventListener('click', save('upgrade.md', 'text/markdown', toMarkdown));
  $('report-copy').addEventListener('click', () => {
    if (reports.blocks) copyText(toMarkdown(reports.blocks), $('report-copy'));
  });
}

'use strict';
/* The tabs Differences, Findings and Command. */

const SHOWN_OUTPUT = 400000; /* characters */

/* ---- differences ---- */

function differenceBadge({breaks: directions = [], sign}) {
  if (directions.length) return badge('bad', `breaks ${directions.map(it => it.replace(' to ', '→')).join(', ')}`);
  return badge('calm', {'+': 'B alone', '-': 'A alone'}[sign] ?? 'differs');
}

async function askDiff() {
  busy('comparing…');
  const words = ['--quiet', ...options(), 'A.txt', 'B.txt'];
  const answer = await run('slow', 'diff-json', ['diff', '--json', ...words]);
  const plain = await run('slow', 'diff', ['diff', ...words], {question: true});
  busy('');
  const rows = answer.status < 2 ? objects(answer.out) : [], isSame = rows[0]?.verdict === 'same';
  setCount('diff', answer.status < 2 ? (isSame ? 0 : rows.length) : null);
  if (answer.status > 1)
    $('diff-lines')
        .replaceChildren(emptyNote('bad', 'No answer',
            answer.status === 3 ? 'Memory was refused.' : 'A or B is no dictionary: its faults are listed below its text.'));
  else if (isSame) $('diff-lines').replaceChildren(emptyNote('good', 'Same', 'The two dictionaries mean the same.'));
  else
    $('diff-lines')
        .replaceChildren(...lines(plain.out).map((line, i) => make('div', {className: 'row', attr: {role: 'listitem'}},
                                                     differenceBadge(rows[i] ?? {}), ` ${line.replace(/; breaks .*$/, '')}`)));
}

/* ---- findings ---- */

function findingRow(pane, it) {
  const label = `${[it.definition, it.avp?.name].filter(Boolean).join('/') || '-'}: ${it.detail ?? ''}`;
  return make('button', {
    type: 'button',
    className: 'row',
    onclick: () => pane.go(it.line, it.column),
    title: it.section ?? 'follows from the definition of a valid message'
  },
      badge(it.kind === 'exact' ? 'bad' : 'calm', it.rule), ' ', text('span', 'soft', `${pane.placeOf(it.line)}:${it.column}`),
      ` ${label}`, text('span', 'soft', it.section ? `   ${it.section}` : ''));
}

async function askLint() {
  busy('looking for findings…');
  const nodes = [];
  let total = 0;
  for (const pane of [panes.a, panes.b]) {
    const answer = await run('quick', `lint-${pane.key}`, ['lint', '--json', '--quiet', pane.file], {question: true});
    const rows = answer.status < 2 ? objects(answer.out).filter(row => row.rule) : [];
    total += rows.length;
    const title = answer.status < 2 ? plural(rows.length, 'finding') :
        answer.status === 3         ? 'memory was refused' :
                                      'no dictionary';
    nodes.push(
        make('h3', {className: 'group'}, text('span', 'side', pane.name), title), ...rows.map(row => findingRow(pane, row)));
  }
  busy('');
  $('lint-lines').replaceChildren(...nodes);
  setCount('lint', total || null);
}

/* ---- any command ---- */

async function askCommand() {
  const words = ($('words').value.match(/"[^"]*"|\S+/g) ?? []).map(it => it.replace(/^"|"$/g, ''));
  const files = {
    'message.hex': $('message').value,
    'accepted.txt': $('accepted').value,
    'connection.txt': $('connection-text').value
  };
  busy('running…');
  const answer = await run('slow', 'command', words, {input: $('message').value, files});
  busy('');
  $('status').textContent = `status ${answer.status}, ${Math.round(answer.ms)} ms, ${(answer.bytes / 2 ** 20).toFixed(1)} MiB`;
  const more = answer.out.length - SHOWN_OUTPUT;
  $('command-out')
      .replaceChildren(more > 0 ? `${answer.out.slice(0, SHOWN_OUTPUT)}\n… ${plural(more, 'more character')}\n` : answer.out,
          text('span', 'err', answer.err));
}

function listenToCommand() {
  $('command-form').addEventListener('submit', () => guarded($('command-out'), askCommand));
  $('words').addEventListener('input', () => {
    $('words').dataset.typed = 'yes';
  });
}

'use strict';
/* The choices of shipped dictionaries, and the examples. */

const SHIPPED = [
  [
    'Small', {
      'readme-a.txt': 'README a.txt',
      'readme-b.txt': 'README b.txt',
      'main.txt': 'UPGRADING main.txt',
      'next.txt': 'UPGRADING next.txt'
    }
  ],
  ['Base', {'rfc6733.txt': 'RFC 6733', 'rfc3588.txt': 'RFC 3588'}],
  ['NASREQ', {'nas.txt': 'RFC 7155', 'nas-4005.txt': 'RFC 4005'}],
  ['Credit control', {'credit-control.txt': 'RFC 8506', 'cc-4006.txt': 'RFC 4006'}],
  ['3GPP', {'cx.txt': 'Cx, Dx', 'sh.txt': 'Sh', 's6a.txt': 'S6a, S13', 'rx.txt': 'Rx', 'gx.txt': 'Gx', 'ro.txt': 'Ro, Rf'}],
  ['Many', {'ietf.txt': 'all of the IETF', 'policy-and-charging.txt': 'policy and charging'}],
];

const EXAMPLES = {
  'An upgrade with eight breaks': {a: 'main.txt', b: 'next.txt'},
  'At most three reports': {a: 'readme-a.txt', b: 'readme-b.txt', sends: 'any', file: 'usage.hex'},
  'Credit control: RFC 4006 sends, RFC 8506 reads': {a: 'cc-4006.txt', b: 'credit-control.txt'},
  'Credit control: RFC 8506 sends, RFC 4006 reads': {a: 'credit-control.txt', b: 'cc-4006.txt'},
  'Base: RFC 6733 sends, RFC 3588 reads': {a: 'rfc6733.txt', b: 'rfc3588.txt', sends: 'known'},
  'A message of S6a, as text': {a: 's6a.txt', b: 'rfc6733.txt', file: 'ulr.txt', tab: 'check'},
  'A connection with departures': {a: 'rfc6733.txt', b: 'rfc3588.txt', connection: 'connection.txt', tab: 'connection'},
};
const FIRST_EXAMPLE = 'An upgrade with eight breaks';

function openExample(name) {
  const it = EXAMPLES[name];
  setField('sends', it.sends ?? 'listed');
  for (const id of ['filter', 'commands', 'accepted']) $(id).value = '';
  Object.assign(accepted, {there: '', back: ''});
  $('meaning').checked = false;
  $('message').value = shipped.files[it.file] ?? '';
  $('connection-text').value = shipped.files[it.connection] ?? '';
  panes.a.choose(it.a);
  panes.b.choose(it.b);
  chooseTab(it.tab ?? 'breaks');
}

function offerExamples() {
  for (const pane of Object.values(panes)) {
    pane.choice.append(make('option', {value: '', textContent: 'own text'}));
    for (const [label, names] of SHIPPED)
      pane.choice.append(make(
          'optgroup', {label}, ...Object.entries(names).map(([value, textContent]) => make('option', {value, textContent}))));
  }
  $('example').append(...Object.keys(EXAMPLES).map(name => make('option', {value: name, textContent: name})));
}

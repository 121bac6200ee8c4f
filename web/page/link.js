'use strict';
/* A link that opens the page with the same dictionaries, messages and options. All is in its fragment, which browsers don't send. */

const MOST_LINK = 6000; /* characters: longer ones are cut by mail programs */
const LINKED = ['sends', 'unknown', 'check-side', 'grouping', 'message', 'commands', 'connection-text', 'connection-side'];

const toBase64 = bytes => btoa(String.fromCharCode(...bytes)).replace(/\+/g, '-').replace(/\//g, '_').replace(/=+$/, '');
const fromBase64 = it => Uint8Array.from(atob(it.replace(/-/g, '+').replace(/_/g, '/')), c => c.charCodeAt(0));
const through = async (bytes, stream) =>
    new Uint8Array(await new Response(new Blob([bytes]).stream().pipeThrough(stream)).arrayBuffer());

async function linkText() {
  const side = pane => pane.choice.value ? {shipped: pane.choice.value} : {text: pane.text};
  const state = {
    a: side(panes.a),
    b: side(panes.b),
    tab,
    meaning: $('meaning').checked,
    accepted,
    fields: Object.fromEntries(LINKED.map(id => [id, $(id).value]))
  };
  return toBase64(await through(new TextEncoder().encode(JSON.stringify(state)), new CompressionStream('deflate-raw')));
}

function openSide(pane, side = {}) {
  const isShipped = typeof side.shipped === 'string' && Object.hasOwn({...shipped.together, ...shipped.files}, side.shipped);
  if (isShipped) pane.choose(side.shipped);
  else pane.setState({text: String(side.text ?? ''), parts: [], choice: ''});
}

function setField(id, value) {
  const it = $(id);
  if (typeof value !== 'string' || it.options && ![...it.options].some(option => option.value === value)) return;
  it.value = value;
}

async function openLink(fragment) {
  const state = JSON.parse(new TextDecoder().decode(await through(fromBase64(fragment), new DecompressionStream('deflate-raw'))));
  for (const id of LINKED) setField(id, state.fields?.[id]);
  $('meaning').checked = state.meaning === true;
  for (const key of ['there', 'back']) accepted[key] = String(state.accepted?.[key] ?? '');
  $('accepted').value = accepted.there;
  openSide(panes.a, state.a);
  openSide(panes.b, state.b);
  if (Object.hasOwn(TABS, state.tab)) chooseTab(state.tab);
}

async function copyLink() {
  const fragment = await linkText();
  if (fragment.length > MOST_LINK) {
    flash($('share'), 'Too large for a link');
    return;
  }
  history.replaceState(null, '', `#${fragment}`);
  copyText(location.href, $('share'));
}

'use strict';
/* The start, the tabs, and what is asked when. */

const TABS = {
  breaks: askBreaks,
  check: askMessages,
  diff: askDiff,
  lint: askLint,
  connection: askConnection,
  report: askReport,
  command: async () => {}
};
let tab = 'breaks';

function busy(what) {
  $('status').textContent = what;
  $('cancel').hidden = !what;
}

/* A number beside a tab's name, or none. */
function setCount(name, number, isBad = false) {
  const it = $(`tab-${name}`);
  it.querySelector('.count')?.remove();
  if (number !== null)
    it.append(text('span',
        `count ${
            number === 0 ? 'good' :
                isBad    ? 'bad' :
                           ''}`,
        number === 0 ? '✓' : number.toLocaleString('en')));
}

/* Where a tab has its answer: it is emptied if there is none. */
const ANSWERS = {
  breaks: 'lines',
  check: 'verdicts',
  diff: 'diff-lines',
  lint: 'lint-lines',
  connection: 'connection-ladder',
  report: 'report-view',
  command: 'command-out'
};

const DETAILS = {breaks: ['line-detail'], check: ['message-detail'], connection: ['connection-detail']};

function sayNoAnswer(place, why) {
  busy('');
  place.replaceChildren(make('div', {className: 'empty bad', attr: {role: 'alert'}}, text('b', '', 'There is no answer'), why));
}

/* Does what may end without an answer. If so, the place says so, and has nothing else. */
async function guarded(place, act, clean = () => {}) {
  try {
    await act();
  } catch (error) {
    if (error instanceof Cancelled) return;
    clean();
    sayNoAnswer(place, error.message);
  }
}

async function ask() {
  const name = tab;
  if (lanes.slow) await guarded($(ANSWERS[name]), TABS[name], () => forget(name));
}

/* Empties what an earlier answer left. */
function forget(name) {
  setCount(name, null);
  if (name === 'breaks') {
    Object.assign(breaks, {rows: [], lines: [], shown: []});
    breaks.list.fill([]);
  }
  if (name === 'check') messages.list.fill([]);
  for (const id of DETAILS[name] ?? []) $(id).replaceChildren();
}

const askAgain = debounce(350, async () => {
  if (!lanes.slow) return;
  for (const name of Object.keys(TABS)) setCount(name, null);
  offerCommands();
  ask();
  for (const pane of Object.values(panes)) await guarded(pane.note, () => pane.judge());
});

function chooseTab(name) {
  tab = name;
  if (name === 'command' && lastQuestion && !$('words').dataset.typed) $('words').value = lastQuestion;
  for (const it of document.querySelectorAll('[role=tab]')) {
    const isChosen = it.id === `tab-${name}`;
    it.setAttribute('aria-selected', isChosen);
    it.tabIndex = isChosen ? 0 : -1;
    $(it.getAttribute('aria-controls')).hidden = !isChosen;
  }
}

function swap() {
  swapAccepted();
  swapPanes();
}

function cancel() {
  lanes.slow.cancel();
  lanes.quick.cancel();
  forget(tab);
  sayNoAnswer($(ANSWERS[tab]), 'The run was cancelled.');
  $('status').textContent = 'cancelled';
}

/* ---- keys, tabs and the splitter ---- */

function listenToTabs() {
  const all = [...document.querySelectorAll('[role=tab]')];
  for (const it of all)
    it.addEventListener('click', () => {
      chooseTab(it.getAttribute('aria-controls'));
      ask();
    });
  document.querySelector('[role=tablist]').addEventListener('keydown', event => {
    const step = {ArrowRight: 1, ArrowLeft: -1}[event.key];
    if (!step) return;
    const next = all[(all.indexOf(event.target) + step + all.length) % all.length];
    next.focus();
    next.click();
  });
}

function listenToKeys() {
  document.addEventListener('keydown', event => {
    const isTyping = /^(TEXTAREA|INPUT|SELECT)$/.test(event.target.tagName), tabs = document.querySelectorAll('[role=tab]');
    const acts = [
      [event.altKey && tabs[event.key - 1], () => tabs[event.key - 1].click()],
      [event.altKey && event.key.toLowerCase() === 's', swap],
      [
        event.key === '/' && !isTyping,
        () => {
          chooseTab('breaks');
          $('filter').focus();
        }
      ],
      [event.key === 'Escape' && !$('cancel').hidden && !$('about').open, cancel],
      [event.key === 'Enter' && event.ctrlKey, () => tab === 'command' ? guarded($('command-out'), askCommand) : ask()],
    ];
    const found = acts.find(([isMeant]) => isMeant);
    if (!found) return;
    event.preventDefault();
    found[1]();
  });
}

function listenToSplitter() {
  const splitter = $('splitter'), top = document.querySelector('.panes');
  const setHeight = percent => {
    const height = Math.min(75, Math.max(12, percent));
    top.style.height = `${height}%`;
    splitter.setAttribute('aria-valuenow', Math.round(height));
    for (const pane of Object.values(panes)) pane.scrolled();
  };
  splitter.addEventListener('pointerdown', event => {
    splitter.setPointerCapture(event.pointerId);
    const all = document.querySelector('main').getBoundingClientRect();
    splitter.onpointermove = it => setHeight(100 * (it.clientY - all.top) / all.height);
    splitter.onpointerup = () => {
      splitter.onpointermove = null;
    };
  });
  splitter.addEventListener('keydown', event => {
    const step = {ArrowUp: -4, ArrowDown: 4}[event.key];
    if (!step) return;
    event.preventDefault();
    setHeight(parseFloat(top.style.height || '40') + step);
  });
}

function setTheme(name) {
  document.documentElement.dataset.theme = name;
  stored.set('theme', name);
}

function listen() {
  listenToBreaks();
  listenToCheck();
  listenToConnection();
  listenToReport();
  listenToCommand();
  listenToTabs();
  listenToKeys();
  listenToSplitter();
  for (const form of document.querySelectorAll('form.options')) form.addEventListener('submit', event => event.preventDefault());
  $('swap').addEventListener('click', swap);
  $('theme').addEventListener('click', () => setTheme(document.documentElement.dataset.theme === 'dark' ? 'light' : 'dark'));
  $('help').addEventListener('click', () => $('about').showModal());
  $('cancel').addEventListener('click', cancel);
  $('share').addEventListener('click', copyLink);
  $('example').addEventListener('change', () => {
    if (EXAMPLES[$('example').value]) openExample($('example').value);
    $('example').value = '';
  });
  addEventListener('hashchange', openFragment);
}

/* ---- the start ---- */

async function openFragment() {
  if (location.hash.length < 2) return false;
  try {
    await openLink(location.hash.slice(1));
    return true;
  } catch {
    $('status').textContent = 'the link is damaged';
    return false;
  }
}

function refuse(error) {
  $('starting').hidden = true;
  $('refused').hidden = false;
  $('refused').textContent =
      `This browser can’t run the program: ${
          error.message} The page needs WebAssembly with a 64-bit memory. It was tried with Chromium 156 and Firefox 153; ` +
      'Chrome and Edge should have it from version 133 on, Firefox from 134 on. Without it there are no answers here: use diacmd, the program, in a terminal.';
}

async function start() {
  setTheme(stored.get('theme') ?? (matchMedia('(prefers-color-scheme: dark)').matches ? 'dark' : 'light'));
  panes.a = new Pane('a', 'sends', askAgain);
  panes.b = new Pane('b', 'reads', askAgain);
  listen();
  try {
    await load();
    $('version').textContent = shipped.version;
  } catch (error) {
    refuse(error);
    return;
  }
  offerExamples();
  $('starting').hidden = true;
  document.querySelector('main').inert = false;
  document.querySelector('main').removeAttribute('aria-busy');
  for (const id of ['example', 'share']) $(id).disabled = false;
  busy('');
  if (!await openFragment()) openExample(FIRST_EXAMPLE);
}

start();

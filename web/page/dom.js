'use strict';
/* What all parts of the page use: elements, texts, storage. Texts of the user become text nodes alone, never markup. */

const $ = id => document.getElementById(id);

/* An element with properties, attributes (`attr`) and children, of which those that are null are left out. */
function make(tag, {attr = {}, ...properties} = {}, ...children) {
  const it = Object.assign(document.createElement(tag), properties);
  for (const [name, value] of Object.entries(attr)) it.setAttribute(name, value);
  it.append(...children.filter(child => child !== null && child !== undefined));
  return it;
}

const text = (tag, className, textContent) => make(tag, {className, textContent});
const button = (label, onclick, more = {}) => make('button', {type: 'button', textContent: label, onclick, ...more});
const badge = (kind, label) => text('span', `badge ${kind}`, label);
const emptyNote = (kind, title, note) => make('div', {className: `empty ${kind}`}, make('b', {textContent: title}), note);

let delayed = 0; /* how many debounced acts wait or are under way: the tests wait for them */

function debounce(ms, act) {
  let timer = null;
  const fire = async (...args) => {
    timer = null;
    try {
      await act(...args);
    } finally {
      delayed--;
    }
  };
  return (...args) => {
    if (timer === null) delayed++;
    clearTimeout(timer);
    timer = setTimeout(() => fire(...args), ms);
  };
}

const plural = (count, one, many = `${one}s`) => `${count.toLocaleString('en')} ${count === 1 ? one : many}`;
const lines = it => it.split('\n').filter(Boolean);
const objects = it => lines(it).map(line => JSON.parse(line));

/* Characters that aren't seen, or that change the direction of others, are written by their numbers. */
const visible = it => it.replace(
    /[\x00-\x1f\x7f-\x9f\u200b-\u200f\u2028-\u202e\u2060-\u2069\ufeff]/g, c => `\\u{${c.codePointAt(0).toString(16)}}`);

/* A page of a file may have no storage. */
const stored = {
  get: key => {
    try {
      return localStorage.getItem(key);
    } catch {
      return null;
    }
  },
  set: (key, value) => {
    try {
      localStorage.setItem(key, value);
    } catch { /* the next visit begins without it */
    }
  },
};

function flash(it, label) {
  const before = it.dataset.label ??= it.textContent;
  it.textContent = label;
  clearTimeout(it.timer);
  it.timer = setTimeout(() => {
    it.textContent = before;
  }, 1500);
}

async function copyText(copied, it) {
  try {
    await navigator.clipboard.writeText(copied);
    flash(it, 'Copied');
  } catch {
    const area = make('textarea', {value: copied});
    document.body.append(area);
    area.select();
    flash(it, document.execCommand('copy') ? 'Copied' : 'Not allowed here');
    area.remove();
    it.focus();
  }
}

/* Offers a text as a file of this name. */
function saveText(name, saved, type = 'text/plain') {
  const url = URL.createObjectURL(new Blob([saved], {type: `${type};charset=utf-8`}));
  make('a', {href: url, download: name}).click();
  setTimeout(() => URL.revokeObjectURL(url), 10000);
}

/* Lets the user choose files, and gives these to `act`. */
function openFiles(act) {
  const it = $('file');
  it.value = '';
  it.onchange = async () => act(await namedTexts(it.files));
  it.click();
}

const namedTexts = files => Promise.all([...files].map(async file => ({name: file.name, text: await file.text()})));

/* Gives files that are dropped on a place to `act`. */
function acceptDrops(place, act) {
  place.addEventListener('dragover', event => {
    event.preventDefault();
    place.classList.add('dragging');
  });
  place.addEventListener('dragleave', () => place.classList.remove('dragging'));
  place.addEventListener('drop', async event => {
    event.preventDefault();
    place.classList.remove('dragging');
    const found = await namedTexts(event.dataTransfer.files);
    if (found.length) act(found);
  });
}

/* A list whose rows are chosen by mouse or keys. */
class List {
  constructor(place, choose) {
    Object.assign(this, {place, choose, rows: [], at: -1});
    place.addEventListener('keydown', event => {
      const step = {ArrowDown: 1, ArrowUp: -1, PageDown: 12, PageUp: -12, Home: -Infinity, End: Infinity}[event.key];
      if (step === undefined || this.rows.length === 0) return;
      event.preventDefault();
      this.select(Math.min(this.rows.length - 1, Math.max(0, this.at + step)));
    });
  }
  /* Shows these nodes, of which the rows can be chosen. */
  fill(nodes, rows = []) {
    this.place.replaceChildren(...nodes);
    Object.assign(this, {rows, at: -1});
    this.place.removeAttribute('aria-activedescendant');
    rows.forEach((row, number) => {
      row.id = `${this.place.id}-${number}`;
      row.setAttribute('role', 'option');
      row.setAttribute('aria-selected', 'false');
      row.onclick = () => this.select(number);
    });
  }
  select(number) {
    this.rows[this.at]?.setAttribute('aria-selected', 'false');
    this.at = number;
    const row = this.rows[number];
    row.setAttribute('aria-selected', 'true');
    this.place.setAttribute('aria-activedescendant', row.id);
    row.scrollIntoView({block: 'nearest'});
    this.choose(number);
  }
}

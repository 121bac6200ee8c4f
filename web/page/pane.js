'use strict';
/* A pane: the text of one dictionary, which may be of several files, with colours, faults, and undo. */

const LINE_HEIGHT = 18;  /* pixels, as in style.css */
const DRAWN_LINES = 110; /* only these are in the document, so the time to draw doesn't grow with the text */
const MARGIN = 20;
const TYPING_PAUSE = 1000;   /* milliseconds: what is typed without a longer pause is undone at once */
const UNDO_CHARACTERS = 2e7; /* how much text the steps of undo may hold */
const WORDS = 'vendor|must|mustnot|any|REQ|PXY|ERR|OctetString|Integer32|Integer64|Unsigned32|Unsigned64|Float32|Float64|Grouped|Address|'
    + 'Time|UTF8String|DiameterIdentity|DiameterURI|Enumerated|IPFilterRule|QoSFilterRule';
/* What has a colour: a comment, a declaration, the name of a definition, a word. */
const TOKEN = new RegExp(
    `(;[^\\n]*)|(%avp)\\b|<\\s*([A-Za-z0-9-]+)\\s*>(?=\\s*::=)|(?<![A-Za-z0-9-])(${WORDS})\\b(?!-)`, 'g');

const panes = {};

/* The states before and after the present one. */
class History {
  constructor() { Object.assign(this, {past: [], future: []}); }
  add(state) {
    this.past.push(state);
    this.future = [];
    let held = this.past.reduce((sum, it) => sum + it.text.length, 0);
    while (held > UNDO_CHARACTERS && this.past.length > 1) held -= this.past.shift().text.length;
  }
  /* The state before `now`, or null. */
  undo(now) {
    if (!this.past.length) return null;
    this.future.push(now);
    return this.past.pop();
  }
  redo(now) {
    if (!this.future.length) return null;
    this.past.push(now);
    return this.future.pop();
  }
}

class Pane {
  constructor(key, role, whenChanged) {
    Object.assign(this, {
      key,
      role,
      whenChanged,
      file: `${key.toUpperCase()}.txt`,
      text: '',
      parts: [],
      faults: [],
      shown: null,
      first: 0,
      starts: [0],
      marks: []
    });
    this.history = new History();
    this.typedAt = 0;
    this.build();
    this.listen();
  }
  get name() { return this.key.toUpperCase(); }
  /* A name for reports: of the shipped choice, or of the files. */
  get title() {
    const choice = this.choice.selectedOptions[0];
    return choice?.value ? choice.textContent : this.parts.map(it => it.name).join(' + ') || 'own text';
  }
  build() {
    this.choice = make('select', {attr: {'aria-label': `Shipped dictionary for ${this.name}`}});
    this.area = make('textarea', {
      spellcheck: false,
      wrap: 'off',
      attr: {
        'aria-label': `Dictionary ${this.name}, which ${this.role}`,
        'aria-describedby': `note-${this.key}`,
        autocapitalize: 'off',
        autocomplete: 'off'
      }
    });
    this.back = make('pre', {attr: {'aria-hidden': 'true'}});
    this.gutter = make('div', {className: 'gutter', attr: {'aria-hidden': 'true'}});
    this.note = make('div', {className: 'pane-note', id: `note-${this.key}`, attr: {role: 'status'}});
    this.files = make('div', {className: 'files', attr: {role: 'group', 'aria-label': `Files of ${this.name}`}});
    this.undoButton = button('Undo', () => this.undo(),
        {disabled: true, title: 'Undo the last change, also of a choice (Ctrl+Z)', attr: {'aria-label': `Undo in ${this.name}`}});
    const open = button('Open…', () => openFiles(parts => this.setParts(parts)),
        {title: 'One or more files in place of this text', attr: {'aria-label': `Open files in ${this.name}`}});
    const add = button('Add…', () => openFiles(parts => this.setParts([...this.parts, ...parts])),
        {title: 'Files after those that are here', attr: {'aria-label': `Add files to ${this.name}`}});
    $(`pane-${this.key}`)
        .append(make('div', {className: 'pane-bar'}, text('span', 'side', this.name), text('span', 'role', this.role),
                    text('span', 'grow', ''), this.choice, open, add, this.undoButton),
            this.files, make('div', {className: 'editor'}, this.gutter, make('div', {className: 'text'}, this.back, this.area)),
            this.note);
  }
  listen() {
    this.area.addEventListener('input', () => this.edited());
    this.area.addEventListener('scroll', () => this.scrolled());
    this.area.addEventListener('beforeinput', event => {
      if (event.inputType === 'historyUndo' || event.inputType === 'historyRedo') event.preventDefault();
    });
    this.area.addEventListener('keydown', event => {
      const key = event.key.toLowerCase(), isRedo = key === 'y' || key === 'z' && event.shiftKey;
      if (!(event.ctrlKey || event.metaKey) || event.altKey || key !== 'z' && key !== 'y') return;
      event.preventDefault();
      isRedo ? this.redo() : this.undo();
    });
    this.choice.addEventListener('change', () => {
      if (this.choice.value) this.choose(this.choice.value);
    });
    acceptDrops($(`pane-${this.key}`), parts => this.setParts(parts));
  }

  /* ---- states ---- */

  get state() { return {text: this.text, parts: this.parts, choice: this.choice.value}; }
  restore(state) {
    this.area.value = state.text;
    this.choice.value = state.choice;
    this.update(state.text, state.parts);
  }
  update(whole, parts) {
    Object.assign(this, {text: whole, parts, faults: [], shown: null, typedAt: 0});
    this.starts = startsOf(whole);
    this.undoButton.disabled = !this.history.past.length;
    this.drawFiles();
    this.draw();
    this.whenChanged(this);
  }
  undo() { this.step(this.history.undo(this.state)); }
  redo() { this.step(this.history.redo(this.state)); }
  step(state) {
    if (!state) return;
    const {from, newEnd} = changeBetween(this.text, state.text);
    this.restore(state);
    this.area.setSelectionRange(from, newEnd);
  }
  /* A state that isn't typed: a choice, files, the other pane's. */
  setState(state) {
    if (this.text || this.parts.length) this.history.add(this.state);
    this.restore(state);
    this.area.scrollTop = 0;
  }
  setParts(files, choice = '') {
    const parts = [];
    let whole = '';
    for (const it of files) {
      const lf = it.text.replace(/\r\n?/g, '\n'), own = lf === '' || lf.endsWith('\n') ? lf : `${lf}\n`;
      parts.push({name: it.name, from: whole.length});
      whole += own;
    }
    this.setState({text: whole, parts, choice});
  }
  choose(name) { this.setParts(shippedParts(name), name); }
  /* What is typed or pasted. The parts begin where they began, moved by the change. */
  edited() {
    const after = this.area.value, now = Date.now();
    if (now - this.typedAt > TYPING_PAUSE) this.history.add(this.state);
    const {from, oldEnd, newEnd} = changeBetween(this.text, after);
    const move = at => at <= from ? at : at >= oldEnd ? at + newEnd - oldEnd : newEnd;
    this.choice.value = '';
    this.update(after, after ? this.parts.map(it => ({...it, from: move(it.from)})) : []);
    this.typedAt = now;
  }
  textOfPart(number) { return this.text.slice(this.parts[number].from, this.parts[number + 1]?.from); }
  withoutPart(number) {
    return this.parts.map((it, i) => ({name: it.name, text: this.textOfPart(i)})).filter((_, i) => i !== number);
  }
  lineOf(offset) {
    let low = 0, high = this.starts.length;
    while (high - low > 1) {
      const middle = (low + high) >> 1;
      if (this.starts[middle] <= offset) low = middle;
      else high = middle;
    }
    return low + 1;
  }
  /* A line of the whole text, as file and line if there are several files. */
  placeOf(line) {
    if (this.parts.length < 2) return `${this.name}:${line}`;
    const offset = this.starts[line - 1] ?? 0;
    const part = this.parts.findLast(it => it.from <= offset) ?? this.parts[0];
    return `${part.name}:${line - this.lineOf(part.from) + 1}`;
  }

  /* ---- what is drawn ---- */

  drawFiles() {
    this.files.hidden = this.parts.length < 2;
    this.files.replaceChildren(...this.parts.map(
        (it, number) => make('span', {className: 'file'},
            button(it.name, () => this.go(this.lineOf(it.from), 1), {className: 'link', title: `Go to ${it.name}`}),
            button('×', () => this.setParts(this.withoutPart(number)),
                {className: 'link', attr: {'aria-label': `Remove ${it.name} from ${this.name}`}}))));
  }
  draw() {
    const {text: it, starts} = this;
    const shown = this.shown ? [{...this.shown, name: 'shown'}] : [];
    this.marks = [...this.faults.map(fault => ({...fault, name: 'underlined'})), ...shown]
                     .map(mark => ({...mark, ...spanAt(it, starts, mark.line, mark.column)}))
                     .sort((x, y) => x.from - y.from);
    this.drawWindow();
    this.scrolled();
  }
  scrolled() {
    const first = Math.floor(this.area.scrollTop / LINE_HEIGHT), seen = this.area.clientHeight / LINE_HEIGHT;
    if (first < this.first + 5 && this.first > 0 || first + seen > this.first + DRAWN_LINES - 5) this.drawWindow();
    const down = this.first * LINE_HEIGHT - this.area.scrollTop;
    this.back.style.transform = `translate(${- this.area.scrollLeft}px, ${down}px)`;
    this.gutter.firstChild.style.transform = `translateY(${down}px)`;
  }
  /* The lines around those that are seen, behind the text area, which itself is transparent. */
  drawWindow() {
    const {text: it, starts} = this;
    this.first = Math.max(0, Math.min(starts.length - 1, Math.floor(this.area.scrollTop / LINE_HEIGHT)) - MARGIN);
    const last = Math.min(starts.length, this.first + DRAWN_LINES);
    const end = last < starts.length ? starts[last] : it.length;
    const nodes = [];
    let at = starts[this.first];
    for (const mark of this.marks) {
      if (mark.from < at || mark.from > end) continue;
      nodes.push(...coloured(it.slice(at, mark.from)),
          make('span', {className: mark.name, textContent: it.slice(mark.from, mark.to) || ' '}));
      at = Math.max(mark.from, mark.to);
    }
    nodes.push(...coloured(it.slice(at, end)));
    this.back.replaceChildren(...nodes);
    this.gutter.replaceChildren(
        text('div', '', Array.from({length: last - this.first}, (_, i) => this.first + i + 1).join('\n')));
  }
  /* Scrolls to a position, and marks it. */
  show(line, column) {
    this.shown = {line, column};
    this.draw();
    const wanted = (line - 1) * LINE_HEIGHT, {scrollTop, clientHeight} = this.area;
    if (wanted < scrollTop + LINE_HEIGHT || wanted > scrollTop + clientHeight - 2 * LINE_HEIGHT)
      this.area.scrollTop = Math.max(0, wanted - clientHeight / 3);
    const aside = this.back.querySelector('.shown')?.offsetLeft ?? 0, {scrollLeft, clientWidth} = this.area;
    if (aside < scrollLeft || aside > scrollLeft + clientWidth - 120) this.area.scrollLeft = Math.max(0, aside - clientWidth / 2);
    this.scrolled();
  }
  unmark() {
    this.shown = null;
    this.draw();
  }
  go(line, column) {
    this.show(line, column);
    const {from} = spanAt(this.text, this.starts, line, column);
    this.area.focus({preventScroll: true});
    this.area.setSelectionRange(from, from);
  }

  /* ---- what the program says of the text ---- */

  async judge() {
    /* A message of no bytes: the dictionary is judged first, and the message is then truncated. */
    const answer = await run('quick', `judge-${this.key}`, ['check', this.file, '-'], {input: ''});
    const isRefused = answer.status === 2;
    this.faults = isRefused ? [...answer.err.matchAll(new RegExp(`^${this.name}\\.txt:(\\d+):(\\d+): (.*)$`, 'gm'))].map(
                                  it => ({line: +it[1], column: +it[2], words: it[3]})) :
                              [];
    this.note.classList.toggle('bad', isRefused);
    this.note.replaceChildren(...(isRefused ? this.faultNotes(answer) :
            answer.status === 3             ? ['memory was refused'] :
                                              [this.summary()]));
    this.draw();
  }
  faultNotes(answer) {
    const hint = /^hint: (.*)$/m.exec(answer.err)?.[1];
    const nodes =
        this.faults.map(it => button(`${this.placeOf(it.line)}:${it.column}  ${it.words}`, () => this.go(it.line, it.column)));
    return [...(nodes.length ? nodes : [answer.out.trim()]), hint ? text('div', '', `hint: ${hint}`) : ''];
  }
  summary() {
    const count = pattern => (this.text.match(pattern) ?? []).length;
    return `a dictionary: ${plural(count(/^\s*%avp\b/gm), 'declaration')}, ${plural(count(/::=/g), 'definition')}, ${
        plural(this.starts.length, 'line')}`;
  }
}

/* The files of a shipped dictionary. */
const shippedParts = name => (shipped.together[name] ?? [name]).map(part => ({name: part, text: shipped.files[part]}));
const textOfShipped = name => shippedParts(name).map(it => it.text).join('');

/* Nodes of a piece of dictionary text. */
function coloured(piece) {
  const nodes = [];
  let done = 0;
  for (const it of piece.matchAll(TOKEN)) {
    nodes.push(piece.slice(done, it.index), text('span', it[1] ? 'c-note' : it[3] ? 'c-def' : 'c-word', it[0]));
    done = it.index + it[0].length;
  }
  nodes.push(piece.slice(done));
  return nodes;
}

function swapPanes() {
  const [a, b] = [panes.a.state, panes.b.state];
  panes.a.setState(b);
  panes.b.setState(a);
}

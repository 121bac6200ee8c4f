'use strict';
/* A message: its AVPs as a tree, and its bytes, with the faults marked in both. */

const HEADER_BYTES = 20;
const HEADER_FIELDS = new Map([[0, 1], [1, 4], [4, 5], [5, 8], [8, 12], [12, 16], [16, 20]]); /* where each begins and ends */
const SHOWN_BYTES = 4096;
const SHOWN_AVPS = 3000;
const SHOWN_FAULTS = 1000;

/* A fault of `check`, or null for another line. */
function faultOf(line) {
  const it = /^fault (\d+) at (\d+) (\S+) (.*)$/.exec(line);
  return it && {code: +it[1], at: +it[2], reason: it[3], subject: it[4]};
}

/* The bytes that a fault is about: from, to. None for an AVP that is missing. */
function bytesOfFault(fault, row, total) {
  if (fault.at < HEADER_BYTES) return [fault.at, HEADER_FIELDS.get(fault.at) ?? fault.at + 1];
  if (fault.reason === 'missing') return [0, 0];
  if (!row) return [fault.at, Math.min(total, fault.at + 8)];
  const data = fault.at + (row.flags & 0x80 ? 12 : 8), end = fault.at + row.length;
  if (fault.reason === 'm-bit') return [fault.at + 4, fault.at + 5];
  if (fault.reason === 'leaf-value' || fault.reason === 'leaf-length')
    return end > data ? [data, end] : [fault.at + 5, fault.at + 8];
  return [fault.at, end];
}

const letters = (flags, names) => [...names].map((letter, i) => flags & (0x80 >> i) ? letter : '-').join('');

function avpFlags(flags) {
  const reserved = flags & 0x1f;
  return letters(flags, 'VMP') + (reserved ? `+${reserved.toString(16).padStart(2, '0')}` : '');
}

function octets(hex) {
  const characters = (hex.match(/../g) ?? []).map(it => String.fromCharCode(parseInt(it, 16))).join('');
  return /^[\x20-\x7e]+$/.test(characters) ? `"${characters}"` : `x${hex}`;
}

function valueOf({value, word, time}) {
  if (value === undefined || value === null) return '';
  const own = typeof value !== 'object' ? visible(String(value)) :
      value.family !== undefined        ? `family ${value.family} x${value.hex}` :
                                          octets(value.hex);
  return [own, word, time].filter(Boolean).join(' ');
}

const faultWords = it => `${it.side ? `${it.side}: ` : ''}${it.code} ${it.reason}${it.subject === '-' ? '' : ` ${it.subject}`}`;

/* The two drawings of one message. `rows` is what `show --json` reports of it, without the `more` AVPs after SHOWN_AVPS. */
class MessageView {
  constructor(hex, rows, more, faults) {
    this.hex = hex;
    this.total = hex.length / 2;
    this.header = rows[0] ?? {};
    this.avps = rows.slice(1).filter(row => row.at !== undefined && row.depth !== undefined);
    this.more = more;
    this.faults = faults;
    this.faultsAt = grouped(faults, it => it.at);
    this.cells = [];
  }
  nodes() {
    const bytes = this.drawBytes();
    return [this.drawTree(), text('h3', '', plural(this.total, 'byte')), bytes];
  }
  highlight(from, to, is) {
    for (let i = from; i < to && i < this.cells.length; i++) this.cells[i].classList.toggle('over', is);
  }
  row(className, from, to, ...cells) {
    const tr = make('tr', {className}, ...cells);
    tr.onmouseenter = () => this.highlight(from, to, true);
    tr.onmouseleave = () => this.highlight(from, to, false);
    return tr;
  }
  why(faults) { return faults.map(it => text('div', 'why', faultWords(it))); }
  headerRow() {
    const own = this.faults.filter(it => it.at < HEADER_BYTES),
          {command, code, flags, length, application, hop_by_hop: hop, end_to_end: end} = this.header;
    return this.row(own.length ? 'fault' : '', 0, HEADER_BYTES, text('td', 'at', '0'),
        make('td', {}, text('b', '', command || 'Diameter header'), ...this.why(own)), text('td', '', code ?? ''),
        text('td', '', flags === undefined ? '' : letters(flags, 'RPET')), text('td', '', length ?? this.total),
        text('td', 'value', application === undefined ? '' : `application ${application}  hop-by-hop ${hop}  end-to-end ${end}`));
  }
  avpRow(it) {
    const own = (this.faultsAt.get(it.at) ?? []).filter(fault => fault.reason !== 'missing');
    const name = make('td', {}, text('span', it.name ? '' : 'unknown', it.name || 'unknown'), ...this.why(own));
    name.style.paddingLeft = `${6 + 16 * Math.min(it.depth, 20)}px`;
    return this.row(own.length ? 'fault' : '', it.at, it.at + it.length, text('td', 'at', it.at), name,
        text('td', '', it.vendor ? `${it.code}:${it.vendor}` : it.code), text('td', '', avpFlags(it.flags)),
        text('td', '', it.length), text('td', 'value', valueOf(it)));
  }
  /* The row of a fault between AVPs: at the end of a level, or where no AVP begins. */
  endRow(it) {
    const note = it.reason === 'missing' ? 'the level that ends here lacks it' : 'no AVP begins here';
    return make('tr', {className: 'end fault'}, text('td', 'at', it.at),
        make('td', {attr: {colspan: '5'}}, ...this.why([it]), text('span', 'soft', note)));
  }
  /* The faults that have no AVP at their offset, as far as the AVPs are shown. */
  faultsBetween() {
    const places = new Set(this.avps.map(it => it.at)), end = this.more > 0 ? this.avps.at(-1).at : Infinity;
    const isBetween = it => it.at >= HEADER_BYTES && it.at <= end && (it.reason === 'missing' || !places.has(it.at));
    return this.faults.filter(isBetween).sort((x, y) => x.at - y.at);
  }
  drawTree() {
    const rows = [this.headerRow()], ends = this.faultsBetween();
    for (const it of this.avps) {
      while (ends.length && (ends[0].at < it.at || ends[0].at === it.at && ends[0].reason === 'missing'))
        rows.push(this.endRow(ends.shift()));
      rows.push(this.avpRow(it));
    }
    rows.push(...ends.map(it => this.endRow(it)));
    if (this.more > 0)
      rows.push(make('tr', {}, make('td', {textContent: `… ${plural(this.more, 'more AVP')}`, attr: {colspan: '6'}})));
    const head = make('tr', {},
        ...['offset', 'AVP', 'code', 'flags', 'length', 'value'].map(it => make('th', {textContent: it, attr: {scope: 'col'}})));
    return make('table', {className: 'tree'}, make('caption', {className: 'hidden', textContent: 'The AVPs of the message'}),
        make('thead', {}, head), make('tbody', {}, ...rows));
  }
  /* The class of each shown byte: which AVP of the body it is in, by turns, and whether a fault is about it. */
  byteClasses() {
    const classes = Array.from({length: Math.min(this.total, SHOWN_BYTES)}, () => '');
    const mark = (from, to, name) => {
      for (let i = from; i < to && i < classes.length; i++) classes[i] += name;
    };
    let turn = 0;
    for (const it of this.avps)
      if (it.depth === 0) mark(it.at, it.at + Math.ceil(it.length / 4) * 4, turn++ % 2 ? 'h0' : 'h1');
    const byPlace = new Map(this.avps.map(it => [it.at, it]));
    for (const it of this.faults) mark(...bytesOfFault(it, byPlace.get(it.at), this.total), ' x');
    return classes;
  }
  drawBytes() {
    const classes = this.byteClasses(), shown = classes.length, nodes = [];
    for (let at = 0; at < shown; at += 16) {
      nodes.push(text('i', 'o', `${at.toString().padStart(5)}  `));
      let characters = '';
      for (let i = at; i < at + 16; i++) {
        if (i >= shown) {
          nodes.push('   ');
          continue;
        }
        const two = this.hex.slice(2 * i, 2 * i + 2), code = parseInt(two, 16);
        characters += code >= 0x20 && code < 0x7f ? String.fromCharCode(code) : '·';
        this.cells[i] = text('i', classes[i], two);
        nodes.push(this.cells[i], i % 16 === 7 ? '  ' : ' ');
      }
      nodes.push(' ', text('i', 'o', characters), '\n');
    }
    if (this.total > shown) nodes.push(text('i', 'o', `… ${plural(this.total - shown, 'more byte')}`));
    return make('div', {className: 'hex', attr: {'aria-label': 'Bytes of the message', tabindex: '0', role: 'group'}}, ...nodes);
  }
}

/* The faults of a message under a dictionary: all of them, the first line, and how the program explains it. */
async function faultsUnder(side, hex, options, topic) {
  const answer =
      await run('quick', topic, ['check', '--all', ...options, `${side}.txt`, 'message.hex'], {files: {'message.hex': hex}});
  const found = lines(answer.out);
  return {
    side,
    first: found[0] ?? 'memory was refused',
    more: found.length - 1,
    err: answer.err.trim(),
    faults: found.slice(0, SHOWN_FAULTS).map(faultOf).filter(Boolean)
  };
}

/* Shows a message with the names of one dictionary, and its faults under others. */
async function showMessage(place, hex, {names, sides, unknown = 'kept', levels = '', topic, tools = []}) {
  const files = {'message.hex': hex};
  const options = ['--unknown', unknown, ...(levels ? ['--levels', levels] : [])];
  const shown =
      await run('quick', topic, ['show', '--json', '--names', '--values', 'values.txt', '--dict', names, 'message.hex'], {files});
  const reports = [];
  for (const side of sides) reports.push(await faultsUnder(side, hex, options, topic));
  const faults = reports.flatMap(it => it.faults.map(fault => ({...fault, side: sides.length > 1 ? it.side : ''})));
  const copy = button('Copy hexadecimal', () => copyText(hex, copy));
  const textBox = make('div');
  const showText = async () => {
    const it = await run('quick', 'text', ['show', '--as-text', '--dict', names, 'message.hex'], {files});
    textBox.replaceChildren(text('pre', '', it.out || it.err));
  };
  const asText = button('As text', () => guarded(textBox, showText), {title: 'With names, as diacmd make reads it'});
  const verdicts =
      reports.map(it => make('div', {}, badge(it.first.startsWith('valid') ? 'good' : 'bad', `under ${it.side}`), ' ',
                      text('span', 'mono', it.first + (it.more > 0 ? `  and ${plural(it.more, 'more fault')}` : ''))));
  const explained =
      reports.filter(it => it.err)
          .map(it => make('details', {}, text('summary', '', `In words, under ${it.side}`), text('pre', '', it.err)));
  const rows = lines(shown.out), seen = rows.slice(0, 1 + SHOWN_AVPS).map(row => JSON.parse(row));
  const drawn = shown.status > 1 ? [text('p', 'note bad', shown.out.trim() || shown.err.trim())] :
                                   new MessageView(hex, seen, rows.length - seen.length, faults).nodes();
  place.replaceChildren(...verdicts, ...explained, make('div', {className: 'tools'}, copy, asText, ...tools), textBox, ...drawn);
}

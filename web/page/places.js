'use strict';
/* Positions in dictionary texts: lines and columns count from 1, columns in characters, as the program has them. */

/* What is marked at a position: a declaration's head, a rule, or a word. */
const NAME = '[A-Za-z0-9-]+';
const RULE = String.raw`\d*\s*\*?\s*\d*\s*(?:<\s*${NAME}\s*>|\{\s*${NAME}\s*\}|\[\s*${NAME}\s*\])`;
const MARKED = new RegExp(String.raw`^(?:%avp\s+${NAME}|${RULE}|${NAME}|::=|\.\.|[^\s])`);

/* The offsets at which lines begin. */
function startsOf(it) {
  const starts = [0];
  for (let at = it.indexOf('\n'); at >= 0; at = it.indexOf('\n', at + 1)) starts.push(at + 1);
  return starts;
}

/* The offsets of what is at a position. */
function spanAt(it, starts, line, column) {
  let from = starts[Math.min(line, starts.length) - 1];
  for (let n = 1; n < column && from < it.length && it[from] !== '\n'; n++) from += it.codePointAt(from) > 0xffff ? 2 : 1;
  const found = MARKED.exec(it.slice(from, from + 300));
  return {from, to: from + (found ? found[0].length : 0)};
}

/* What the two texts differ in: `from` to `oldEnd` of the one has become `from` to `newEnd` of the other. */
function changeBetween(before, after) {
  const most = Math.min(before.length, after.length);
  let from = 0, tail = 0;
  while (from < most && before[from] === after[from]) from++;
  while (tail < most - from && before[before.length - 1 - tail] === after[after.length - 1 - tail]) tail++;
  return {from, oldEnd: before.length - tail, newEnd: after.length - tail};
}

/* The line of a position, and for a rule the head of its definition: rows with a line number and three parts of text, of which the
 * second is what is at the position. */
function excerpt(it, line, column) {
  const all = it.split('\n'), starts = startsOf(it);
  const own = all[line - 1] ?? '';
  const span = spanAt(it, starts, line, column);
  const [from, to] = [span.from - starts[line - 1], span.to - starts[line - 1]];
  const row = {number: line, parts: [own.slice(0, from).trimStart(), own.slice(from, to), own.slice(to)]};
  if (/^\s*%avp/.test(own) || /::=/.test(own)) return [row];
  let head = line - 1;
  while (head > 1 && !/::=/.test(all[head - 1])) head--;
  row.parts[0] = `  ${row.parts[0]}`;
  const between = line - head > 1 ? [{number: null, parts: ['…', '', '']}] : [];
  return [{number: head, parts: [(all[head - 1] ?? '').trim(), '', '']}, ...between, row];
}

#!/usr/bin/env python3
"""Writes tables of AVPs, as RFCs, 3GPP's specifications and spreadsheets have them, as a dictionary text of diacmd.

What has no place in the text, and what the tables don't say, is told on standard error, as FILE:LINE: WHAT.

- A table has bars between its columns (also one of Markdown or of Emacs' Org), or FILE is a CSV file, with commas,
  semicolons or tabs. In an RFC's table the first column may hold name, code, section and type. All other text is skipped.
- The head names the columns: attribute name, code, value type, must, may, should not (shld not), must not, vendor. The
  first three have to be there; other columns are skipped. A head may have several lines.
- M under MUST is the M rule `must`, M under MUST NOT `mustnot`, else `any`.
- The vendor is that of its column; where there is none, an AVP with V under MUST has that of --vendor.
- A name may go on in the next row, behind a hyphen. What stands in brackets behind a name is left out, told.
- A table says nothing of the members of a group: each group accepts any AVPs, told.
- A name has `-` for each run of other signs, as `_`, told.
- Of two AVPs with one code and vendor, or one name, the first is kept; the other is told.
"""
import csv
import re
import sys

from dictionary_text import FORMATS, GREATEST_NUMBER, Beside, declaration, finish, name_of, open_group, parser_of, renamed

COLUMNS = {
    'name': 'name', 'attributename': 'name', 'avpname': 'name', 'avp': 'name', 'code': 'code', 'avpcode': 'code',
    'type': 'type', 'valuetype': 'type', 'datatype': 'type', 'vendor': 'vendor', 'vendorid': 'vendor',
    'must': 'must', 'mustnot': 'must not',
}
NEEDED = {'name', 'code', 'type'}
KINDS = {name.lower(): kind for name, kind in FORMATS.items()}
# the first column of an RFC's table: its head, and a row
PACKED_HEAD = re.compile(r'(?=.*attributename)(?=.*code)(?=.*(?:data|value)type)')
PACKED = re.compile(r'(\S+)\s+(\d+)\s+(?:\d+(?:\.\d+)*\s+)?(\w+)')
RULE = re.compile(r'[-+=:\s]*[-=][-+=:\s]*')
MIXED_RULE = re.compile(r'-{3}')
BRACKETS = re.compile(r'\s*[\[(][^\])]*[\])]$')
# between the pages of an RFC
PAGE = re.compile(r'.*\[Page \d+\]$|RFC \d+ .*|\s*')


class Row:
    """A row of a table that has a code: its line, and the texts of its columns. A name may go on in the next rows."""

    def __init__(self, line, cells):
        self.line = line
        self.cells = cells

    def get(self, column):
        return self.cells.get(column, '')

    def add(self, cells):
        for column, text in cells.items():
            self.cells[column] = self.get(column) + text


class Head:
    """Finds the columns of a table in the lines of its head."""

    def __init__(self):
        self.lines = []
        self.columns = {}       # the name of a column -> its place
        self.is_packed = False

    def add(self, cells):
        if any(MIXED_RULE.search(cell) for cell in cells):
            self.lines.clear()
        self.lines.append(['' if RULE.fullmatch(cell) else cell for cell in cells])
        width = max(map(len, self.lines))
        words = [''.join(line[place] for line in self.lines if place < len(line)).lower() for place in range(width)]
        words = [re.sub('[^a-z]', '', word) for word in words]
        self.columns = {}
        for place, word in enumerate(words):
            if word in COLUMNS:
                self.columns.setdefault(COLUMNS[word], place)
        self.is_packed = bool(words and PACKED_HEAD.match(words[0]))

    def is_whole(self):
        return self.is_packed or NEEDED <= set(self.columns)

    def texts(self, cells):
        """The texts of a row by their columns."""
        texts = {column: cells[place] for column, place in self.columns.items() if place < len(cells)}
        if self.is_packed:
            packed = PACKED.fullmatch(cells[0])
            texts['name'], texts['code'], texts['type'] = packed.groups() if packed else (cells[0], '', '')
        return texts


def tables_of_bars(lines):
    """The tables with bars: (line, cells) of each row, and (line, None) for a line between rows."""
    table = []
    for number, line in enumerate(lines + ['end'], 1):
        if '|' in line or (line.strip() and RULE.fullmatch(line)):
            table.append((number, line.rstrip()))
        elif table and not PAGE.fullmatch(line):
            yield list(cells_of(table))
            table = []


def cells_of(table):
    """The cells of each line. A table whose bars all have text behind them alone begins with one, and so may single rows."""
    split = [(number, None if RULE.fullmatch(line.replace('|', ' ')) else
              [cell.strip() for cell in line.removesuffix('|').split('|')]) for number, line in table]
    width = max((len(cells) for _, cells in split if cells and cells[0]), default=0)
    for number, cells in split:
        is_bound = cells and not cells[0] and len(cells) > width
        yield number, cells[1:] if is_bound else cells


def table_of_csv(text):
    """The file as one table. The sign between columns is the one that its head has."""
    for sign in ',;\t':
        rows = [(number, [' '.join(cell.split()) for cell in cells]) for number, cells in numbered(text, sign)]
        head = Head()
        for _, cells in rows:
            head.lines.clear()
            head.add(cells)
            if head.is_whole() and not head.is_packed:
                return rows
    return []


def numbered(text, sign):
    reader, line = csv.reader(text.splitlines(keepends=True), delimiter=sign), 1
    for cells in reader:
        if cells:
            yield line, cells
        line = reader.line_num + 1


def rows_of(table):
    """The rows of a table, and its head. Rows without a code that go with no other stand behind the others."""
    head, rows, alone, begun = Head(), [], [], None
    for number, cells in table:
        texts = head.texts(cells) if cells and head.is_whole() else {}
        name, has_code = texts.get('name', ''), texts.get('code', '').isdigit()
        if cells is None and not head.is_whole():
            head.lines.clear()
        elif cells is None or name.startswith('#') or head.is_whole() and cells in head.lines:
            continue        # a rule, a comment, or the head once more, on another page
        elif not head.is_whole() or not (rows or begun or name):
            head.add(cells)
        elif has_code and begun and is_more(begun.get('name'), name):
            begun.add(texts)
            rows.append(begun)
            begun = None
        elif has_code:
            alone += [begun] * (begun is not None)
            rows.append(Row(number, texts))
            begun = None
        elif rows and not begun and is_more(rows[-1].get('name'), name):
            rows[-1].add(texts)
        elif name:
            alone += [begun] * (begun is not None)
            begun = Row(number, texts)
    return rows + alone + [begun] * (begun is not None), head


def is_more(name, word):
    """Whether a name goes on with the word of the next row."""
    return word != '' and (name.endswith('-') or word.startswith('-'))


class Text:
    """The lines of the result."""

    def __init__(self, path, beside, vendor):
        self.path, self.beside, self.vendor = path, beside, vendor
        self.names, self.keys = set(), set()
        self.declarations, self.groups, self.told = [], [], []

    def row(self, row, has_rules):
        word = BRACKETS.sub('', row.get('name'))
        name, kind = name_of(word), KINDS.get(row.get('type').replace(' ', '').lower())
        code, vendor = int(row.get('code') or GREATEST_NUMBER + 1), self.vendor_of(row)
        is_shared, reason = self.beside.has(name, (code, vendor))
        if is_shared:
            return
        if name is None:
            reason = 'no name of a dictionary text'
        elif code > GREATEST_NUMBER:
            reason = f'no code: {row.get("code")}'.rstrip(': ')
        elif kind is None:
            reason = f'no format of a dictionary text: {row.get("type")}'
        elif vendor is None:
            reason = 'its vendor is unknown: --vendor N names it'
        elif name in self.names or (code, vendor) in self.keys:
            reason = 'its name, or its code and vendor, stand before'
        if reason:
            self.tell(row, f'{row.get("name")}: left out: {reason}')
            return
        if row.get('name') != name:
            self.tell(row, renamed(row.get('name'), name))
        if not has_rules:
            self.tell(row, f'{name}: the table has no M rule for it: any')
        self.names.add(name)
        self.keys.add((code, vendor))
        self.declarations.append(declaration(name, code, vendor, kind, rule_of(row)))
        if kind == 'Grouped':
            self.groups += open_group(name, code, vendor)
            self.tell(row, f'{name}: Grouped, and a table says nothing of its members: any AVPs')

    def vendor_of(self, row):
        """The vendor, 0 for none, and None if it is unknown."""
        number = row.get('vendor')
        if number.isdigit():
            return int(number)
        return self.vendor if 'V' in flags(row.get('must')) else 0

    def tell(self, row, what):
        self.told.append(((self.path, row.line), what))


def flags(text):
    return re.findall('[A-Z]', text.upper())


def rule_of(row):
    return 'must' if 'M' in flags(row.get('must')) else 'mustnot' if 'M' in flags(row.get('must not')) else 'any'


def read(path):
    """The tables of a file: the rows of each, and whether it has a column for M."""
    with open(path, encoding='utf-8-sig', errors='replace', newline='') as file:
        text = file.read().replace('\r\n', '\n').replace('\f', '')
    tables = [rows_of(table) for table in tables_of_bars(text.split('\n'))]
    if not any(rows for rows, _ in tables):
        tables = [rows_of(table_of_csv(text))]
    if not any(rows for rows, _ in tables):
        raise ValueError('it has no head with an attribute name, a code and a type, or no rows below one')
    return tables


def main():
    parser = parser_of(__doc__, 'a text with tables, or a CSV file', has_values=False)
    parser.add_argument('--vendor', metavar='N', type=int, help='the vendor of AVPs that have V under MUST, and no vendor in a '
                                                               'column: 10415 for 3GPP')
    arguments = parser.parse_args()
    try:
        beside = Beside(arguments.beside)
        text = Text(arguments.file, beside, arguments.vendor)
        for rows, head in read(arguments.file):
            for row in rows:
                text.row(row, 'must' in head.columns)
    except (OSError, csv.Error, ValueError) as error:
        sys.exit(f'{arguments.file}: no table of AVPs: {error}')
    finish(text.declarations + text.groups, text.told, arguments.file, beside)


if __name__ == '__main__':
    main()

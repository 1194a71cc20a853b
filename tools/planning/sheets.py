"""Files as spreadsheets save them: lines of fields, with their numbers."""
import csv
import io
import re
import sys
import unicodedata
from dataclasses import dataclass
from itertools import islice

from .words import Wrong

MARKS = ((b'\xef\xbb\xbf', 'utf-8'), (b'\xff\xfe', 'utf-16-le'), (b'\xfe\xff', 'utf-16-be'))
DELIMITERS = ',;\t'
MOST_BEFORE = 100


@dataclass
class Sheet:
    """The lines of a file, each with its number, and how the file was saved."""

    path: str
    delimiter: str
    has_mark: bool
    lines: list


def unmarked(path, data):
    """How a file without a mark is saved. Separators, digits and line ends have a byte of 0 in UTF-16 alone, which is
    the second one or the first."""
    if b'\0' not in data:
        return 'utf-8'
    encoding = 'utf-16-le' if data[1::2].count(0) > data[::2].count(0) else 'utf-16-be'
    text = data.decode(encoding, 'replace')
    if len(data) % 2 or '\0' in text or not set(text) & {*DELIMITERS, '\n', '\r'}:
        raise Wrong(f'{path}: this has bytes of 0, and is no UTF-16 text; save it as CSV UTF-8')
    return encoding


def text_of(path):
    """The file's text, and whether a byte order mark stands before it."""
    try:
        with open(path, 'rb') as file:
            data = file.read()
    except OSError as error:
        raise Wrong(f'{path}: {error.strerror or error}') from None
    mark, encoding = next((pair for pair in MARKS if data.startswith(pair[0])), None) or (b'', unmarked(path, data))
    try:
        return data[len(mark):].decode(encoding), bool(mark)
    except UnicodeDecodeError as error:
        line = data.count(b'\n', 0, len(mark) + error.start) + 1
        raise Wrong(f'{path}, line {line}: this is no {encoding.upper()} text; save it as CSV UTF-8') from None


def cleaned(field):
    """A field without what no name can be shown with: control characters, and blanks in a row."""
    kept = ''.join(' ' if unicodedata.category(sign) in ('Cc', 'Zl', 'Zp', 'Cs') else sign
                   for sign in field if sign not in '\ufeff\ufffe\uffff')
    return ' '.join(kept.split())


def all_cleaned(fields):
    """The fields of a line, cleaned."""
    joined = ''.join(fields)
    if not joined.isprintable() or '  ' in joined:
        return list(map(cleaned, fields))
    lined = '\n'.join(['', *fields, '']) if ' ' in joined else ''
    return [field.strip() for field in fields] if '\n ' in lined or ' \n' in lined else fields


def delimiter_of(text):
    """What stands most often, outside quotes, in the first line that says something; and the text to be read. A line
    that begins with # says something where the next one that doesn't has just as many of its delimiters."""
    told = re.match(r'sep=([,;\t])\r?\n', text)
    if told:
        return told[1], '\n' + text[told.end():]
    lines = [re.sub(r'"[^"]*"', '', line) if line.lstrip('"')[:1] != '#' else '#' + re.sub(r'"[^"]*"', '', line)
             for line in islice(filter(str.strip, text.splitlines()), MOST_BEFORE)]
    header = next((line for line in lines if line[:1] == '#'), '')
    first = next((line for line in lines if line[:1] != '#'), header)
    shared = [sign for sign in DELIMITERS if header.count(sign) == first.count(sign) > 0]
    return max(shared or DELIMITERS, key=first.count), text


def is_comment(path, number, fields):
    """Whether a line that begins with # says nothing: it has no more fields. Where the others are there but empty, as
    spreadsheets fill up lines, and as a row's name may stand there, that is told."""
    if not fields[0].startswith('#') or any(fields[1:]):
        return False
    if len(fields) > 1:
        print(f'plan: {path}, line {number}: {fields[0]!r} is left out, as a comment; a name does not begin with #, '
              'or has some cell beside it', file=sys.stderr)
    return True


def read_sheet(path):
    """The lines of a file that say something: no empty ones, and no comments."""
    text, has_mark = text_of(path)
    delimiter, text = delimiter_of(text)
    reader = csv.reader(io.StringIO(text, newline=''), delimiter=delimiter, strict=True)
    lines = []
    try:
        for fields in reader:
            fields = all_cleaned(fields)
            if any(fields) and not is_comment(path, reader.line_num, fields):
                lines.append((reader.line_num, fields))
    except csv.Error as error:
        why = f'a field is not as spreadsheets save it ({error})'
        if 'end of data' in str(error):
            why = 'a quoted field does not end'
        raise Wrong(f'{path}, line {reader.line_num}: {why}') from None
    return Sheet(path, delimiter, has_mark, lines)

"""Writes what was measured: the files of bench/ with all tables, and the parts of docs/PERFORMANCE.md that say them in
short."""
import itertools
import textwrap

from workloads import TOP

PAGE = TOP / 'docs/PERFORMANCE.md'


def put(name, text):
    """Puts a text into the page, between its marks `<!-- NAME -->` and `<!-- end of NAME -->`."""
    begin, end = f'<!-- {name} -->\n', f'<!-- end of {name} -->\n'
    before, rest = PAGE.read_text(encoding='utf-8').split(begin, 1)
    PAGE.write_text(f'{before}{begin}{folded(text)}{end}{rest.split(end, 1)[1]}', encoding='utf-8')


def is_text(line):
    """Whether a line is one of a paragraph, and none of a table, a heading, a picture or a comment."""
    return line != '' and line[0] not in '|#!<- '


def folded(page):
    """A page whose paragraphs have at most 118 columns."""
    parts = []
    for plain, lines in itertools.groupby(page.split('\n'), is_text):
        parts += textwrap.wrap(' '.join(lines), 118, break_long_words=False, break_on_hyphens=False) if plain else lines
    return '\n'.join(parts)

"""Writes the manual page of the program, from the tables of docs/SCRIPT.md: `python3 -B -m tools.manual > ceal.1`,
shown by `man -l ceal.1`."""
import re
import sys

from tools.programs import TOP

PAGE = TOP / 'docs/SCRIPT.md'
CELL = re.compile(r'(?<!\\)\|')
NAME = 'a self-adjusting dialect of C: runs programs, and updates their results after edits of their inputs'
FORMAT = 'a source text, a line that is exactly %%, and the lines of a script, on standard input'


def table(page, *head):
    """The rows of the table with these words in its head, each a list of cells."""
    lines = page.split('\n')
    at = next(at for at, it in enumerate(lines) if cells(it) and cells(it)[: len(head)] == list(head))
    for line in lines[at + 2 :]:
        if not line.startswith('|'):
            return
        yield cells(line)


def cells(line):
    return [it.strip().replace('\\|', '|') for it in CELL.split(line)[1:-1]] if line.startswith('|') else []


def roff(text):
    """A cell for groff: what is code in it is bold, a link is its text."""
    text = re.sub(r'\[([^]]*)\]\([^)]*\)', r'\1', text)
    text = text.replace('\\', '\\e').replace('-', '\\-').replace('**', '')
    text = re.sub(r'`([^`]*)`', r'\\fB\1\\fR', text)
    return '\\&' + text if text[:1] in ("'", '.') else text


def terms(rows):
    """Each first cell with what the others say of it."""
    for first, *others in rows:
        yield '.TP'
        yield roff(first)
        yield '\n'.join(
            f'{roff(it)[0].upper()}{roff(it)[1:]}.' if it and it[0].isalpha() else roff(it) for it in others if it
        )


def statuses(page):
    for name, number, when, written, told in table(page, 'Status', 'Number'):
        yield [f'{number} {name}', when, f'Standard error: {told}' if told else '']


def manual(page, version):
    usage = re.search(r'`usage: ceal ([^`]*)`', page)[1].replace('\\|', '|')
    yield f'.TH CEAL 1 "" "{version}" "CEAL"'
    yield f'.SH NAME\nceal \\- {roff(NAME)}'
    yield '.SH SYNOPSIS'
    for it in usage.split(' | '):
        yield f'.B ceal\n{roff(it)}\n.br'
    yield f'.SH DESCRIPTION\nIt reads {roff(FORMAT)}.'
    yield from terms(table(page, 'Words', 'What it does'))
    yield '.SH LINES OF A SCRIPT'
    yield from terms(
        [line, what, f'Reply: {reply}'] for line, what, reply in table(page, 'Line', 'What it does', 'Reply')
    )
    yield (
        '.SH REFUSALS\nA line that cannot be done is answered \\fBrefused\\fR with a code and a text, and changes'
        ' nothing.'
    )
    yield from terms(table(page, 'Code', 'Text', 'When'))
    yield '.SH EXIT STATUS'
    yield from terms(statuses(page))
    yield '.SH SEE ALSO\nThe pages of the repository: docs/TUTORIAL.md, docs/LANGUAGE.md, docs/SCRIPT.md.'


def main():
    from tools import building

    print('\n'.join(manual(PAGE.read_text(), building.version())))
    return 0


if __name__ == '__main__':
    sys.exit(main())

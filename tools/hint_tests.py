"""Tries the hints beside faults and refused lines: each row of 'If you know C' has one, and so has each refusal."""
import pathlib
import re

from tools import hints, refusals, scripts
from tools.programs import TOP
from tools.calls import call, tell
from tools.inputs import Input

TABLE = re.compile(r'^<!-- faults -->\n((?:\|.*\n)+)', re.M)
CELL = re.compile(r'^\| ?(.*?) \| `([^`]*)` \| `fault (\w+) at (\d+):(\d+): [^`]*` \|$', re.M)
STRUCT = 'struct s { int a; mod int m; }; init g(struct s *self) { } '
# What a C programmer may write, and a part of the hint for it.
MISTAKES = (
    ('ceal f(int x) { x++; }', '`x = x + 1;`'),
    ('ceal f(int x) { ++x; }', '`x = x + 1;`'),
    ('ceal f(int x) { int y = x++; }', '`x = x + 1;`'),
    ('ceal f(mod int *m) {\n  int x = read(m)\n  write(m, x);\n}', 'expected `;` at the end of line 2'),
    ('ceal f(mod int *m) { write(m, read(m)); }', '`read` is a whole value by itself'),
    ('ceal f() { switch (1) { } }', 'there is no `switch`'),
    ('ceal f() { do { } while (1); }', 'there is no `do`'),
    ('ceal f() { goto x; }', 'there is no `goto`'),
    ('typedef int t;', 'there is no `typedef`'),
    ('ceal f() { char c = 1; }', 'the types are'),
    ('ceal f(void) { }', 'no parameters is `()`'),
    ('ceal f(int *p) { }', 'a pointer to a block is'),
    ('ceal f(int x);', 'there are no prototypes'),
    ('int main() { }', 'a function is `ceal NAME(..) { .. }`'),
    ('void f(int x) { }', 'a function is `ceal NAME(..) { .. }`'),
    ('ceal f(int x) { x = (int) x; }', 'there are no casts'),
    ('ceal f(int x) { x = x << 2; }', 'no bit operators'),
    ('ceal f(int x) { x = x > 1 ? 2 : 3; }', 'use an `if`'),
    ('ceal f(int x) { if (x = 1) { } }', 'equal is `==`'),
    ('ceal f(int x) { if (x) { } else x = 1; }', 'braces are compulsory'),
    ('struct s { int a, b; };', 'one name in each declaration'),
    ('struct s { int a[3]; };', 'a row of modifiables'),
    ('struct s { int a = 1; };', 'an initialiser sets it'),
    (STRUCT + 'ceal f(struct s *p) { int x = p->m; }', 'expected a plain field, and this is the modifiable mod int m'),
    (STRUCT + 'ceal f(struct s *p) { int x = p->b; }', 'struct s has the fields a, m'),
    (STRUCT + 'ceal f(struct s *p) { p = NULL; }', 'the null pointer is `null`'),
    (STRUCT + 'ceal f(struct s *p) { write(p->m, 1); }', 'a plain field'),
    (STRUCT + 'init h(struct s *self) { return; }', 'an initialiser only has'),
    (STRUCT + 'ceal f(struct s *pointer) { poiter = null; }', 'did you mean pointer?'),
    ('ceal f(int x) { } ceal g() { f(); }', 'f(int x) takes 1 argument'),
    ('ceal f(int x) { }\nceal g() { ff(1); }', 'did you mean f?'),
    (STRUCT + 'ceal f(struct s *p) { int x = p.a; }', 'a field is `p->f`'),
    ('ceal f() { int x = 1.5; }', 'no characters, strings or fractions'),
    ('ceal f(int x) {', 'a `}` is missing'),
    ('ceal f(int x) { } /* the end', 'this comment is not closed'),
    ('mod a int 4', 'this begins as a script'),
    ('mod int a;', 'there are no global variables'),
)


def tables():
    """Each fault of the tables of docs/LANGUAGE.md, without the program: what was expected is told, and all that is
    said of C."""
    found = TABLE.findall((TOP / 'docs/LANGUAGE.md').read_text())
    for number, table in enumerate(found):
        for cells, source, code, line, column in CELL.findall(table):
            source = source.replace('\\|', '|')
            told = hints.hints(code, int(line), int(column), f'{source}\n'.encode())
            is_right = any(it.startswith('expected ') for it in told) if code in ('S3', 'S5', 'T1') else True
            is_meant = number > 0 or len(told) > (code in ('S3', 'S5', 'T1'))
            tell(f'the hints for {source}', [] if is_right and is_meant else [f'only {told}'])


def files_of_mistakes(made):
    """The mistakes, as files that are checked by one call."""
    for number, (source, hint) in enumerate(MISTAKES):
        path = pathlib.Path(made['place.ceal']).with_name(f'mistake_{number}.ceal')
        path.write_text(f'{source}\n%%\n')
        yield str(path), hint


def mistakes(made):
    files = list(files_of_mistakes(made))
    told = [it for name, hint in files for it in (f'run: {name}:', hint)]
    call('the mistakes of a C programmer', ['check', *(name for name, _ in files)], 1, None, told)


def refused_lines():
    """Each refusal of examples/refusals.ceal has its reason beside it."""
    example = TOP / 'examples/refusals.ceal'
    given = Input(example.name, example.read_bytes())
    for place, line, taken, why in refusals.explained(given, example.with_suffix('.expected').read_bytes(), 'run'):
        if taken and scripts.REFUSED.match(taken[0]):
            tell(f'why {place} is refused', [] if why else ['no reason is told'])


def of_lines(made):
    """What is told beside some lines that are refused."""
    folder = pathlib.Path(made['place.ceal']).parent
    for name, line, why in (
        ('a command like another', 'propagte', 'no line begins with propagte (did you mean propagate?)'),
        ('a comment of a shell', '# all', 'a comment begins with //'),
        ('a comment after a line', 'get m // here', 'a comment has a line by itself'),
        ('a part of no reads', 'propagate 0', 'a number from 1 to 1000000'),
        ('an unknown word', 'quit', 'no line begins with quit'),
        ('an unknown input', 'run f a', 'there is no input a'),
        ('a session without many', '@a get m', './run many'),
    ):
        path = folder / f'{name}.ceal'
        path.write_text(f'ceal f(mod int *m) {{ }}\n%%\nmod m int 1\n{line}\n')
        call(name, ['--strict', str(path)], 67, None, [f'run: {path}:4: {line}: refused C', why])
    call(
        'many without a session',
        ['many', 'examples/inc.ceal'],
        0,
        b'refused C1: unreadable line\n' * 8,
        'no line names its session',
    )
    call('--beside many without a session', ['many', '--beside', 'examples/inc.ceal'], 0, None)


def excerpts(made):
    """An excerpt is short, and moves no cursor."""
    folder = pathlib.Path(made['place.ceal']).parent
    path = folder / 'long.ceal'
    path.write_bytes(b'ceal f(mod int *m) { write(m, ' + b'1 + ' * 50 + b'$); \x1b[2J }' + b' ' * 1000 + b'\n%%\n')
    said = call('a long line with a fault', ['check', str(path)], 1, None, 'run:   .. ')
    given = Input('x', path.read_bytes())
    lines = scripts.excerpt(given, said)
    tell(
        'the excerpt of a long line',
        [] if all(len(it) < 120 and it.isprintable() for it in lines) and '$' in lines[1] else [f'told {lines}'],
    )
    tell('its caret', [] if lines[1][lines[2].index('^')] == '$' else [f'told {lines}'])


def hints_of_calls(made):
    mistakes(made)
    refused_lines()
    of_lines(made)
    excerpts(made)

"""Hints beside a fault: what was expected at its place, and how CEAL says what a C programmer probably meant.

Each row of 'If you know C' in docs/LANGUAGE.md has one. A hint is a guess from the words near the fault, and no part of
the answer.
"""
import difflib
from collections import namedtuple

from tools import grammar, kinds

OPERATORS = {sign for level in grammar.LEVELS for sign in level}
EXPRESSION = {grammar.NUMBER, grammar.NAME, 'self', 'null', '(', '-', '!', '&'}
TYPE = {'int', 'struct', 'mod'}
# What is wanted at a place is told in this order; what is told as one sort is not told again by its words.
SORTS = (
    ('a statement', TYPE | {grammar.NAME, 'self', 'write', 'if', 'while', 'return', 'break', 'continue'}),
    ('a value', EXPRESSION | {'read', 'alloc', 'modref'}),
    ('an expression', EXPRESSION),
    ('an operator', OPERATORS),
    ('a type', TYPE),
)
READ = '`read` is a whole value by itself, as in `int y = read(m);`: read into a variable first'
WHOLE = '`{}` is a whole value by itself, as in `T x = {} ..;`'
BITS = 'there are no bit operators and no shifts: `%`, `*` and `/` do some of their work'
STRINGS = 'numbers are whole, and there are no characters, strings or fractions'
CHOICE = 'there is no `c ? x : y`, and there are no labels: use an `if`'
LOOPS = 'there is no `{}`: use `while`, or recursion'
ROW = 'the only array is a row of modifiables in a struct, `mod int f[3];`, and `&p->f[i]` is the place of an element'
TYPES = 'the types are `int`, `struct S *`, `mod int *` and `mod struct S *`'
POINTER = (
    'a pointer to a block is a `struct S *`, and one to a modifiable a `mod int *` or `mod struct S *`: the `*` is part'
    ' of the type'
)
ONE_EACH = 'one name in each declaration: `int x = 1; int y = 2;`'
ASSIGNED = 'there is no `++`, `--` or `+=`: `x = x + 1;`'
SIGNS = {
    '#': 'there is no `#include` and no `#define`',
    "'": STRINGS,
    '"': STRINGS,
    '.': STRINGS,
    '~': BITS,
    '^': BITS,
    '|': BITS,
    '?': CHOICE,
    ':': CHOICE,
}
WORDS = {
    **{it: LOOPS.format(it) for it in ('for', 'do', 'goto')},
    'switch': 'there is no `switch`: use `if` and `else if`',
    **{
        it: f'there is no `{it}`'
        for it in ('typedef', 'enum', 'union', 'sizeof', 'const', 'static', 'extern', 'register', 'volatile')
    },
}
OTHER_TYPES = frozenset(
    'void char short long unsigned signed float double bool _Bool size_t int8_t int16_t int32_t int64_t uint32_t'
    ' uint64_t'.split()
)
UNKNOWN = {
    'NULL': 'the null pointer is `null`',
    'nullptr': 'the null pointer is `null`',
    'true': 'true is 1, or any number but 0',
    'false': 'false is 0',
    'printf': 'a program prints nothing: it writes to modifiables, and the script asks for them by `get` and `show`',
    'malloc': 'a block is made by `alloc S f(..)`, with an initialiser f',
    'free': 'a program never frees anything',
}
OF_CODE = {
    'S2': 'numbers have 64 bits; the least one is written `-9223372036854775807 - 1`',
    'S4': 'at most 64 may be open',
    'S6': 'at most 255 fields, parameters, arguments, or operators of one expression',
    'U1': (
        'a plain field is set by the initialiser of its block, and never again: make what changes a modifiable, as `mod'
        ' int f;`'
    ),
    'U2': 'an initialiser only has `self->f = E;` and `if`: no variable, no call and no `return`',
    'U3': 'an initialiser cannot read self, only its other parameters',
    'U4': 'an initialiser is run by `alloc`, as in `struct S *p = alloc S f(..);`',
    'U5': '`alloc S f(..)` takes an initialiser: `init f(struct S *self, ..) { .. }`',
}
# What a fault is met by: its code, itself with the tokens round it, where the statement and its value begin, and what
# was wanted.
Spot = namedtuple('Spot', 'code token before after first value wanted level tokens at')


def hints(code, line, column, source):
    """The hints beside a fault of a source text: what was expected, and how to say it."""
    if code == 'S1':
        text = source.split(b'\n')[line - 1].decode('latin-1')
        return of_character(text[: column - 1], text[column - 1 :])
    reading = grammar.read(source)
    if reading is None:
        return []
    places = [(it.line, it.column) for it in reading.tokens]
    at = places.index((line, column)) if (line, column) in places else len(places) - 1
    is_early = code in ('S3', 'S5')
    if is_early and at != reading.at:
        return []
    spot = spot_of(code, at, reading, is_early)
    if is_early:
        found = wanted(spot), of_grammar(spot)
    else:
        found = of_meaning(
            spot, reading.program, kinds.at_place(reading.program, line, column) if code in ('T1', 'T5') else None
        )
    return [it for it in found if it]


def spot_of(code, at, reading, is_early):
    tokens, nothing = reading.tokens, grammar.Token('nothing', '', 0, 0)
    before, after = tokens[at - 1] if at else nothing, tokens[at + 1] if at + 1 < len(tokens) else nothing
    value = tokens[reading.value] if reading.value >= reading.first else nothing
    return Spot(
        code,
        tokens[at],
        before,
        after,
        tokens[reading.first],
        value,
        reading.wanted if is_early else [],
        reading.level,
        tokens,
        at,
    )


def of_character(before, text):
    """The hints for a byte that begins no token."""
    if text.startswith('.') and not before[-1:].isdigit():
        return ['a field is `p->f`: a program has pointers to blocks, and no blocks']
    if text.startswith('/*'):
        return ['this comment is not closed: comments do not nest, and end at the next `*/`']
    if text[:1] in SIGNS:
        return [SIGNS[text[0]]]
    return ['other letters than those of ASCII are only for comments'] if text[:1] > '\x7f' else []


# -- what was expected


def wanted(spot):
    """What could have come where a program ends early, or has another token."""
    left, told = set(spot.wanted), []
    left -= {'->'} if OPERATORS <= left else set()
    if ';' in left and spot.before.line < spot.token.line:
        return f'expected `;` at the end of line {spot.before.line}'
    for sort, words in SORTS:
        if words <= left:
            told.append(sort)
            left -= words
    told += [
        it if it in (grammar.NAME, grammar.NUMBER, grammar.END) or ' ' in it else f'`{it}`'
        for it in dict.fromkeys(spot.wanted)
        if it in left
    ]
    return f'expected {" or ".join([", ".join(told[:-1]), told[-1]] if len(told) > 1 else told)}' if told else None


def two_kinds(found):
    """The two types of a fault `kinds differ`."""
    if found is None:
        return None
    expected, there = found
    return f'expected {expected}, and {"these are" if expected == kinds.SAME else "this is"} {there}'


# -- what a C programmer probably meant


def of_grammar(spot):
    """How CEAL says what has another form in C, at a token that cannot come there."""
    for rule in (
        of_words,
        {'top': of_top, 'head': of_head, 'struct': of_field}.get(spot.level, of_statement),
        of_expression,
    ):
        found = rule(spot)
        if found:
            return found
    return None


def of_words(spot):
    for it in (spot.first, spot.before, spot.token):
        if it.kind == 'name' and it.text in WORDS:
            return WORDS[it.text]
    return None


def of_top(spot):
    token, after = spot.token, [it.text for it in spot.tokens[spot.at : spot.at + 12]]
    if spot.before.text == '}' and ';' in spot.wanted:
        return 'a struct ends with `};`'
    if token.text in TYPE or token.kind == 'name':
        ends = [after.index(it) for it in '(;={' if it in after]
        if ends and after[min(ends)] == '(':
            return 'a function is `ceal NAME(..) { .. }`: it has no type, since it has no result'
        if ends and (token.text in TYPE or token.text in OTHER_TYPES):
            return 'there are no global variables: pass to functions what they share'
    return 'a `}` too many?' if token.text == '}' else None


def of_head(spot):
    if spot.token.text == ';' and '{' in spot.wanted:
        return 'there are no prototypes: functions may be used before they are declared'
    if spot.token.text == 'void' and spot.after.text == ')':
        return 'no parameters is `()`'
    return of_type(spot)


def of_type(spot):
    if spot.token.text == '*' and spot.before.text in ('int', *OTHER_TYPES) or spot.wanted[-1:] == ['*']:
        return POINTER
    return TYPES if TYPE <= set(spot.wanted) and spot.token.kind == 'name' else None


def of_field(spot):
    if spot.before.text == '}' and ';' in spot.wanted:
        return 'a struct ends with `};`'
    if '*' in spot.wanted and spot.token.kind == 'name' and spot.before.kind == 'name':
        return (
            'a field is a pointer, `struct t *f;`, or a modifiable, `mod struct t f;`: there is no block inside a block'
        )
    if spot.token.text == '[':
        return ROW
    if spot.token.text == ',' and ';' in spot.wanted:
        return ONE_EACH
    if spot.token.text == '=':
        return 'a field has no value here: an initialiser sets it, by `self->f = E;`'
    return of_type(spot)


def of_statement(spot):
    """A statement that has another form in C."""
    token, first = spot.token, spot.first
    if '{' in spot.wanted and spot.before.text in (')', 'else'):
        return 'braces are compulsory: `if (x != 0) { y = 1; }`'
    if token is first:
        return of_beginning(spot)
    if spot.before.text == 'return':
        return 'a function has no result: it is passed a modifiable and writes there; only `return;` ends it'
    if first.text in TYPE or first.text in OTHER_TYPES:
        return of_declaration(spot)
    if '=' in spot.wanted and spot.after.text in ('=', token.text):
        return ASSIGNED
    if first.kind == 'name' and spot.before is first:
        return TYPES if token.kind == 'name' or token.text == '*' else None
    return None


def of_beginning(spot):
    """A token that begins no statement."""
    text = spot.token.text
    if text == ';':
        return 'a `;` by itself is no statement: leave it out'
    if text == '{':
        return 'a block `{ .. }` by itself is no statement: it belongs to an `if`, an `else` or a `while`'
    if text in ('+', '-'):
        return ASSIGNED
    if text == '*':
        return 'there is no `*p`: `p->f` is a field of a block, and `write(m, E);` fills a modifiable'
    if text == 'else':
        return 'an `else` follows the `}` of an `if`'
    if text in ('read', 'alloc', 'modref'):
        return WHOLE.format(text, text)
    if spot.token.kind == 'end' or text in ('ceal', 'init'):
        return 'a `}` is missing: the function before is not ended'
    return None


def of_declaration(spot):
    if spot.token.text == ',' and (';' in spot.wanted or '=' in spot.wanted):
        return ONE_EACH
    if spot.token.text == ';' and '=' in spot.wanted:
        return 'a declaration has a value: `int x = 0;`, or `null` for a pointer'
    if spot.first.text in OTHER_TYPES:
        return TYPES
    if '=' in spot.wanted and spot.token.text == '[':
        return ROW
    return of_type(spot) if spot.value is spot.tokens[0] or '=' not in spot.wanted else None


def of_expression(spot):
    """A part of an expression that has another form in C."""
    text, before, is_next = spot.token.text, spot.before, EXPRESSION <= set(spot.wanted)
    if text in ('read', 'alloc', 'modref') and is_next:
        return READ if text == 'read' else WHOLE.format(text, text)
    if spot.value.text == 'read' and ';' in spot.wanted and (text in OPERATORS or text == '->'):
        return READ
    if text in TYPE and is_next:
        return 'there are no casts, and a declaration is a statement by itself'
    if is_next:
        return of_operand(text, before)
    if text == '(' and before.kind == 'name':
        return (
            'a call is a statement, and no part of an expression: pass a modifiable that the function writes to, and'
            ' read that'
        )
    if text == '[':
        return ROW
    if text == '&':
        return BITS
    if text == '=' and spot.first.text in ('if', 'while'):
        return 'equal is `==`'
    is_beside = before.kind == 'number' and (before.line, before.column + len(before.text)) == (
        spot.token.line,
        spot.token.column,
    )
    return 'numbers are decimal digits' if is_beside and spot.token.kind == 'name' else None


def of_operand(text, before):
    """A sign where an operand is expected."""
    if text == '*':
        return (
            'there is no `*p`: only `->` leads from a pointer to what it points to, and `read` to what a modifiable'
            ' holds'
        )
    if text in ('<', '>') and before.text == text:
        return BITS
    if text in ('+', '=', ';') and before.text in ('+', '-'):
        return ASSIGNED
    return None


def of_meaning(spot, program, found):
    """The hints for a fault of names, types or usage."""
    name = spot.token.text
    if spot.code == 'T1':
        return two_kinds(found), of_kinds(spot, found)
    if spot.code == 'T5' and found:
        return (found[0] + like(name, found[1]),)
    if spot.code == 'N1':
        return (UNKNOWN.get(name) or of_unknown(spot),)
    if spot.code == 'N2' and spot.before.text not in ('ceal', 'init', '{') and spot.level == 'body':
        return ('a name may be declared again only once the earlier variable is out of scope: take another name',)
    if spot.code == 'T2' and name in program.functions:
        return (signature(program.functions[name]),)
    if spot.code == 'T3':
        return (of_no_modifiable(spot),)
    if spot.code == 'T4':
        return ('only a `struct S *` has fields; `read` leads from a modifiable to what it holds',)
    return (OF_CODE.get(spot.code),)


def of_kinds(spot, found):
    expected, there = found or ('', '')
    if there.startswith('struct') and spot.before.text == '(' and spot.tokens[spot.at - 2].text in ('if', 'while'):
        return 'a condition is an `int`: `p != null`'
    if expected == 'int' and there.startswith('mod '):
        return '`int x = read(m);` gives what a modifiable holds'
    if expected.endswith('*') and there == 'the number 0':
        return 'the null pointer is `null`'
    if there.startswith('the modifiable'):
        return 'a modifiable is read by `int x = read(&p->f);` and filled by `write(&p->f, E);`'
    return None


def of_unknown(spot):
    """A name that is not known: one that is like it, or the same one elsewhere."""
    name, names = spot.token.text, {it.text for it in spot.tokens if it.kind == 'name'}
    if any(it.text == name for it in spot.tokens[: spot.at]):
        return f'no {name} is in scope here'
    return like(name, names - {name}).strip(' ()')


def of_no_modifiable(spot):
    if spot.before.text == '->':
        return 'a plain field is no modifiable: in the struct, `mod int f;` makes it one'
    if spot.before.text == '&':
        return 'there is no `&x` of a variable, only `&p->f` of a modifiable in a block'
    return 'a modifiable is given by a pointer: a `mod int *`, a `mod struct S *`, or `&p->f`'


def signature(function):
    """What a function takes."""
    told = [
        f'{kind}{"" if kind.endswith("*") else " "}{name}'
        for kind, name in function.parameters[function.kind == 'init' :]
    ]
    return f'{function.name}({", ".join(told)}) takes {len(told)} argument{"s" * (len(told) != 1)}'


def like(name, known):
    """Which of the known names is like one that is not, with a blank before it."""
    found = difflib.get_close_matches(name, known, 1)
    return f' (did you mean {found[0]}?)' if found else ''

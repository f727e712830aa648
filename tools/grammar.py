"""The grammar of a source text (docs/LANGUAGE.md), read for the hints beside a fault: what could come at a place, and
what a program declares.

It judges nothing: the program does. Where this reading and the program's differ, there is no hint.
"""
import re
from collections import namedtuple

LONGEST = 300_000  # (bytes of a source text that is read for hints)
TOKEN = re.compile(
    r'(?P<blank>[ \t\r\n]+|//[^\n]*|/\*.*?\*/)|(?P<word>[A-Za-z_][A-Za-z0-9_]*)|(?P<number>[0-9]+)'
    r'|(?P<sign>->|&&|\|\||==|!=|<=|>=|[<>+\-*/%!&=(){},;\[\]])',
    re.S,
)
RESERVED = frozenset(
    'struct int mod ceal init self read write alloc modref if else while return null break continue'.split()
)
LEVELS = (('||',), ('&&',), ('==', '!='), ('<', '<=', '>', '>='), ('+', '-'), ('*', '/', '%'))
# What can come at a place is told by the words and signs themselves, or by one of these.
NAME, NUMBER, END = 'a name', 'a number', 'the line %%'

# A token's kind is that of its pattern, `name` for a word that is not reserved, `end` for the line %%, or `bad` for a
# byte that begins none.
Token = namedtuple('Token', 'kind text line column')
# The form is plain, mod or row; the type is its own, or what it holds.
Field = namedtuple('Field', 'name form type length')
# Parameters are pairs of a type and a name; `self` is the first of an `init`.
Function = namedtuple('Function', 'kind name parameters body')
Program = namedtuple('Program', 'structs functions')
Reading = namedtuple('Reading', 'program tokens at wanted first value level')  # (at is where it ends early, or None)


class Unexpected(Exception):
    pass


def tokens(source):
    """The tokens of a source text, each with its line and column, up to the first byte that begins none."""
    text, at, line, start = source.decode('latin-1'), 0, 1, 0
    while at < len(text):
        found = TOKEN.match(text, at)
        if not found:
            yield Token('bad', text[at], line, at - start + 1)
            return
        kind, word = found.lastgroup, found[0]
        if kind != 'blank':
            kind = 'name' if kind == 'word' and word not in RESERVED else kind
            yield Token(kind, word, line, at - start + 1)
        if '\n' in word:
            line, start = line + word.count('\n'), at + word.rindex('\n') + 1
        at = found.end()
    yield Token('end', '', line + (not text.endswith('\n')), 1)


class Reader:
    """Goes along the tokens of a program. What was looked for at a token and is not there is what was wanted there."""

    def __init__(self, source):
        self.tokens, self.at, self.wanted = list(tokens(source)), 0, []
        self.program = Program({}, {})
        # where the statement begins, where its value does, and in what part of the text this is
        self.first = self.value = 0
        self.level = 'top'

    def sees(self, *words):
        """Whether the token is one of these words and signs."""
        self.wanted += words
        token = self.tokens[self.at]
        return token.kind in ('word', 'sign') and token.text in words

    def advance(self):
        self.at, self.wanted = self.at + 1, []
        return self.tokens[self.at - 1]

    def take(self, *words):
        if not self.sees(*words):
            raise Unexpected
        return self.advance()

    def of_kind(self, kind, told):
        self.wanted.append(told)
        return self.tokens[self.at].kind == kind

    def name(self):
        if not self.of_kind('name', NAME):
            raise Unexpected
        return self.advance()

    # -- declarations

    def all(self):
        while not self.of_kind('end', END):
            self.level, self.first = 'top', self.at
            if self.sees('struct'):
                self.struct()
            elif self.sees('ceal', 'init'):
                self.function()
            else:
                raise Unexpected

    def struct(self):
        self.advance()
        self.level, name, fields = 'struct', self.name().text, []
        self.take('{')
        while not self.sees('}'):
            self.first = self.at
            fields.append(self.field())
        self.advance()
        self.program.structs.setdefault(name, fields)
        self.take(';')

    def field(self):
        if not self.sees('mod'):
            return self.last_of_field('plain', self.type())
        self.advance()
        if self.sees('int'):
            holds = self.advance().text
        else:
            self.take('struct')
            holds = f'struct {self.name().text} *'
        if not self.sees('*'):
            return self.last_of_field('mod', holds)
        self.advance()
        return self.last_of_field('plain', modifiable(holds))

    def last_of_field(self, form, kind):
        name, length = self.name().text, 1
        if form == 'mod' and self.sees('['):
            self.advance()
            form, length = 'row', self.length()
            self.take(']')
        self.take(';')
        return Field(name, form, kind, length)

    def length(self):
        if not self.of_kind('number', 'a number above 0') or int(self.tokens[self.at].text) == 0:
            raise Unexpected
        return int(self.advance().text)

    def type(self):
        if self.sees('int'):
            return self.advance().text
        if self.sees('struct'):
            self.advance()
            kind = f'struct {self.name().text} *'
            self.take('*')
            return kind
        self.take('mod')
        if self.sees('int'):
            kind = self.advance().text
        else:
            self.take('struct')
            kind = f'struct {self.name().text} *'
        self.take('*')
        return modifiable(kind)

    def function(self):
        kind = self.advance().text
        self.level, name, parameters = 'head', self.name().text, []
        self.take('(')
        if kind == 'init':
            self.take('struct')
            parameters.append((f'struct {self.name().text} *', 'self'))
            self.take('*')
            self.take('self')
        elif not self.sees(')'):
            parameters.append((self.type(), self.name().text))
        while self.sees(','):
            self.advance()
            parameters.append((self.type(), self.name().text))
        self.take(')')
        # (entered before its body is read, so that a fault in there leaves its head)
        self.program.functions.setdefault(name, Function(kind, name, parameters, []))
        body = self.block()
        if not self.program.functions[name].body:
            self.program.functions[name].body.extend(body)

    # -- statements

    def block(self):
        self.take('{')
        self.level, statements = 'body', []
        while not self.sees('}'):
            self.first = self.at
            statements.append(self.statement())
        self.advance()
        return statements

    def statement(self):
        if self.sees('int', 'struct', 'mod'):
            kind, name = self.type(), self.name()
            self.take('=')
            return self.ended('declare', kind, name, self.right_side())
        if self.of_kind('name', NAME):
            return self.after_name(self.advance())
        if self.sees('self'):
            return self.field_set(('name', self.advance()))
        if self.sees('write'):
            self.advance()
            self.take('(')
            place = self.expression()
            self.take(',')
            held = self.expression()
            self.take(')')
            return self.ended('write', place, held)
        if self.sees('if'):
            return self.choice()
        if self.sees('while'):
            self.advance()
            return 'while', self.condition(), self.block()
        return self.ended(self.take('return', 'break', 'continue').text)

    def ended(self, *statement):
        self.take(';')
        return statement

    def after_name(self, name):
        if self.sees('='):
            self.advance()
            return self.ended('assign', name, self.right_side())
        if self.sees('('):
            self.advance()
            return self.ended('call', name, self.arguments())
        return self.field_set(('name', name))

    def field_set(self, left):
        self.take('->')
        field = self.name()
        while self.sees('->'):
            self.advance()
            left, field = ('field', left, field), self.name()
        self.take('=')
        return self.ended('set', left, field, self.expression())

    def condition(self):
        self.take('(')
        tested = self.expression()
        self.take(')')
        return tested

    def choice(self):
        """An `if`, with those that follow an `else` directly."""
        self.advance()
        tested, part, other = self.condition(), self.block(), []
        if self.sees('else'):
            self.advance()
            self.first = self.at
            other = [self.choice()] if self.sees('if') else self.block()
        return 'if', tested, part, other

    def right_side(self):
        self.value = self.at
        if self.sees('read'):
            return 'read', self.advance(), self.condition()
        if self.sees('alloc'):
            word, struct, maker = self.advance(), self.name(), self.name()
            self.take('(')
            return 'alloc', word, struct, maker, self.arguments()
        if self.sees('modref'):
            word = self.advance()
            holds = self.advance().text if self.sees('int') else f'struct {self.name().text} *'
            self.take('(')
            self.take(')')
            return 'modref', word, holds
        return self.expression()

    def arguments(self):
        """What comes after the `(` of a call, up to its `)`."""
        given = []
        if not self.sees(')'):
            given.append(self.expression())
            while self.sees(','):
                self.advance()
                given.append(self.expression())
        self.take(')')
        return given

    # -- expressions

    def expression(self, level=0):
        if level == len(LEVELS):
            return self.unary()
        left = self.expression(level + 1)
        while self.sees(*LEVELS[level]):
            sign = self.advance()
            left = 'binary', sign, left, self.expression(level + 1)
        return left

    def unary(self):
        signs = []
        while self.sees('-', '!'):
            signs.append(self.advance())
        if self.sees('&'):
            sign, place, index = self.advance(), self.postfix(), None
            if self.sees('['):
                self.advance()
                index = self.expression()
                self.take(']')
            operand = 'address', sign, place, index
        else:
            operand = self.postfix()
        for sign in reversed(signs):
            operand = 'unary', sign, operand
        return operand

    def postfix(self):
        left = self.primary()
        while self.sees('->'):
            self.advance()
            left = 'field', left, self.name()
        return left

    def primary(self):
        if self.sees('('):
            sign, inner = self.advance(), self.expression()
            self.take(')')
            return 'parentheses', sign, inner
        if self.of_kind('number', NUMBER) or self.of_kind('name', NAME) or self.sees('self', 'null'):
            token = self.advance()
            return ('number' if token.kind == 'number' else 'null' if token.text == 'null' else 'name'), token
        raise Unexpected


def modifiable(holds):
    """The type of a pointer to a modifiable, by what it holds."""
    return 'mod int *' if holds == 'int' else f'mod {holds}'


def read(source):
    """Reads a source text, and tells where it ends early; None where it is too long, or too deep for that."""
    if len(source) > LONGEST:
        return None
    reader, at = Reader(source), None
    try:
        reader.all()
    except Unexpected:
        at = reader.at
    except RecursionError:
        return None
    return Reading(reader.program, reader.tokens, at, reader.wanted, reader.first, reader.value, reader.level)

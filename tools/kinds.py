"""The types of a program that was read (tools/grammar.py): for each place where two differ, what is expected there and
what is there instead.

They are for the hint beside a fault `kinds differ`. A type is written as in a program; one that is not known is None,
and differs from none.
"""
from tools.grammar import modifiable

COMPARED, SAME = ('==', '!='), 'the same type on both sides'


class Kinds:
    def __init__(self, program):
        self.structs, self.functions = program.structs, program.functions
        self.differences = []

    def all(self):
        """Each difference: its token, what is expected, and what is there."""
        for function in self.functions.values():
            variables = {name: kind for kind, name in function.parameters}
            self.block(function.body, variables)
        return self.differences

    def differ(self, token, expected, found):
        self.differences.append((token, expected, found))

    def wants(self, expected, expression, variables):
        """An expression where a type is expected."""
        found = self.type_of(expression, variables)
        if None not in (found, expected) and not fits(expected, found):
            self.differ(first(expression), expected, told(expression, found))

    # -- statements

    def block(self, statements, variables):
        variables = dict(variables)
        for statement in statements:
            getattr(self, statement[0].replace('if', 'choice').replace('while', 'loop'), self.nothing)(
                variables, *statement[1:]
            )

    def nothing(self, *_):
        """`return`, `break` and `continue` have no types."""

    def declare(self, variables, kind, name, value):
        self.right_side(kind, value, variables)
        variables[name.text] = kind

    def assign(self, variables, name, value):
        self.right_side(variables.get(name.text), value, variables)

    def call(self, variables, name, given):
        self.arguments(self.parameters(name), given, variables)

    def set(self, variables, left, name, value):
        field = self.field(left, name, variables)
        if field is None:
            return
        if field.form != 'plain':
            self.differ(name, 'a plain field', form_of(field))
        else:
            self.wants(field.type, value, variables)

    def write(self, variables, place, held):
        kind = self.type_of(place, variables)
        self.wants(held_by(kind), held, variables)

    def choice(self, variables, tested, part, other):
        self.wants('int', tested, variables)
        self.block(part, variables)
        self.block(other, variables)

    def loop(self, variables, tested, part):
        self.wants('int', tested, variables)
        self.block(part, variables)

    def parameters(self, name):
        function = self.functions.get(name.text)
        kinds = [kind for kind, _ in function.parameters] if function else []
        return kinds[1:] if function and function.kind == 'init' else kinds

    def arguments(self, expected, given, variables):
        if len(expected) == len(given):
            for kind, it in zip(expected, given):
                self.wants(kind, it, variables)

    def right_side(self, expected, value, variables):
        """The value of a declaration or an assignment."""
        if value[0] not in ('read', 'alloc', 'modref'):
            return self.wants(expected, value, variables)
        form, word, *more = value
        if form == 'read':
            found = held_by(self.type_of(more[0], variables))
        elif form == 'alloc':
            found = self.allocated(*more, variables)
        else:
            found = modifiable(more[0])
        if None not in (found, expected) and found != expected:
            self.differ(word, expected, found)

    def allocated(self, struct, maker, given, variables):
        function = self.functions.get(maker.text)
        if function and function.kind == 'init':
            self.arguments(self.parameters(maker), given, variables)
            if function.parameters[0][0] != f'struct {struct.text} *':
                self.differ(
                    struct, f'{struct_of(function.parameters[0][0])}, which {maker.text} makes', f'struct {struct.text}'
                )
        return f'struct {struct.text} *'

    # -- expressions

    def type_of(self, expression, variables):
        return getattr(self, f'of_{expression[0]}')(variables, *expression[1:])

    def of_number(self, *_):
        return 'int'

    def of_null(self, *_):
        return 'null'

    def of_name(self, variables, token):
        return variables.get(token.text)

    def of_parentheses(self, variables, _, inner):
        return self.type_of(inner, variables)

    def of_unary(self, variables, _, operand):
        self.wants('int', operand, variables)
        return 'int'

    def of_binary(self, variables, sign, left, right):
        if sign.text not in COMPARED:
            self.wants('int', left, variables)
            self.wants('int', right, variables)
            return 'int'
        kinds = [self.type_of(it, variables) for it in (left, right)]
        if None not in kinds and not (fits(kinds[0], kinds[1]) or fits(kinds[1], kinds[0])):
            self.differ(sign, SAME, ' and '.join(told(it, kind) for it, kind in zip((left, right), kinds)))
        return 'int'

    def of_field(self, variables, left, name):
        field = self.field(left, name, variables)
        if field is not None and field.form != 'plain':
            self.differ(name, 'a plain field', form_of(field))
        return field.type if field is not None and field.form == 'plain' else None

    def of_address(self, variables, _, place, index):
        if index is not None:
            self.wants('int', index, variables)
        if place[0] != 'field':
            return None
        field = self.field(*place[1:], variables)
        if field is None or field.form == 'plain':
            return None
        if (field.form == 'row') != (index is not None):
            wanted = 'a row' if index is not None else f'one of its elements, &..->{field.name}[i]'
            self.differ(place[2], wanted, form_of(field))
        return modifiable(field.type)

    def field(self, left, name, variables):
        """The field that follows a pointer."""
        kind = self.type_of(left, variables) or ''
        fields = self.structs.get(struct_of(kind)[len('struct ') :], ()) if kind.startswith('struct ') else ()
        found = next((it for it in fields if it.name == name.text), None)
        if fields and found is None:
            names = [it.name for it in fields]
            self.differ(name, f'{struct_of(kind)} has the fields {", ".join(names)}', names)
        return found


def fits(expected, found):
    return found == expected or found == 'null' and expected.endswith('*')


def struct_of(kind):
    """The struct that a pointer of some type points to; any other type as it is."""
    return kind[: -len(' *')] if kind.startswith('struct ') else kind


def held_by(kind):
    """What the modifiable holds that a pointer of some type points to."""
    if kind is None or not kind.startswith('mod '):
        return None
    return 'int' if kind == 'mod int *' else kind[len('mod ') :]


def form_of(field):
    kind = struct_of(field.type)
    return (
        f'the row of modifiables mod {kind} {field.name}[{field.length}]'
        if field.form == 'row'
        else f'the modifiable mod {kind} {field.name}'
    )


def told(expression, kind):
    """A type for people; that of a number or of `null` by itself is told as such."""
    while expression[0] == 'parentheses':
        expression = expression[2]
    return f'the number {expression[1].text}' if expression[0] == 'number' else kind


def first(expression):
    """The first token of an expression, without parentheses round the whole."""
    while expression[0] == 'parentheses':
        expression = expression[2]
    return begins(expression)


def begins(expression):
    while expression[0] in ('field', 'binary'):
        expression = expression[2] if expression[0] == 'binary' else expression[1]
    return expression[1]


def at_place(program, line, column):
    """What is expected at a place, and what is there; None where nothing differs there."""
    for token, expected, found in Kinds(program).all():
        if (token.line, token.column) == (line, column):
            return expected, found
    return None

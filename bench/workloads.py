"""The workloads: what scripts are made of, for each program of bench/programs."""
import pathlib

TOP = pathlib.Path(__file__).resolve().parent.parent
FUEL = 4_194_304
RUN = ['run', '--fuel', str(FUEL)]


class Work:
    """A script in parts: the lines that make inputs, the line that runs, and edits, each with its name, lines there and
    lines back; after each line of an edit comes a propagation."""

    def __init__(self, inputs, run, edits):
        self.inputs, self.run, self.edits = inputs, run, edits


def numbers(count, seed, limit=1_000_000):
    """So many numbers below the limit, the same at each run."""
    state, drawn = seed * 2 + 1, []
    for _ in range(count):
        state = (state * 6364136223846793005 + 1442695040888963407) % 2**64
        drawn.append((state >> 33) % limit)
    return drawn


def list_edits(last='tail'):
    """A cell put in before the first one and taken out again, and the same after the last one, which is c1."""
    return lambda size: [
        ('at the head', 'set l x', f'set l c{size}'),
        ('at the tail', f'set c1.{last} y', f'set c1.{last} null'),
    ]


def plain_list(run, outputs):
    """Cells of a number and a tail; c1 is the last one."""

    def work(size):
        heads = numbers(size + 2, 1)
        inputs = [f'new c{k} cell {heads[k - 1]} {f"c{k - 1}" if k > 1 else "null"}' for k in range(1, size + 1)]
        inputs += [
            f'new x cell {heads[size]} c{size}',
            f'new y cell {heads[size + 1]} null',
            f'mod l cell c{size}',
            *outputs,
        ]
        return Work(inputs, run, list_edits()(size))

    return work


def named_list(run, outputs, is_number_modifiable):
    """Cells with a name for the coins, a number and a tail."""

    def work(size):
        heads = numbers(size + 3, 2)
        inputs = [f'new c{k} cell {k} {heads[k - 1]} {f"c{k - 1}" if k > 1 else "null"}' for k in range(1, size + 1)]
        inputs += [
            f'new x cell {size + 1} {heads[size]} c{size}',
            f'new y cell {size + 2} {heads[size + 1]} null',
            f'mod l cell c{size}',
            *outputs,
        ]
        edits = list_edits()(size)
        if is_number_modifiable:
            middle = size // 2
            edits.append(
                (
                    'in the middle',
                    f'set c{middle}.number {heads[size + 2]}',
                    f'set c{middle}.number {heads[middle - 1]}',
                )
            )
        return Work(inputs, run, edits)

    return work


def expression(size):
    """A balanced tree of so many leaves; its first leaf and its last one are changed."""
    drawn, inputs, count = numbers(3 * size, 3), [], 0

    def grow(first, last):
        nonlocal count
        if first == last:
            inputs.append(f'new f{first} node 0 {drawn[first] % 100} null null')
            return f'f{first}'
        middle = (first + last) // 2
        left, right = grow(first, middle), grow(middle + 1, last)
        count += 1
        inputs.append(f'new n{count} node {1 + drawn[size + count] % 3} 0 {left} {right}')
        return f'n{count}'

    root = grow(0, size - 1)
    end = size - 1
    edits = [
        ('first leaf', 'set f0.leaf 100', f'set f0.leaf {drawn[0] % 100}'),
        ('last leaf', f'set f{end}.leaf 100', f'set f{end}.leaf {drawn[end] % 100}'),
    ]
    return Work([*inputs, f'mod r node {root}', 'mod o int 0'], 'run eval r o', edits)


def balanced(size, number):
    """The lines that make a balanced tree, each node with a number that follows from its place; and the root."""
    lines = []

    def grow(first, last):
        if first > last:
            return 'null'
        middle = (first + last) // 2
        left, right = grow(first, middle - 1), grow(middle + 1, last)
        lines.append(f'new n{middle} node {number(middle)} {left} {right}')
        return f'n{middle}'

    return lines, grow(1, size)


def search(size):
    """A balanced search tree of so many even keys, and a question for each; a question comes and goes, and so does a
    key."""
    inputs, root = balanced(size, lambda at: 2 * at)
    asked = numbers(size + 2, 4, 2 * size)
    inputs += [f'new q{k} question {asked[k - 1]} {f"q{k - 1}" if k > 1 else "null"}' for k in range(1, size + 1)]
    inputs += [
        f'new x question {asked[size]} q{size}',
        f'new y question {asked[size + 1]} null',
        'new k node 1 null null',
    ]
    edits = [
        ('at the head', 'set l x', f'set l q{size}'),
        ('at the tail', 'set q1.next y', 'set q1.next null'),
        ('a new key', 'set n1.left k', 'set n1.left null'),
    ]
    return Work(
        [*inputs, f'mod t node {root}', f'mod l question q{size}', 'mod o answer null'], 'run search t l o', edits
    )


def hull(size):
    """Points of a square; one of them is taken in and out at both ends of the list."""
    drawn = numbers(2 * size + 4, 5, 10_000)
    place = [f'{drawn[2 * k]} {drawn[2 * k + 1]}' for k in range(size + 2)]
    inputs = [f'new c{k} point {k} {place[k - 1]} {f"c{k - 1}" if k > 1 else "null"}' for k in range(1, size + 1)]
    inputs += [
        f'new x point {size + 1} {place[size]} c{size}',
        f'new y point {size + 2} {place[size + 1]} null',
        f'mod l point c{size}',
        'mod o corner null',
    ]
    return Work(inputs, 'run hull l o', list_edits('next')(size))


def by_turns(first, second, back):
    """Edits alternately at both ends of an input: the two lines, and the two that undo them."""
    return [('alternately at both ends', [first, second], back)]


def tree(size):
    """A balanced tree; a leaf comes and goes below its leftmost node and below its rightmost one."""
    inputs, root = balanced(size, lambda at: at % 7)
    inputs += ['new x node 1 null null', f'mod r node {root}', 'mod o int 0']
    return Work(
        inputs,
        'run sum r o',
        by_turns('set n1.left x', f'set n{size}.right x', ['set n1.left null', f'set n{size}.right null']),
    )


def asked(run, more):
    """So many of the same, and one more before them and one after them where it is asked for."""
    edits = by_turns('set p 1', 'set q 1', ['set p 0', 'set q 0'])
    return lambda size: Work(['mod p int 0', 'mod q int 0', more], f'{run} {size}', edits)


def idle(size):
    """One modifiable that is read so many times: an edit to what it holds, and a write of that before all reads."""
    edits = [('to what is there', 'set m 5', 'set m 5'), ('an equal write', 'set p 1', 'set p 0')]
    return Work(['mod m int 5', 'mod p int 0'], f'run idle m p {size}', edits)


LONG, SHORT = (625, 2500, 10_000), (250, 1000, 4000)
# Each program of bench/programs: its sizes, of which the middle one is that of the table, and its workload of a size.
PROGRAMS = {
    'map': (LONG, plain_list('run map l o', ['mod o cell null'])),
    'filter': (LONG, plain_list('run filter l o', ['mod o cell null'])),
    'reverse': (LONG, plain_list('run reverse l o', ['mod o link null'])),
    'split': (LONG, plain_list('run split l o p', ['mod o cell null', 'mod p cell null'])),
    'sum': (LONG, named_list('run sum l o', ['mod o int 0'], True)),
    'minimum': (LONG, named_list('run minimum l o', ['mod o int 0'], True)),
    'quicksort': (SHORT, plain_list('run quicksort l o', ['mod o cell null'])),
    'mergesort': (SHORT, named_list('run mergesort l o', ['mod o cell null'], False)),
    'expression': (LONG, expression),
    'search': (SHORT, search),
    'hull': (SHORT, hull),
    'tree': (LONG, tree),
    'readers': (LONG, asked('run readers p q m', 'mod m int 5')),
    'idle': (LONG, idle),
    'keys': (LONG, asked('run keys p q m', 'mod m mark null')),
}


def large_sources():
    """Three large source texts, for the word check."""
    yield 'one function of 65,000 writes', 'ceal f(mod int *m) {\n' + '  write(m, 1);\n' * 65000 + '}\n%%\n'
    body = (
        '{\n  int y = read(m);\n  if (y > x) { write(m, y + %d * x - (y / 3)); } else { f%d(m, x + 1); }\n  while (x >'
        ' 0) { x = x - 1; }\n  write(m, x + y);\n}\n'
    )
    yield '8,000 small functions', ''.join(
        f'ceal f{k}(mod int *m, int x) ' + body % (k, (k + 1) % 8000) for k in range(8000)
    ) + '%%\n'
    yield '30,000 declarations in one function', 'ceal f(mod int *a) { int x = read(a);\n' + ''.join(
        f'  int v{k} = x + {k};\n' for k in range(30000)
    ) + '}\n%%\n'


def long_chains():
    """Two functions of 60,000 declarations, each by the one before it, for the word list: few variables are live at
    once."""
    for title, first, more in (('copies', 'read(a)', ''), ('constants', '1', ' + 1')):
        chain = ''.join(f'  int v{k} = v{k - 1}{more};\n' for k in range(1, 60_000))
        head = f'ceal f(mod int *a, mod int *b) {{\n  int v0 = {first};\n'
        yield f'a chain of 60,000 {title}', f'{head}{chain}  write(b, v59999);\n}}\n%%\n'


def input_of(name, lines):
    return (TOP / 'bench/programs' / f'{name}.ceal').read_text() + '%%\n' + '\n'.join(lines) + '\n'


def lines_of(edit):
    """The lines of an edit, there and back."""
    _, there, back = edit
    return [*([there] if isinstance(there, str) else there), *([back] if isinstance(back, str) else back)]

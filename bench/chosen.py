"""Inputs that somebody might choose to keep a program busy, or to fill its memory: source texts and scripts, by size.

Each was slow once, or took more and more memory. They are written in full here, so that nothing else is needed.
"""
from colliding import colliding_keys

EMPTY = 'ceal f() { }\n%%\n'
LIST = '''struct cell { int n; mod struct cell next; };
init mk(struct cell *self, int n) { self->n = n; }
ceal map(mod struct cell *from, mod struct cell *to) {
  struct cell *c = read(from);
  if (c == null) { write(to, null); return; }
  struct cell *d = alloc cell mk(c->n * 10);
  write(to, d);
  map(&c->next, &d->next);
}
%%
'''
ONE_HASH = '''struct p { int a; int b; int c; int d; struct p *next; };
struct s { int x; };
init mk(struct s *self, int a, int b, int c, int d) { self->x = a; }
ceal f(mod int *m, struct p *h0, struct p *h1) {
  int q = read(m);
  struct p *h = h0;
  if (q) { h = h1; }
  struct p *x = h;
  while (x != null) {
    struct p *y = h;
    while (y != null) { struct s *t = alloc s mk(x->a, x->b, y->c, y->d); y = y->next; }
    x = x->next;
  }
}
%%
'''
PROGRESSION = '''struct s { int x; };
init mk(struct s *self, int a) { self->x = a; }
ceal f(mod int *m, mod int *k) {
  int q = read(m);
  int i = read(k);
  if (q > 5) { i = 0; }
  while (i > 0) { struct s *t = alloc s mk(i); i = i - 1; }
}
%%
'''
# The comments at the end of texts with that many keys, under whose seed the keys share few chains where the lower bits
# of a plain sum tell the chain. Each was looked for among a million.
WEAK = {16_000: '3834100000000000', 32_000: '3613f00000000000', 64_000: '3ebf700000000000'}
ZONES = '''struct p { mod int v; struct p *next; };
init mk(struct p *self, struct p *next) { self->next = next; }
ceal one(struct p *h) { int x = read(&h->v); }
ceal forward(struct p *h) { while (h != null) { one(h); h = h->next; } }
ceal backward(struct p *h) { if (h != null) { backward(h->next); one(h); } }
ceal fill(mod int *m, struct p *h) { int q = read(m); while (h != null) { write(&h->v, q); h = h->next; } }
ceal f(mod int *m, int n, int k) {
  struct p *h = null;
  while (n > 0) { h = alloc p mk(h); n = n - 1; }
  fill(m, h);
  while (k > 0) { forward(h); %s(h); k = k - 1; }
}
%%%%
'''
LONG_NAME = '''struct p { struct p *q; struct p *next; };
init mk(struct p *self, struct p *q, struct p *next) { self->q = q; self->next = next; }
ceal f(mod struct p *o, struct p *q, int n) {
  struct p *h = null;
  while (n > 0) { h = alloc p mk(q, h); n = n - 1; }
  write(o, h);
}
%%
'''
KEYS = '''struct s { int x; mod int m; };
init mk(struct s *self, int a) { self->x = a; }
ceal f(mod int *m, mod int *o) {
  int q = read(m);
  int i = 100;
  while (i > 0) { struct s *t = alloc s mk(q + i); write(&t->m, q); int z = read(&t->m); i = i - 1; }
}
%%
mod m int 0
mod o int 0
run f m o
'''
PLACES = '''struct p { mod int v; struct p *next; };
ceal one(struct p *h) { int x = read(&h->v); }
ceal f(mod struct p *m, int k) { struct p *h = read(m); while (k > 0) { one(h); k = k - 1; } }
%%
'''
FIELDS = 255


def toggled(edits):
    """One modifiable edited to and fro."""
    return ''.join(f'set m {1 - at % 2}\npropagate\nwork\n' for at in range(edits))


def keys_of_one_hash(side):
    """Keys, side times side in number, that have one hash where the seed is made of the source text only."""
    lines = []
    for chain in (0, 1):
        for at, (a, b, c, d) in enumerate(colliding_keys(ONE_HASH, chain, side)):
            lines.append(f'new l{chain}_{at} p {a} {b} {c} {d} {f"l{chain}_{at - 1}" if at else "null"}\n')
    return f'{ONE_HASH}{"".join(lines)}mod m int 0\nrun f m l0_{side - 1} l1_{side - 1}\nsteps\nblocks\n{toggled(1)}'


def keys_of_a_progression(count):
    """Keys 1, 2, 3 and so on, with the comment at the end."""
    text = f'{PROGRESSION}mod m int 0\nmod k int {count}\nrun f m k\nblocks\n{toggled(1)}'
    end = f'// {WEAK[count]}\n'
    pad = (64 - len(text) - len(end)) % 128
    text += '/' * (pad if pad >= 3 else pad + 128)
    return (text[:-1] + '\n' if pad else text) + end


def zones(second):
    """Places that are read over and over, in two orders, and written by one edit: reads that wait for one place."""
    return lambda count: f'{ZONES % second}mod m int 0\nrun f m {count} 4\nsteps\n{toggled(1)}'


def folded_ifs(statements):
    """Many variables of which much is known, and many parts that assign."""
    variables = ''.join(f'int x{at} = q;\n' for at in range(statements // 2))
    parts = ''.join(f'if (q == {at}) {{ a = {at}; return; }}\n' for at in range(statements // 6))
    return f'ceal f(mod int *m, int q) {{ int a = 0;\n{variables}{parts}}}\n%%\n'


def nested_loops(statements):
    """Loops, sixty deep, over 300 variables: what lives is found in rounds."""
    parts = ['ceal f(mod int *m, int q) {\n', *(f'int x{at} = q;\n' for at in range(300))]
    at = 0
    for depth in range(60):
        parts.append(f'while (q > {depth}) {{\n')
        for _ in range(statements // 60):
            parts.append(f'x{at % 300} = x{(at * 13 + 1) % 300} + 1;\n')
            at += 1
    return ''.join([*parts, '}' * 60, 'write(m, x0); }\n%%\n'])


def rows_of_structs(count):
    """Structs, each with a row of 255 modifiables."""
    return ''.join(f'struct s{at} {{ mod int row[{FIELDS}]; }};\n' for at in range(count)) + EMPTY


def wide_blocks(count):
    """Blocks of 255 modifiables, of which hardly any is written."""
    fields = ' '.join(f'mod int v{at};' for at in range(FIELDS))
    body = ''.join(f'write(&h->v{at}, 1);\n' for at in range(1, FIELDS))
    return f'''struct p {{ {fields} }};
init mk(struct p *self, int a) {{ }}
ceal f(int n, int k) {{
  struct p *h = null;
  while (n > 0) {{ h = alloc p mk(n); if (n > k) {{ write(&h->v0, 1); }} n = n - 1; }}
{body}}}
%%
run f {count} {count // 2}
steps
blocks
'''


def shown_name(count):
    """A graph of blocks that point to an input with a long name."""
    name = 'n' * 10_000
    return f'{LONG_NAME}mod o p null\nnew {name} p null null\nrun f o {name} {count}\nshow o\n'


# -- long sessions, whose trace stays as large as it is: each a beginning, and as many lines as one likes


def list_lines(count):
    cells = ''.join(f'new c{at} cell {at} {f"c{at - 1}" if at else "null"}\n' for at in range(count))
    return f'{LIST}{cells}new x cell 7 c{count // 2 - 1}\nmod l cell c{count - 1}\nmod o cell null\nrun map l o\n'


def toggle(edits):
    return list_lines(1000), (f'set c500.next {"x" if at % 2 == 0 else "c499"}\npropagate\n' for at in range(edits))


def only_set(edits):
    return list_lines(10), (f'set l c{at % 10}\n' for at in range(edits))


def refused(edits):
    return list_lines(10), (f'set l {at}\n' for at in range(edits))


def nameless(edits):
    return list_lines(10), (f'get nothing{at}\n' for at in range(edits))


def new_keys(edits):
    return KEYS, (f'set m {at * 7919}\npropagate\n' for at in range(edits))


def new_shapes(edits):
    """Blocks of 120 sizes in turn."""
    structs = []
    for size in range(1, 121):
        fields = ' '.join(f'int x{at};' for at in range(size))
        sets = ' '.join(f'self->x{at} = a + {at + 1};' for at in range(size))
        structs.append(f'struct s{size} {{ {fields} }};\ninit mk{size}(struct s{size} *self, int a) {{ {sets} }}\n')
    loop = 'if (q == {0}) {{ while (i > 0) {{ struct s{0} *t{0} = alloc s{0} mk{0}(i + q * 1000); i = i - 1; }} }}\n'
    body = ''.join(loop.format(size) for size in range(1, 121))
    head = (
        f'{"".join(structs)}ceal f(mod int *m) {{ int q = read(m); int i = 2000;\n{body}}}\n%%\nmod m int 0\nrun f m\n'
    )
    return head, (f'set m {at % 120 + 1}\npropagate\nblocks\n' for at in range(edits))


def read_places(edits):
    """Two thousand places in turn, each of them read 200 times while it has its turn."""
    count = 2000
    places = ''.join(f'new p{at} p 0 null\n' for at in range(count))
    head = f'{PLACES}{places}mod m p p0\nrun f m 200\n'
    return head, (f'set m p{at % count}\npropagate\n' for at in range(edits))


def in_parts(edits):
    def line(at):
        cell = at * 37 % 450 + 520
        tail = f'c{cell - 1}' if at // 450 % 2 else 'x'
        return f'set c{cell}.next {tail}\npropagate 1\n'

    return list_lines(1000), map(line, range(edits))


def out_of_fuel(edits):
    """Under a fuel of 1,000 steps every second update is out of fuel."""
    return list_lines(300), (f'set l c{299 if at % 2 else 10}\npropagate\n' for at in range(edits))


def bounds(edits):
    return list_lines(100), (f'set l c{99 if at % 2 else 98}\npropagate\nbound\nshow l\n' for at in range(edits))

"""The tables of bench/run."""
import math


# The program whose edits nobody sees: stock Rust looks at each of its readers, so its ratio is in no mean.
UNSEEN = 'idle'
MEAN = f'geometric mean without `{UNSEEN}`'


def table(head, rows):
    lines = ['| ' + ' | '.join(head) + ' |', '|' + '---|' * len(head)]
    return '\n'.join([*lines, *('| ' + ' | '.join(row) + ' |' for row in rows)]) + '\n'


def mean(values):
    """The geometric mean."""
    return math.prod(values) ** (1 / len(values))


def ratio(value):
    return f'{value:.2f}' if value >= 0.1 else f'{value:.1g}'


def middle(sizes):
    """The counts of a workload at the size of the table."""
    return sorted(sizes.items())[len(sizes) // 2]


def counted_table(measured, names):
    """Millions of instructions of a first run, thousands of an update, and what the first program needs of the
    second's."""
    head = ['Program', 'Size']
    for what in ('first run, millions', 'update, thousands'):
        head += [f'{name}: {what}' for name in names] + (['ratio'] if len(names) > 1 else [])
    rows, ratios = [], ([], [])
    for key, sizes in measured.items():
        size, counts = middle(sizes)
        row = [key, f'{size:,}']
        values = [it.instructions for it in counts], [
            mean([update.instructions for update in it.updates]) for it in counts
        ]
        for at, (unit, found) in enumerate(zip((1e6, 1e3), values)):
            row += [f'{it / unit:,.1f}' for it in found]
            if len(found) > 1:
                row.append(ratio(found[0] / found[1]))
                if key != UNSEEN:
                    ratios[at].append(found[0] / found[1])
        rows.append(row)
    if len(names) > 1 and ratios[0]:
        rows.append([MEAN, '', '', '', f'{mean(ratios[0]):.2f}', '', '', f'{mean(ratios[1]):.2f}'])
    return table(head, rows)


def memory_table(measured, names):
    """The memory of the largest size, and what a step of the run takes of it."""
    head = ['Program', 'Size', 'Steps'] + [f'{name}: memory' for name in names] + (['ratio'] if len(names) > 1 else [])
    rows, ratios = [], []
    for key, sizes in measured.items():
        size, counts = max(sizes.items())
        row = [key, f'{size:,}', f'{counts[0].steps:,}', *(f'{it.memory:.1f} MB' for it in counts)]
        if len(counts) > 1:
            row.append(ratio(counts[0].memory / counts[1].memory))
            if key != UNSEEN:
                ratios.append(counts[0].memory / counts[1].memory)
        rows.append(row)
    if len(names) > 1 and ratios:
        rows.append([MEAN, '', '', '', '', f'{mean(ratios):.2f}'])
    return table(head, rows)


def growth_table(measured):
    """For each edit the instructions of an update, with its work, at the smallest and at the largest size."""
    rows = []
    for key, sizes in measured.items():
        (small, fewer), (large, more) = min(sizes.items()), max(sizes.items())
        for at, it in enumerate(fewer[0].updates):
            other = more[0].updates[at]
            row = [
                key,
                it.name,
                f'{small:,}: work {it.work:,.0f}, {it.instructions:,.0f}',
                f'{large:,}: work {other.work:,.0f}, {other.instructions:,.0f}',
            ]
            rows.append(
                [*row, f'{other.work / it.work:.2f}' if it.work else '', f'{other.instructions / it.instructions:.2f}']
            )
    return table(['Program', 'Edit', 'Small', 'Large', 'work grows', 'instructions grow'], rows)


def short_table(measured, names):
    """What the tables say in short: of each workload but one the middle size, and the memory of the largest."""
    kept = {key: sizes for key, sizes in measured.items() if key != UNSEEN}
    found = [middle(sizes)[1] for sizes in kept.values()]
    values = {
        'a first run': [[it.instructions for it in counts] for counts in found],
        'an update': [[mean([update.instructions for update in it.updates]) for it in counts] for counts in found],
        'memory': [[it.memory for it in max(sizes.items())[1]] for sizes in kept.values()],
    }
    if len(names) == 1:
        units = {
            'a first run': (1e6, 'million instructions'),
            'an update': (1e3, 'thousand instructions'),
            'memory': (1, 'MB'),
        }
        rows = [
            (what, f'{mean([it[0] for it in rows]) / units[what][0]:,.1f} {units[what][1]}')
            for what, rows in values.items()
        ]
        return table([f'Of {len(kept)} programs', 'geometric mean'], rows)
    ratios = {what: [mine / other for mine, other in rows] for what, rows in values.items()}
    head = [f'Beside {names[1]}, of {len(kept)} programs', 'geometric mean', 'least', 'most']
    return table(
        head, [(what, *(f'{it:.2f}' for it in (mean(rows), min(rows), max(rows)))) for what, rows in ratios.items()]
    )

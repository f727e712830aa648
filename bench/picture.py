"""The picture of docs/PERFORMANCE.md: instructions against size, both by powers of ten."""
import math

PANEL, MARGIN, GAP, COLUMNS = 200, 56, 34, 3
COLOURS = ['#1f6fb4', '#d2691e', '#3a8f4d']
RUN_COLOUR = '#444444'
UNITS = {
    3: '1,000',
    4: '10,000',
    5: '100,000',
    6: '1 million',
    7: '10 million',
    8: '100 million',
    9: '1 billion',
    10: '10 billion',
}


def powers(low, high):
    return range(math.floor(math.log10(low)), math.ceil(math.log10(high)) + 1)


def curve(points, place, colour, dashes):
    at = ' '.join(f'{x:.1f},{y:.1f}' for x, y in (place(*it) for it in points))
    dots = ''.join(
        f'<circle cx="{x:.1f}" cy="{y:.1f}" r="2" fill="{colour}"/>' for x, y in (place(*it) for it in points)
    )
    dashed = ' stroke-dasharray="4 3"' if dashes else ''
    return f'<polyline points="{at}" fill="none" stroke="{colour}" stroke-width="1.5"{dashed}/>{dots}'


def panel(title, sizes, left, top, scale):
    """One workload: instructions against size, both by powers of ten."""
    xs, ys = scale

    def place(x, y):
        right = (math.log10(x) - xs[0]) / (xs[-1] - xs[0]) * PANEL
        up = (math.log10(max(y, 10 ** ys[0])) - ys[0]) / (ys[-1] - ys[0]) * PANEL
        return left + right, top + PANEL - up

    parts = [
        f'<text x="{left}" y="{top - 8}" font-weight="bold">{title}</text>',
        f'<rect x="{left}" y="{top}" width="{PANEL}" height="{PANEL}" fill="none" stroke="#999"/>',
    ]
    for x in xs:
        across = place(10**x, 1)[0]
        parts.append(f'<line x1="{across:.1f}" y1="{top}" x2="{across:.1f}" y2="{top + PANEL}" stroke="#ddd"/>')
        parts.append(f'<text x="{across:.1f}" y="{top + PANEL + 14}" text-anchor="middle">{10**x:,}</text>')
    for y in ys:
        along = place(10 ** xs[0], 10.0**y)[1]
        parts.append(f'<line x1="{left}" y1="{along:.1f}" x2="{left + PANEL}" y2="{along:.1f}" stroke="#ddd"/>')
        parts.append(
            f'<text x="{left - 5}" y="{along + 4:.1f}" text-anchor="end" font-size="9">{UNITS.get(y, "")}</text>'
        )
    return '\n'.join([*parts, *curves(sizes, place)])


def curves(sizes, place):
    """The first run and each edit of a workload, for each program."""
    counts = sorted(sizes.items())
    for number in range(len(counts[0][1])):
        yield curve([(size, it[number].instructions) for size, it in counts], place, RUN_COLOUR, number > 0)
        for at in range(len(counts[0][1][number].updates)):
            yield curve(
                [(size, it[number].updates[at].instructions) for size, it in counts], place, COLOURS[at], number > 0
            )


def legend(measured, names, left, top):
    entries = [
        ('run from scratch', RUN_COLOUR, False),
        ('update, first edit', COLOURS[0], False),
        ('second edit', COLOURS[1], False),
    ]
    if any(len(it[0].updates) > 2 for sizes in measured.values() for it in sizes.values()):
        entries.append(('third edit', COLOURS[2], False))
    if len(names) > 1:
        entries.append((f'dashed: {names[1]}', '#777777', True))
    parts = []
    for text, colour, dashes in entries:
        dashed = ' stroke-dasharray="4 3"' if dashes else ''
        parts.append(
            f'<line x1="{left}" y1="{top - 4}" x2="{left + 24}" y2="{top - 4}" stroke="{colour}"'
            f' stroke-width="2"{dashed}/>'
        )
        parts.append(f'<text x="{left + 30}" y="{top}">{text}</text>')
        left += 46 + 7 * len(text)
    return '\n'.join(parts)


def picture(measured, names):
    counts = [it for sizes in measured.values() for found in sizes.values() for it in found]
    values = [it.instructions for it in counts] + [update.instructions for it in counts for update in it.updates]
    sizes = [size for found in measured.values() for size in found]
    scale = powers(min(sizes), max(sizes)), powers(min(values), max(values))
    rows = math.ceil(len(measured) / COLUMNS)
    width, height = MARGIN + COLUMNS * (PANEL + MARGIN) + 10, 50 + rows * (PANEL + 24 + GAP)
    parts = [
        (
            f'<svg xmlns="http://www.w3.org/2000/svg" viewBox="0 0 {width} {height}" font-family="sans-serif"'
            ' font-size="11">'
        ),
        f'<rect width="{width}" height="{height}" fill="white"/>',
        legend(measured, names, MARGIN, 20),
    ]
    for at, (title, found) in enumerate(measured.items()):
        left, top = MARGIN + at % COLUMNS * (PANEL + MARGIN), 50 + at // COLUMNS * (PANEL + 24 + GAP)
        parts.append(panel(title, found, left, top, scale))
    return '\n'.join([*parts, '</svg>', ''])

"""Draws lines as SVG, over two logarithmic axes: a line that rises by one step a step grows in proportion."""
import html
import math

WIDTH, HEIGHT = 640, 420
LEFT, RIGHT, TOP, BOTTOM = 64, 80, 44, 52
COLOURS = ("#0072b2", "#d55e00", "#009e73", "#8e4585", "#333333")


def ticks(values):
    """Numbers that are 1, 2 or 5 times a power of ten, from one at most the least value to one at least the greatest."""
    numbers = [float(f"{digit}e{power}") for power in range(-9, 10) for digit in (1, 2, 5)]
    begin = max(it for it in numbers if it <= min(values))
    end = min(it for it in numbers if it >= max(values) and it > begin)
    return [it for it in numbers if begin <= it <= end]


def scale(marks, begin, end):
    """Maps a value to its place, if the first mark stands at `begin` and the last one at `end`."""
    low, high = math.log(marks[0]), math.log(marks[-1])
    return lambda value: begin + (end - begin) * (math.log(value) - low) / (high - low)


def text(x, y, said, more=""):
    return f'<text x="{x:.1f}" y="{y:.1f}"{more}>{html.escape(said)}</text>'


def grid(across, upwards, x, y):
    """The lines and numbers of both axes."""
    for mark in across:
        yield f'<path d="M{x(mark):.1f} {TOP}V{HEIGHT - BOTTOM}" stroke="#dddddd"/>'
        yield text(x(mark), HEIGHT - BOTTOM + 18, f"{mark:g}", ' text-anchor="middle"')
    for mark in upwards:
        yield f'<path d="M{LEFT} {y(mark):.1f}H{WIDTH - RIGHT}" stroke="#dddddd"/>'
        yield text(LEFT - 8, y(mark) + 4, f"{mark:g}", ' text-anchor="end"')


def line(name, points, colour, x, y):
    """A line through points, with its name after the last one."""
    places = " ".join(f"{x(a):.1f},{y(b):.1f}" for a, b in points)
    yield f'<polyline points="{places}" fill="none" stroke="{colour}" stroke-width="2"/>'
    for a, b in points:
        yield f'<circle cx="{x(a):.1f}" cy="{y(b):.1f}" r="3" fill="{colour}"/>'
    yield text(x(points[-1][0]) + 8, y(points[-1][1]) + 4, name, f' fill="{colour}"')


def drawn(title, across, upwards, lines):
    """The SVG of `lines`, which maps names to lists of points. `across` and `upwards` say what the axes measure."""
    points = [it for of in lines.values() for it in of]
    columns, rows = (ticks([it[k] for it in points]) for k in (0, 1))
    x, y = scale(columns, LEFT, WIDTH - RIGHT), scale(rows, HEIGHT - BOTTOM, TOP)
    parts = [f'<svg xmlns="http://www.w3.org/2000/svg" viewBox="0 0 {WIDTH} {HEIGHT}" font-family="sans-serif" font-size="12">',
             f'<rect width="{WIDTH}" height="{HEIGHT}" fill="#ffffff"/>', text(LEFT, 20, title, ' font-size="14"'),
             text(LEFT, TOP - 8, upwards), text(WIDTH - RIGHT, HEIGHT - 12, across, ' text-anchor="end"')]
    parts += grid(columns, rows, x, y)
    for (name, of), colour in zip(lines.items(), COLOURS):
        parts += line(name, of, colour, x, y)
    return "\n".join([*parts, "</svg>\n"])

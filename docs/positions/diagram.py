"""Pictures of boards as SVG: stones, what is counted, and the regions of play with their walls, values and temperatures."""

from html import escape

CELL = 40  # pixels between two lines of the board
MARGIN = 56  # from the first line to the edge of the picture
LINE = 20  # the height of a line of the list below the board
SHADES = ('#f6c26b', '#9fd0a5', '#9ec5ea', '#e3a6b8', '#cbb2e6', '#e6dd8a', '#9ad6d3', '#dcb49a')
LONGEST = 6  # signs of a value that stand in a region
LONGEST_LINE = 100  # signs of a line of the list

STYLE = """\
text{font:13px sans-serif;fill:#333;text-anchor:middle} .in{font:bold 10px sans-serif} .list{font:13px monospace;text-anchor:start}
.grid{stroke:#777;stroke-width:1} .wall{stroke:#8b2500;stroke-width:3;stroke-linecap:round}
.black{fill:#222;stroke:#000} .white{fill:#fff;stroke:#000} .open{stroke-dasharray:3 2;fill-opacity:.55}"""


def diagram(board, drawn, regions, values, title):
    """The lines of a picture. `drawn` and `regions` are those of `signs`, `values` the lines of the program."""
    told = told_of(values)
    listed = [title] + (values[:1] if values[0].startswith('fault') else [])
    entries = [cut(entry(board, point, count, told), LONGEST_LINE) for point, count in regions]
    width = max(2 * MARGIN + CELL * (board.columns - 1), 60 + 8 * max(map(len, listed + entries)))
    below = 2 * MARGIN + CELL * (board.rows - 1) + 6
    height = below + LINE * (len(listed) + len(regions)) + 8
    yield '<svg xmlns="http://www.w3.org/2000/svg" viewBox="0 0 %d %d" width="%d" height="%d">' % (width, height, width, height)
    yield '<title>%s</title>\n<style>\n%s\n</style>' % (escape(title), STYLE)
    yield '<rect width="100%" height="100%" fill="#fffdf7"/>'
    parts = [board.part(point, lambda other: drawn[other] in '.xo') for point, _ in regions]
    for number, part in enumerate(parts):
        for point in sorted(part):
            yield square(point, CELL, SHADES[number % len(SHADES)])
    yield from grid(board)
    yield from names(board)
    for point, sign in drawn.items():
        yield from cell(board, point, sign)
    for part in parts:
        yield from walls(board, part)
    for row, line in enumerate(listed):
        yield '<text class="list" x="%d" y="%d">%s</text>' % (MARGIN // 2, below + LINE * row, escape(line))
    for number, ((point, _), part) in enumerate(zip(regions, parts)):
        y = below + LINE * (len(listed) + number)
        yield '<rect x="%d" y="%d" width="12" height="12" fill="%s"/>' % (MARGIN // 2, y - 11, SHADES[number % len(SHADES)])
        yield '<text class="list" x="%d" y="%d">%s</text>' % (MARGIN // 2 + 20, y, escape(entries[number]))
        if board.name(point) in told:
            yield from label(board, part, *told[board.name(point)])
    yield '</svg>'


def entry(board, point, count, told):
    """The line of a region in the list below the board."""
    line = '%s (%s), %d point%s' % (board.name(point), board.gtp_name(point), count, 's' * (count > 1))
    return line + ': %s, temperature %s' % told[board.name(point)] if board.name(point) in told else line


def cut(text, most):
    return text if len(text) <= most else text[:most - 1] + '…'


def told_of(values):
    """From the lowest point of each region to its value and temperature."""
    told, at = {}, None
    for word, _, rest in (line.partition(' ') for line in values):
        if word == 'region':
            at = rest.split()[0]
        elif word == 'value':
            told[at] = rest, ''
        elif word == 'temperature':
            told[at] = told[at][0], rest
    return told


def across(x):
    return MARGIN + CELL * x


def square(point, side, colour):
    x, y = across(point[0]) - side / 2, across(point[1]) - side / 2
    return '<rect x="%g" y="%g" width="%g" height="%g" fill="%s"/>' % (x, y, side, side, colour)


def stroke(style, x, y, a, b):
    return '<line class="%s" x1="%g" y1="%g" x2="%g" y2="%g"/>' % (style, x, y, a, b)


def grid(board):
    last_x, last_y = across(board.columns - 1), across(board.rows - 1)
    for x in range(board.columns):
        yield stroke('grid', across(x), MARGIN, across(x), last_y)
    for y in range(board.rows):
        yield stroke('grid', MARGIN, across(y), last_x, across(y))


def names(board):
    for x in range(board.columns):
        yield text(across(x), MARGIN - 30, chr(97 + x))
        yield text(across(x), across(board.rows - 1) + 40, board.gtp_name((x, 0))[0])
    for y in range(board.rows):
        yield text(MARGIN - 36, across(y) + 5, chr(97 + y))
        yield text(across(board.columns - 1) + 36, across(y) + 5, str(board.rows - y))


def text(x, y, what, style=''):
    return '<text%s x="%g" y="%g">%s</text>' % (' class="%s"' % style if style else '', x, y, escape(what))


def cell(board, point, sign):
    """A stone, paler where it isn't alive, or the mark of a counted point."""
    x, y = across(point[0]), across(point[1])
    if point in board.stones:
        style = board.stones[point] + (' open' if sign not in 'XO' else '')
        yield '<circle class="%s" cx="%g" cy="%g" r="%g"/>' % (style, x, y, CELL * 0.46)
    if sign in 'bBwW':
        owner = 'black' if sign in 'bB' else 'white'
        yield '<rect class="%s" x="%g" y="%g" width="9" height="9"/>' % (owner, x - 4.5, y - 4.5)


def walls(board, part):
    """Lines between the points of a region and those beside it that are on the board."""
    half = CELL / 2
    for x, y in sorted(part):
        a, b = across(x), across(y)
        sides = {
            (x, y - 1): (a - half, b - half, a + half, b - half), (x, y + 1): (a - half, b + half, a + half, b + half),
            (x - 1, y): (a - half, b - half, a - half, b + half), (x + 1, y): (a + half, b - half, a + half, b + half),
        }
        for other in board.near((x, y)):
            if other not in part:
                yield stroke('wall', *sides[other])


def label(board, part, value, temperature):
    """Value and temperature at the lowest empty point of a region, or at its lowest point."""
    x, y = min(part, key=lambda point: (point in board.stones, point[1], point[0]))
    yield '<rect x="%g" y="%g" width="38" height="27" fill="#fff" fill-opacity=".8"/>' % (across(x) - 19, across(y) - 14)
    yield text(across(x), across(y) - 3, cut(value, LONGEST), 'in')
    yield text(across(x), across(y) + 9, 't ' + temperature, 'in')

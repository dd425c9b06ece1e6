"""Positions and boards, for the scripts beside it: what the program says of them, points' names, drawings read and made, SGF files written.

A position is read by the program's command `board`. Of a file itself only the properties of its main line are read, for what `board`
doesn't say: names, comments, marks, and the moves that come later."""

import pathlib
import re
import sys

sys.path.insert(0, str(pathlib.Path(__file__).resolve().parent.parent))

from script import Fault, answered, printable

GTP_COLUMNS = 'ABCDEFGHJKLMNOPQRSTUVWXYZ'
SYMBOL = {'black': 'X', 'white': 'O'}
CELLS = {'X': 'black', 'O': 'white'}
MOVES = {'B': 'black', 'W': 'white'}
MARKS = {'TB': 'black', 'TW': 'white'}
OTHER = {'black': 'white', 'white': 'black'}
COLOURS = ('black', 'white')
LONGEST_SIDE = 25


# The main line


def main_line(text):
    """The nodes of the first tree's main line: each a list of pairs, a property's name and its values, in file order."""
    begin = re.search(rb'\((?=[\t-\r ]*;)', text)
    if not begin:
        raise Fault('the file has no tree')
    token = re.compile(rb'[\t-\r ]*(?:([();])|([A-Za-z]+)|\[((?:[^\]\\]|\\.)*)\])', re.S)
    nodes, at, depth, is_over = [], begin.start(), 0, False
    while True:
        found = token.match(text, at)
        if not found:
            raise Fault('byte %d of the file is none that a tree goes on with' % at)
        at = found.end()
        sign, name, value = found.groups()
        if sign == b'(':
            depth += 1
        elif sign == b')':
            depth -= 1
            is_over = True  # what follows the first tree to close are other variations
            if depth == 0:
                return nodes
        elif is_over:
            continue
        elif sign == b';':
            nodes.append([])
        elif name is not None:
            nodes[-1].append((''.join(c for c in name.decode() if c.isupper()), []))
        elif not nodes[-1]:
            raise Fault('a value before byte %d of the file has no name' % at)
        else:
            nodes[-1][-1][1].append(re.sub(rb'\\(.)', rb'\1', value, flags=re.S).decode('latin-1').strip())


def first_value(node, name):
    """The first value of the first property of this name, or None."""
    for key, values in node:
        if key == name and values:
            return values[0]
    return None


# Boards


class Board:
    """A board: its stones are a dictionary from a point, (column, row) counted from the top left, to a colour."""

    def __init__(self, columns, rows):
        self.columns, self.rows, self.stones = columns, rows, {}

    def points(self):
        """All points, row by row from the top left, as the program numbers them."""
        return [(x, y) for y in range(self.rows) for x in range(self.columns)]

    def near(self, point):
        x, y = point
        around = ((x, y - 1), (x - 1, y), (x + 1, y), (x, y + 1))
        return [(a, b) for a, b in around if 0 <= a < self.columns and 0 <= b < self.rows]

    def part(self, point, holds):
        """The connected part of the points for which `holds` is true, around a point of it."""
        seen, todo = {point}, [point]
        while todo:
            for other in self.near(todo.pop()):
                if other not in seen and holds(other):
                    seen.add(other)
                    todo.append(other)
        return seen

    def chain(self, point):
        """The chain of the stone at a point; empty where there is none."""
        if point not in self.stones:
            return set()
        return self.part(point, lambda other: self.stones.get(other) == self.stones[point])

    def has_liberty(self, chain):
        return any(other not in self.stones for point in chain for other in self.near(point))

    def chains(self):
        """The chains, by lowest stone."""
        found, seen = [], set()
        for point in self.points():
            if point in self.stones and point not in seen:
                found.append(self.chain(point))
                seen |= found[-1]
        return found

    def place(self, point, colour):
        """Places a stone, takes off what it captures, and gives the number of the stones taken."""
        if point in self.stones:
            raise Fault('a move at %s, where a stone stands' % self.name(point))
        self.stones[point] = colour
        taken = set()
        for other in self.near(point):
            if self.stones.get(other) == OTHER[colour] and other not in taken:
                chain = self.chain(other)
                if not self.has_liberty(chain):
                    taken |= chain
        for other in taken:
            del self.stones[other]
        if not self.has_liberty(self.chain(point)):
            raise Fault('a move at %s is suicide' % self.name(point))
        return len(taken)

    # Names

    def name(self, point):
        """The name as in SGF: column, then row, from the top left."""
        return chr(97 + point[0]) + chr(97 + point[1])

    def gtp_name(self, point):
        """The name as in GTP: A to Z without I, then the row counted from the bottom."""
        return GTP_COLUMNS[point[0]] + str(self.rows - point[1])

    def point(self, name):
        if not re.fullmatch('[a-z][a-z]', name):
            raise Fault('%s is no point' % (printable(name) or 'nothing'))
        point = ord(name[0]) - 97, ord(name[1]) - 97
        if point[0] >= self.columns or point[1] >= self.rows:
            raise Fault('the point %s is not on the board' % name)
        return point

    def gtp_point(self, name):
        return GTP_COLUMNS.index(name[0].upper()), self.rows - int(name[1:])

    def is_pass(self, value):
        return value == '' or (value == 'tt' and self.columns <= 19 and self.rows <= 19)

    def rectangle(self, value):
        """The points of a value of TB or TW: one point, or a rectangle with corners in any order."""
        if not value:
            return []
        corners = [self.point(name.strip()) for name in value.split(':', 1)]
        columns = sorted(x for x, _ in corners)
        rows = sorted(y for _, y in corners)
        return [(x, y) for y in range(rows[0], rows[-1] + 1) for x in range(columns[0], columns[-1] + 1)]


# What a file says


DECLARED = {'b': 'black', 'w': 'white'}


class Setup:
    """What the lines of `board` say: the board, the side to move, the komi, the prisoners of each colour, and the points that are declared for
    each, with `--territory yes`."""

    def __init__(self, lines):
        (_, columns, rows), (_, self.side), (_, self.komi), *told = (line.split() for line in lines)
        self.board = Board(int(columns), int(rows))
        self.prisoners = {words[1]: int(words[2]) for words in told if words[0] == 'prisoners'}
        self.declared = {colour: [] for colour in COLOURS}
        for y, text in enumerate(words[1] for words in told if words[0] == 'row'):
            self.board.stones.update(((x, y), CELLS[cell]) for x, cell in enumerate(text) if cell in CELLS)
            for x, cell in enumerate(text):
                if cell in DECLARED:
                    self.declared[DECLARED[cell]].append((x, y))


def setup_of(text, options=()):
    """The setup of a file's bytes, with the program's options."""
    return Setup(answered('board', text, options))


def after_words(after):
    """The option for the position after so many moves, or none."""
    return [] if after is None else ['--after', str(after)]


def moves_of(nodes, board):
    """The moves of a main line, in order, each a colour and a point, which is None for a pass."""
    moves = ((key, values[0]) for node in nodes for key, values in node if key in MOVES and values)
    return [(MOVES[key], None if board.is_pass(value) else board.point(value)) for key, value in moves]


def has_marks(nodes):
    return any(key in MARKS for node in nodes for key, _ in node)


# What is alive


def lowest(point):
    """The order of points by which the program calls one the lowest."""
    return point[1], point[0]


def signs(board, lines):
    """The sign of each point by the lines of `safe`, and the regions of play, each its lowest point and its number of points.

    An alive stone is X or O, a stone on a contested point x or o, an empty contested point `.`. An empty counted point is b or w, by its
    owner, and one with a captive B or W.
    """
    drawn = {point: '.' for point in board.points()}
    told = {'chain': [], 'counted': [], 'region': []}
    for label, *words in map(str.split, lines):
        told.setdefault(label, []).append(words)
    lows = []
    for name, colour, _, number, life in told['chain']:
        chain = board.chain(board.point(name))
        agree(len(chain) == int(number) and board.stones[board.point(name)] == colour, name)
        lows.append(min(chain, key=lowest))
        for point in chain:
            drawn[point] = SYMBOL[colour] if life == 'alive' else SYMBOL[colour].lower()
    agree(lows == [min(chain, key=lowest) for chain in board.chains()], 'the chains')
    for name, colour, _, number, *_ in told['counted']:
        region = board.part(board.point(name), lambda point: board.stones.get(point) != colour)
        agree(len(region) == int(number), name)
        for point in region:
            drawn[point] = colour[0].upper() if point in board.stones else colour[0]
    regions = []
    for name, _, number in told['region']:
        regions.append((board.point(name), int(number)))
        agree(len(board.part(board.point(name), lambda point: drawn[point] in '.xo')) == int(number), name)
    return drawn, regions


def agree(does_agree, what):
    """Faults where this script's board isn't the one that the program has read."""
    if not does_agree:
        raise Fault("this script's board and that of the program differ: %s" % what)


def walls(board, drawn, point):
    """The signs of the living stones next to a point."""
    return {drawn[other] for other in board.near(point)} & {'X', 'O'}


def pairs(board, drawn):
    """The pairs of contested points, the first of which touches Black's wall alone, and the second White's."""
    contested = [point for point in board.points() if drawn[point] in '.xo']
    return [
        (point, other)
        for point in contested
        if walls(board, drawn, point) == {'X'}
        for other in board.near(point)
        if drawn[other] in '.xo' and walls(board, drawn, other) == {'O'}
    ]


# Writing


def komi_halves(text):
    """A komi in half-points, or None where the text is none that the program takes."""
    found = re.fullmatch(r'([+-]?)([0-9]*)(?:\.(0*|50*))?', text)
    if not found or not re.search('[0-9]', text) or int(found[2] or 0) > 999_999:
        return None
    halves = 2 * int(found[2] or 0) + bool((found[3] or '').strip('0'))
    return -halves if found[1] == '-' else halves


def komi_text(halves):
    """A komi of so many half-points, as in SGF."""
    return '%s%d%s' % ('-' * (halves < 0), abs(halves) // 2, '.5' * (halves % 2))


def escaped(text):
    """The text as a value of SGF, without signs that a terminal obeys."""
    return '\n'.join(map(printable, text.split('\n'))).replace('\\', '\\\\').replace(']', '\\]')


def sgf(board, side, komi=None, comment='', title='', marks=None):
    """A file with the board as its one node; the komi is a text, or None for none. `marks` has the points of each colour's territory."""
    size = str(board.columns) if board.columns == board.rows else '%d:%d' % (board.columns, board.rows)
    lines = ['(;GM[1]FF[4]CA[UTF-8]SZ[%s]%sPL[%s]' % (size, 'KM[%s]' % komi if komi else '', side[0].upper())]
    lines += ['GN[%s]' % escaped(title)] if title else []
    stones = [(key, [point for point in board.points() if board.stones.get(point) == colour]) for key, colour in (('AB', 'black'), ('AW', 'white'))]
    for key, named in stones + [(key, (marks or {}).get(colour, [])) for key, colour in MARKS.items()]:
        points = ['[%s]' % board.name(point) for point in named]
        for at in range(0, len(points), 20):
            lines.append((key if at == 0 else '') + ''.join(points[at:at + 20]))
    lines += ['C[%s]' % escaped(comment)] if comment else []
    return '\n'.join(lines) + ')\n'


# Drawings

STONES = {'X': 'black', 'x': 'black', 'W': 'black', 'O': 'white', 'o': 'white', 'B': 'white'}  # W and B are captives
EMPTY = {'.', 'b', 'w'}


def picture(board, drawn, width=1):
    """The board in lines, with the names of its columns and rows in both letterings; a cell takes `width` signs."""
    columns = range(board.columns)
    gtp = '      ' + ' '.join(GTP_COLUMNS[x].rjust(width) for x in columns)
    sgf_names = '      ' + ' '.join(chr(97 + x).rjust(width) for x in columns)
    yield gtp.rstrip()
    yield sgf_names
    for y in range(board.rows):
        row = ' '.join(str(drawn[x, y]).rjust(width) for x in columns)
        yield ' %2d %s %s %s %d' % (board.rows - y, chr(97 + y), row, chr(97 + y), board.rows - y)
    yield sgf_names
    yield gtp


def read_drawing(text):
    """The board of a drawing: rows of X, O and . with blanks between, under the letters of the columns and behind those of the rows, or
    without letters. A drawing of `show` is one too."""
    lines = [(number, line.split()) for number, line in enumerate(text.split('\n'), 1)]
    first = next((at for at, (_, words) in enumerate(lines) if is_head(words)), 0)
    columns, rows = None, []
    for number, words in lines[first:]:
        if rows and (not words or is_head(words)):
            break
        if not words or is_head(words):
            columns = columns or len(words) or None
            continue
        cells = row_of(words, columns, len(rows))
        if cells is None or (rows and len(cells) != len(rows[0])):
            wanted = 'X, O and .' if columns is None and not rows else '%d points' % (columns or len(rows[0]))
            raise Fault('line %d of the drawing is no row of %s' % (number, wanted))
        rows.append(cells)
    if not rows or len(rows) > LONGEST_SIDE or len(rows[0]) > LONGEST_SIDE:
        raise Fault('the drawing is none of 1 to 25 columns and rows')
    board = Board(len(rows[0]), len(rows))
    for x, y in board.points():
        if rows[y][x] in STONES:
            board.stones[x, y] = STONES[rows[y][x]]
    return board


def is_head(words):
    """Whether these are the letters of the columns."""
    return bool(words) and words in ([chr(97 + x) for x in range(len(words))], list(GTP_COLUMNS[:len(words)]))


def row_of(words, columns, row):
    """The cells of a row, or None where it is none; where the columns have letters, so have the rows."""
    if columns is not None:
        words = words[1:] if words[0].isdigit() else words
        if words[:1] != [chr(97 + row)]:
            return None
        words = words[1:] if len(words) == 2 else words[1:columns + 1]
    cells = list(''.join(words))
    is_row = all(cell in STONES or cell in EMPTY for cell in cells) and (columns is None or len(cells) == columns)
    return cells if is_row and (columns is not None or not set(cells) & {'b', 'w', 'B', 'W'}) else None

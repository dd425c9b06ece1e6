"""Positions on the page: a file with the program's options, changed by clicks and fields, and written as SGF. What stands on its board is
what the program's `board` has said, the setup."""

import copy
from dataclasses import dataclass, field, replace
from typing import Optional

from answers import Fault
from record import COLOURS, Board, Setup, komi_halves, komi_text, lowest, sgf

LONGEST_FILE = 1_048_576
MOST_MOVES = MOST_PRISONERS = 999_999
MOST_POSITIONS, MOST_PARTS = 1_000_000, 4_000
WITH_CYCLES = 'solve', 'values', 'margin', 'moves', 'play'
UNSEALED = 'unsealed'  # `board` without the marks


@dataclass(frozen=True)
class Position:
    text: bytes
    name: str
    after: Optional[int] = None
    komi: Optional[str] = None
    turn: Optional[str] = None
    black_prisoners: int = 0
    white_prisoners: int = 0
    tax: bool = False
    territory: bool = False
    cycles: bool = False
    marks: Optional[tuple] = None  # each a point and a colour, where the page wrote them into the text
    positions: int = 100_000
    parts: int = 500
    setup: Optional[Setup] = field(default=None, compare=False)  # known where the page wrote the text

    def options(self, command):
        """The options that the command takes, as words."""
        told = {'after': self.after, 'komi': self.komi, 'turn': self.turn,
                'black-prisoners': self.black_prisoners or None, 'white-prisoners': self.white_prisoners or None}
        if command not in ('board', 'safe', UNSEALED):
            told.update({'tax': 'yes' if self.tax else None, 'positions': self.positions, 'parts': self.parts})
        if command in WITH_CYCLES and self.cycles:
            told['cycles'] = 'yes'
        if self.territory and command != UNSEALED:
            told['territory'] = 'yes'
        return [word for name, value in told.items() if value is not None for word in ('--' + name, str(value))]


def empty(columns, rows):
    """A board without stones."""
    for number in (columns, rows):
        whole(number, 1, 25, 'a size')
    return Position(sgf(Board(columns, rows), 'black').encode(), 'new board')


def whole(value, least, most, what):
    if type(value) is not int or not least <= value <= most:
        raise Fault('%s is a number from %d to %d' % (what, least, most))
    return value


def settled(position, setup):
    """The position as a board alone, without the moves before and behind it; the setup is what `board` says of it, without the marks that the
    page wrote, where it did."""
    marks = setup.declared if position.marks is None else marks_by_colour(position.marks)
    return replace(
        position, text=sgf(setup.board, setup.side, setup.komi, marks=marks).encode(), after=None, komi=None, turn=None,
        black_prisoners=setup.prisoners['black'], white_prisoners=setup.prisoners['white'], setup=setup)


def sealed(position, setup):
    """The position as a board alone, where the setup is what `board` says of it with its marks."""
    return settled(replace(position, marks=None), setup)


def marks_by_colour(marks):
    return {colour: [point for point, owner in marks if owner == colour] for colour in COLOURS}


def marks_of(position, setup):
    """The marks of a position as points and colours: those that the page wrote, or the declared points of what `board` says."""
    return dict(position.marks if position.marks is not None else ((point, colour) for colour in COLOURS for point in setup.declared[colour]))


def edited(position, setup, name, colour):
    """The position with a stone set at a point, or taken off where one of the colour stands or the colour is none; then its mark goes too."""
    if colour not in (*COLOURS, None) or not isinstance(name, str):
        raise Fault('a stone is black or white, or none')
    changed, marks = copy.deepcopy(setup), marks_of(position, setup)
    stones, point = changed.board.stones, changed.board.point(name)
    if colour is None:
        marks.pop(point, None)
    if colour is None or stones.get(point) == colour:
        stones.pop(point, None)
    else:
        stones[point] = colour
    return settled(replace(position, marks=tuple(marks.items()) if marks else None), changed)


def marked(position, setup, name, colour):
    """The position with a point marked as the colour's territory, and with it the empty points that are joined to it; or with the point's mark
    taken off, where it has that."""
    if colour not in COLOURS or not isinstance(name, str):
        raise Fault('a mark is black or white')
    board, marks = setup.board, marks_of(position, setup)
    point = board.point(name)
    if marks.get(point) == colour:
        del marks[point]
    elif board.stones.get(point) == colour:
        raise Fault('a stone of the colour stands there')
    else:
        empty_points = {point} if point in board.stones else board.part(point, lambda other: other not in board.stones)
        marks.update((other, colour) for other in empty_points)
    if position.tax:
        raise Fault('with a tax no territory is marked')
    return settled(replace(position, marks=tuple(sorted(marks.items(), key=lambda mark: lowest(mark[0]))), territory=True), setup)


def configured(position, given):
    """The position with other options, as the fields of the page give them."""
    checks = {
        'komi': komi_option, 'turn': turn_option, 'tax': bool, 'territory': bool, 'cycles': bool,
        'black_prisoners': lambda value: whole(value, 0, MOST_PRISONERS, 'a number of prisoners'),
        'white_prisoners': lambda value: whole(value, 0, MOST_PRISONERS, 'a number of prisoners'),
        'positions': lambda value: whole(value, 1, MOST_POSITIONS, 'the limit of positions'),
        'parts': lambda value: whole(value, 1, MOST_PARTS, 'the limit of parts'),
        'after': lambda value: None if value is None else whole(value, 0, MOST_MOVES, 'a number of moves'),
    }
    if not given.keys() <= checks.keys():
        raise Fault('there is no such option')
    changed = replace(position, setup=None, **{name: checks[name](value) for name, value in given.items()})
    if changed.tax and changed.territory:
        raise Fault('a tax and marked territory do not go together')
    return changed


def komi_option(value):
    if value is None:
        return None
    if not isinstance(value, str) or len(value) > 12 or komi_halves(value) is None:
        raise Fault('a komi is a whole number or has .5 behind it')
    return value


def turn_option(value):
    if value not in (*COLOURS, None):
        raise Fault('the side is black or white')
    return value


def written(position, setup):
    """A setup as a file that answers alone, but for the options: its prisoners go into the komi."""
    black, white = (setup.prisoners[colour] for colour in COLOURS)
    komi = komi_text(komi_halves(setup.komi) + 2 * (white - black))
    if komi_halves(komi) is None:
        raise Fault('with so many prisoners the komi is past what a file has')
    comment = 'Black has %d prisoners and White %d; they are in the komi.' % (black, white)
    return sgf(setup.board, setup.side, komi, comment if black or white else '', marks=marks_by_colour(marks_of(position, setup).items()))


def with_moves(position, moves):
    """The text of a settled position with moves behind it, each a colour and a point's name, empty for a pass."""
    nodes = ''.join('\n;%s[%s]' % (colour[0].upper(), point) for colour, point in moves)
    return (position.text.decode().rstrip().removesuffix(')') + nodes + ')\n').encode()

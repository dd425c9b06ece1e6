"""Problems, for the scripts beside it and examples/first-moves: what the program says of the first moves of a position and of its parts."""

import collections
import fractions
import pathlib
import sys

sys.path[:0] = [str(pathlib.Path(__file__).resolve().parent.parent / folder) for folder in ('.', 'positions')]

from record import komi_halves, komi_text, signs
from script import answered

Stone = collections.namedtuple('Stone', 'point wins threshold')  # the threshold in half-points of komi
Part = collections.namedtuple('Part', 'point points value temperature')  # no temperature where the value is a number


class Moves:
    """The first moves of a position, from the lines of `moves`: its stones, and what wins of `spend` and `half`."""

    def __init__(self, lines):
        side, komi, _winner, *moves = (line.split() for line in lines)
        self.side, self.komi = side[1], komi_halves(komi[1])
        self.stones = [Stone(words[1], words[2] == 'wins', komi_halves(words[3])) for words in moves if words[0] == 'stone']
        self.others = [words[0] for words in moves if words[0] != 'stone' and words[1] == 'wins']

    def winning(self):
        """What wins: points, `spend` and `half`."""
        return [stone.point for stone in self.stones if stone.wins] + self.others

    def shortage(self, stone):
        """How many half-points of komi a stone is short of winning; with that much more for its player it would win."""
        return self.komi - stone.threshold if self.side == 'black' else stone.threshold - self.komi + 1

    def best_wrong(self):
        """The least shortage of the stones that lose, or None where there is none."""
        return min((self.shortage(stone) for stone in self.stones if not stone.wins), default=None)

    def best_stone(self):
        """The stone that wins by most, or None where no stone wins."""
        return min((stone for stone in self.stones if stone.wins), key=self.shortage, default=None)

    def ranked(self):
        """The stones, those that fail least first."""
        return sorted(self.stones, key=self.shortage)


BEFORE = ('--after', '0')  # the position of a problem, where its solution stands behind it


def is_problem(text):
    """Whether the bytes of a file are a problem with its solution behind it."""
    return b'C[right' in text


def moves_of(text, options=()):
    """The first moves of the position of a file's bytes."""
    return Moves(answered('moves', text, options))


def text_after(root, side, point):
    """The file after a stone at the point; `root` is a file of one node."""
    return ('%s;%s[%s])' % (root.rstrip()[:-1], side[0].upper(), point)).encode()


def moves_after(root, side, point):
    """The opponent's moves after a stone at the point."""
    return moves_of(text_after(root, side, point))


def line_after(root, side, point):
    """How play goes on after a stone at the point while some part is hot: stones, each a colour and a point."""
    line = next(line for line in answered('line', text_after(root, side, point)) if line.startswith('line '))
    return [tuple(stone.split(':')) for stone in line.split()[2:]]


def parts_of(text, options=()):
    """The parts that are open to play, from the lines of `values`."""
    parts = []
    for line in answered('values', text, options):
        label, _, rest = line.partition(' ')
        if label == 'region':
            name, _, number, *_ = rest.split()
            parts.append(Part(name, int(number), None, None))
        elif label == 'value':
            parts[-1] = parts[-1]._replace(value=rest)
        elif label == 'temperature' and rest != 'none':
            parts[-1] = parts[-1]._replace(temperature=fractions.Fraction(rest))
    return parts


def part_at(board, text, parts):
    """The part in which each open point stands: a dictionary from the point's name."""
    drawn, _ = signs(board, answered('safe', text))
    found = {}
    for part in parts:
        for point in board.part(board.point(part.point), lambda point: drawn[point] in '.xo'):
            found[board.name(point)] = part
    return found


def heat(part):
    """The temperature, for comparisons: nothing is colder than a number."""
    return -1 if part.temperature is None else part.temperature


def task(side, komi):
    """What a problem asks, as its comment says it; the komi in half-points."""
    said = '%s to play and win.' % side.capitalize()
    if komi == 0:
        return said
    receiver = 'White' if komi > 0 else 'Black'
    amount = {1: 'half a point', 2: 'one point'}.get(abs(komi), komi_text(abs(komi)) + ' points')
    return '%s %s gets %s of komi.' % (said, receiver, amount)

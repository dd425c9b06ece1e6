"""The program's lines as data for the page. Nothing is decided here: chains and regions are walked over as the lines name them."""

import importlib.machinery
import importlib.util
import pathlib
import sys
from fractions import Fraction

TOP = pathlib.Path(__file__).resolve().parent.parent
sys.path[:0] = [str(TOP / 'docs/positions'), str(TOP / 'docs')]

from record import SYMBOL, komi_text, picture, signs
from script import Fault

SIGNS = {
    'X': 'black stone, alive', 'O': 'white stone, alive', 'x': 'black stone, open', 'o': 'white stone, open', '.': 'empty, open',
    'b': "empty, Black's point", 'w': "empty, White's point", 'B': "captive white stone, Black's point", 'W': "captive black stone, White's point",
}


def script(path):
    """A script of the repository as a module."""
    loader = importlib.machinery.SourceFileLoader('script_' + pathlib.Path(path).name, str(TOP / path))
    module = importlib.util.module_from_spec(importlib.util.spec_from_loader(loader.name, loader))
    loader.exec_module(module)
    return module


drawing = script('docs/thermographs/draw')


def pairs_of(lines):
    return [line.partition(' ')[::2] for line in lines]


def board_of(setup):
    """A setup for the page."""
    board = setup.board
    rows = [''.join(SYMBOL.get(board.stones.get((x, y)), '.') for x in range(board.columns)) for y in range(board.rows)]
    return {'columns': board.columns, 'rows': rows, 'side': setup.side, 'komi': setup.komi, 'prisoners': setup.prisoners}


def safety_of(board, lines):
    """The answer of `safe`: a sign for each point, the regions with their points, and what is counted."""
    drawn, regions = signs(board, lines)
    open_points = {
        board.name(point): sorted(map(board.name, board.part(point, lambda other: drawn[other] in '.xo'))) for point, _ in regions
    }
    words = [line.split() for line in lines]
    return {
        'signs': {board.name(point): sign for point, sign in drawn.items()},
        'regions': [{'point': board.name(point), 'points': open_points[board.name(point)]} for point, _ in regions],
        'counted': [
            {'point': row[1], 'colour': row[2], 'points': int(row[4]), 'held': int(row[6])} for row in words if row[0] == 'counted'],
        'groups': {row[1]: int(row[2]) for row in words if row[0] == 'groups'},
        'drawing': list(picture(board, drawn)),
    }


def values_of(lines):
    """The answer of `values`, by region: one value of each, or, with cycles, a low and a high one."""
    return [
        {'point': region['region'].split()[0], 'positions': int(region['region'].split()[-1]), 'values': region['values']}
        for region in drawing.regions(lines)
    ]


def thermograph(lines, point):
    """The picture of a region's thermograph as SVG."""
    for region in drawing.regions(lines):
        if region['region'].split()[0] == point:
            return drawing.picture(region)
    raise Fault('there is no region %s' % point)


def margin_of(lines):
    """The answer of `margin`: for each who moves first up to which komi Black wins, and above which White does."""
    told = {}
    for word, *words in map(str.split, lines):
        if words[0] == 'first':
            told[word + ' first'], told[word + ' first, white'] = words[1], words[-1]
        else:
            told[word] = words[0]
    return told


def halves(threshold):
    """A threshold in half-points; it may be past the range of a file's komi."""
    return int(2 * Fraction(threshold))


RANK = {'wins': 2, 'none': 1, 'loses': 0}


def moves_of(lines):
    """The answer of `moves`. Black wins up to `komi`, and White above `white`, which is the same where no kos can arise. The best stones are those
    of the best outcome with the best threshold of the mover's; each other stone has what it loses of that, but none where kos let it keep more
    and yet come out worse."""
    told = dict(pairs_of(lines[:3]))
    moves = []
    for word, rest in pairs_of(lines[3:]):
        name, outcome, *komi = rest.split() if word == 'stone' else [word, rest]
        moves.append({'move': name, 'outcome': outcome, 'wins': outcome == 'wins', 'komi': komi[0] if komi else None, 'white': komi[-1] if komi else None})
    stones = [move for move in moves if move['komi'] is not None]
    sign, own = (1, 'komi') if told['side'] == 'black' else (-1, 'white')
    merits = {move['move']: (RANK[move['outcome']], sign * halves(move[own])) for move in stones}
    best = max(merits.values(), default=None)
    for move in stones:
        loss = best[1] - merits[move['move']][1]
        move['best'], move['loss'] = merits[move['move']] == best, komi_text(loss) if loss >= 0 else None
    return {'side': told['side'], 'komi': told['komi'], 'winner': told['winner'], 'moves': moves}


def stones_of(words):
    """Stones as the program lists them, each a colour and a point."""
    return [dict(zip(('colour', 'point'), word.split(':', 1))) for word in words]


def line_of(lines):
    """The answer of `line`: the threshold, and the stones in turn."""
    told = dict(pairs_of(lines))
    return {'threshold': told['threshold'], 'moves': stones_of(told['line'].split()[1:])}


def summary(board, moves, margin):
    """The answer in sentences."""
    winner, side = moves['winner'], moves['side']
    winning = [move['move'] for move in moves['moves'] if move['wins']]
    told = ['%s to move; %s.' % (side.capitalize(), 'nobody wins' if winner == 'none' else winner.capitalize() + ' wins')]
    if winning:
        told.append('Winning: %s.' % ', '.join(winning))
    told.append('%s moving first, and %s where White moves first; the komi is %s.' % (
        bounds(margin, 'black first'), bounds(margin, 'white first', 'up to '), board['komi']))
    return ' '.join(told)


def bounds(margin, first, begin='Black wins up to komi '):
    """Up to which komi Black wins, and above which White does where that differs."""
    black, white = margin[first], margin[first + ', white']
    return begin + black + ('' if black == white else ', White above %s,' % white)

"""What a fault line of the program means, and what to do next, in words for the page."""

import re

from answers import stones_of

ADVICE = [
    ('fault cycle', 'Moves in this region can come back to an earlier position, as in a ko.',
     'Admit cycles: then the answer may be that nobody wins. Or step through the moves, and fill a pair of neutral points, one for each player, or a '
     'point away from the wall.'),
    ('fault captures', 'This region changes with more than 32 captures that can return.', 'Decide a ko of it, and let the winner fill or connect.'),
    (r'fault region \S+ positions', 'Too many positions can arise in this region.',
     'Mark what is agreed as territory, or fill what is sure so that the walls live; or allow more positions.'),
    ('fault region', 'This region has more than 32 points. Mostly a wall near it is not alive, and all that it walls off, and the wall, '
     'is one region.', 'Mark what is agreed as territory; or find the chain that should be a wall and is drawn open, and give it two eyes of one point, or '
     'connect it.'),
    ('fault form', 'A value of this region is past a limit.', 'Allow more parts, or make the region smaller by a stone that closes part of it.'),
    ('fault file marked twice', 'A point is marked as the territory of both players.', 'Take one of the two marks off.'),
    ('fault file no liberty', 'A chain stands without a liberty.', 'Take a stone off.'),
    ('fault file bad komi', 'The komi of the file is neither whole nor half.', 'Give a komi here, and that of the file is not read.'),
    ('fault file bad side', 'The file names a side that is neither black nor white.', 'Give the side to move here.'),
    ('fault file suicide', 'A move leaves its own chain without a liberty.', 'Step back before it.'),
    ('fault file occupied', 'A move is on a stone.', 'Step back before it.'),
    ('fault file', 'The file is not read.', 'The table of refusals in docs/POSITIONS.md tells how to mend it.'),
    ('fault too long', 'The file has more than 1,048,576 bytes.', 'Cut it down to its game.'),
    ('stopped after', 'The work took longer than the limit.', 'Make the open parts smaller, or begin gdsolve-board with more --seconds.'),
    ('stopped', 'The work was stopped.', 'Ask again.'),
    ('memory', 'The work wanted more memory than the limit.', 'Make the open parts smaller, or begin gdsolve-board with more --megabytes.'),
]
# What the page can do after a refusal, by the first lines that fit.
REMEDIES = [
    ('fault cycle', ('cycles', 'fill_pairs', 'close')), (r'fault region \S+ positions', ('territory', 'close', 'positions')),
    ('fault region', ('territory', 'close')),
    ('fault form', ('parts',)), ('stopped', ('again',)), ('', ()),
]
UNKNOWN = 'The program has no answer.', 'docs/FORMATS.md has the faults and statuses.'


def explained(command, line):
    """A refusal: its line, the command that gave it, what it means, what to do next, where, and the moves of a cycle."""
    means, advice = next(((means, advice) for start, means, advice in ADVICE if re.match(start, line)), UNKNOWN)
    remedies = next(names for start, names in REMEDIES if re.match(start, line))
    words = line.split()
    at, moves, returns = None, [], None
    if line.startswith('fault cycle'):
        at, returns = words[2], int(words[3])
        moves = stones_of(words[4:])
    elif line.startswith(('fault region', 'fault form', 'fault captures')):
        at = words[2]
    elif line.startswith(('fault file no liberty', 'fault file marked twice')):
        at = words[-1]
    return {
        'command': command, 'line': line, 'means': means, 'advice': advice, 'remedies': remedies, 'at': at, 'moves': moves, 'returns': returns}


def stops_all(line):
    """Whether the other commands have no answer either, so that they needn't be asked."""
    return not line.startswith('fault form')

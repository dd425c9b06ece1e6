"""What the server's tests share: the program, positions, and waiting."""

import os
import pathlib
import sys
import time

sys.dont_write_bytecode = True
HERE = pathlib.Path(__file__).resolve().parent
TOP = HERE.parents[1]
sys.path[:0] = [str(TOP / 'page'), str(TOP / 'docs/positions'), str(TOP / 'docs')]

from record import setup_of

PAIR = b'(;GM[1]SZ[10:2]AB[ba][da][ab:eb]AW[ga][ia][fb:jb])'  # two neutral points: a cycle
NEUTRAL = b'(;GM[1]SZ[10:2]AB[ba][da][ab:eb]AW[fa][ga][ia][fb:jb])'  # one neutral point
SETTLED = b'(;GM[1]SZ[10:2]AB[ba][da:ea][ab:eb]AW[fa:ga][ia][fb:jb])'  # nothing is open
CORRIDOR = b'(;GM[1]SZ[10:3]AB[ba][da:fa][ab:db][ac:fc]AW[ga][ia][gb:jb][gc:jc];B[eb];W[];B[fb])'
WALLS = b'(;GM[1]SZ[7:3]AB[ca:cc]AW[ea:ec])'  # two walls without eyes, and three points between them
PATIENCE = 20  # seconds


def board_rows(text):
    """The rows of the board of a file's bytes."""
    board = setup_of(text).board
    return [''.join({'black': 'X', 'white': 'O'}.get(board.stones.get((x, y)), '.') for x in range(board.columns)) for y in range(board.rows)]


def wait_for(holds, patience=PATIENCE):
    """What `holds` gives, as soon as it gives something."""
    end = time.monotonic() + patience
    while time.monotonic() < end:
        found = holds()
        if found:
            return found
        time.sleep(0.02)
    raise AssertionError('it did not come within %d seconds' % patience)


def script(folder, name, text):
    """A program for a test, as an executable file."""
    path = pathlib.Path(folder, name)
    path.write_text('#!%s\n%s' % (sys.executable, text))
    os.chmod(path, 0o755)
    return str(path)

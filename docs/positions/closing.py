"""Closing a late position: the end of its game is judged, what is sure is filled but for eyes of one point, and the rest stays open."""

import shutil
import subprocess

from record import COLOURS, MARKS, OTHER, Board, after_words, has_marks, komi_halves, komi_text, main_line, moves_of, pairs, setup_of, sgf, signs
from script import Fault, ask

# Judging the end of a game


class GnuGo:
    """GNU Go on a board, asked by the Go Text Protocol."""

    def __init__(self, board, level, seed=1):
        program = shutil.which('gnugo') or shutil.which('gnugo', path='/usr/games')
        if not program:
            raise Fault('there is no gnugo: install it (on Debian: apt-get install gnugo), or use --marks')
        if board.columns != board.rows or board.columns > 19:
            raise Fault('GNU Go plays on square boards of at most 19 columns: use --marks')
        words = [program, '--mode', 'gtp', '--level', str(level), '--seed', str(seed), '--never-resign']
        self.process = subprocess.Popen(words, stdin=subprocess.PIPE, stdout=subprocess.PIPE, stderr=subprocess.DEVNULL, text=True)
        self.ask('boardsize %d' % board.columns)
        self.ask('clear_board')
        for point, colour in board.stones.items():
            self.ask('play %s %s' % (colour, board.gtp_name(point)))

    def ask(self, command):
        try:
            self.process.stdin.write(command + '\n')
            self.process.stdin.flush()
        except BrokenPipeError:
            raise Fault('gnugo ended before the command %r' % command) from None
        lines = []
        while not lines or lines[-1].strip():
            line = self.process.stdout.readline()
            if not line:
                raise Fault('gnugo ended at the command %r' % command)
            lines.append(line)
        answer = ' '.join(lines).split()
        if not answer[0].startswith('='):
            raise Fault('gnugo answered %r to the command %r' % (' '.join(answer), command))
        return [word for word in answer if word != '=']

    def end(self):
        self.ask('quit')
        self.process.wait()


def judged_by_gnugo(board, side, level):
    """Plays on until both sides pass, on the board itself. Gives the owners of stones and territory, and the points played."""
    engine = GnuGo(board, level)
    played, passes = [], 0
    while passes < 2 and len(played) < 2 * len(board.points()):
        word = engine.ask('genmove ' + side)[0]
        passes = passes + 1 if word.lower() == 'pass' else 0
        if not passes:
            played.append(board.gtp_point(word))
            board.place(played[-1], side)
        side = OTHER[side]
    owners = dict(board.stones)
    for point in map(board.gtp_point, engine.ask('final_status_list dead')):
        owners[point] = OTHER[board.stones[point]]
    for colour in COLOURS:
        for point in map(board.gtp_point, engine.ask('final_status_list %s_territory' % colour)):
            owners[point] = colour
    engine.end()
    return owners, played


def judged_by_marks(nodes, board):
    """The owners of stones and territory by the last node of the main line that has TB or TW, with the board at its end."""
    owners = dict(board.stones)
    marked = [node for node in nodes if has_marks([node])]
    if not marked:
        raise Fault('no node of the main line has TB or TW')
    for key, values in marked[-1]:
        if key in MARKS:
            owners.update((point, MARKS[key]) for value in values for point in board.rectangle(value))
    return owners


# Closing


class Closed:
    """A position with its territory filled: the board, the open points, and for each colour what was done."""

    def __init__(self, board, end, owners, played, depth):
        self.given, self.owners = board, owners
        self.open = open_points(board, end, owners, played, depth)
        self.loose = [point for point in board.points() if point not in self.open and board.stones.get(point) != owners[point]]
        many, solid = (eyes_among(board, self.loose, owners, self.open, steps) for steps in (APART, SOLID))
        self.eyes = min((many, solid), key=self.badness)
        self.improve()
        self.board = self.filled_board(self.eyes)
        for chain in self.board.chains():
            if not self.board.has_liberty(chain):
                raise Fault('filled, the chain at %s has no liberty: close this position by hand' % board.name(min(chain)))

    def filled_board(self, eyes):
        board = Board(self.given.columns, self.given.rows)
        for point in board.points():
            if point in self.open:
                if point in self.given.stones:
                    board.stones[point] = self.given.stones[point]
            elif point not in eyes:
                board.stones[point] = self.owners[point]
        return board

    def badness(self, eyes):
        """How bad these eyes are: whether they leave a chain without a liberty, then how many contested points they leave."""
        lines = ask('safe', sgf(self.filled_board(eyes), 'black').encode())
        if lines[0].startswith('fault'):
            return True, 0
        return False, sum(int(line.split()[3]) for line in lines if line.startswith('region'))

    def improve(self):
        """Fills eyes and leaves further ones, one by one, as long as that leaves fewer contested points."""
        single = {point for point in self.loose if is_inside(point, self.given.near(point), self.owners, self.open)}
        least, is_better = self.badness(self.eyes), True
        while is_better and least > (False, len(self.open)):
            is_better = False
            for point in sorted(single):
                changed = self.eyes ^ {point}
                if point in self.eyes or not changed.intersection(self.given.near(point)):
                    badness = self.badness(changed)
                    if badness < least:
                        self.eyes, least, is_better = changed, badness, True

    def filled(self, colour):
        return [point for point in self.loose if self.owners[point] == colour and point not in self.eyes]

    def taken(self, colour):
        """The dead stones that the colour takes off."""
        return [point for point in self.loose if self.owners[point] == colour and point in self.given.stones]

    def eyes_of(self, colour):
        return [point for point in self.loose if self.owners[point] == colour and point in self.eyes]

    def paid(self, colour):
        return len(self.filled(colour)) + len(self.taken(colour))


class Marked:
    """A position with its territory marked: the board as it is, the open points, and for each colour the points marked for it, dead
    stones included. Nobody is paid, since the program pays for what it seals."""

    def __init__(self, board, end, owners, played, depth):
        self.board = board
        self.open = open_points(board, end, owners, played, depth)
        sure = [point for point in board.points() if point not in self.open and board.stones.get(point) != owners[point]]
        self.marks = {colour: [point for point in sure if owners[point] == colour] for colour in COLOURS}

    def taken(self, colour):
        """The dead stones among the colour's marked points."""
        return [point for point in self.marks[colour] if point in self.board.stones]

    def paid(self, colour):
        return 0


def open_points(board, end, owners, played, depth):
    """The points at which something still happened after the position, and the territory within `depth` steps of them."""
    found = set(played)
    for point in board.points():
        stone = board.stones.get(point)
        if point not in owners or (stone and stone != end.stones.get(point)):
            found.add(point)
    for _ in range(depth):
        found |= {
            other
            for point in found
            for other in board.near(point)
            if board.stones.get(other) != owners.get(other)
        }
    return found


def is_inside(point, around, owners, is_open):
    """Whether all points around a point are settled and of its owner."""
    return all(other not in is_open and owners[other] == owners[point] for other in around)


APART = ((0, -1), (-1, 0), (1, 0), (0, 1))  # no two eyes side by side
SOLID = APART + ((-1, -1), (1, -1), (-1, 1), (1, 1))  # nor corner to corner, so that the stones around an eye hold together


def eyes_among(board, loose, owners, is_open, steps):
    """Of the points to be filled, some that can stay empty as eyes of one point, with no two of them a step of `steps` apart.
    Points with the fewest neighbours that could be eyes come first, which leaves many eyes."""
    around = {
        (x, y): [(x + a, y + b) for a, b in steps if 0 <= x + a < board.columns and 0 <= y + b < board.rows]
        for x, y in loose
    }
    left = {point for point in loose if is_inside(point, around[point], owners, is_open)}
    eyes = set()
    while left:
        eye = min(left, key=lambda point: (sum(other in left for other in around[point]), point[1], point[0]))
        eyes.add(eye)
        left -= {eye, *around[eye]}
    return eyes


# The position and its file


class Game:
    """A game up to a position: its setup, how many moves were played and which points come later, and the owners at its end."""

    def __init__(self, text, after, komi, judgement):
        self.setup = setup_of(text, [*after_words(after), *komi_words(komi)])
        self.owners, self.further, self.end = judgement
        moves = moves_of(main_line(text), self.end)
        self.played = len(moves) if after is None else min(after, len(moves))
        self.later = [point for _, point in moves[self.played:] if point is not None]

    def closed(self, depth):
        return Closed(self.setup.board, self.end, self.owners, self.later + self.further, depth)

    def marked(self, depth):
        return Marked(self.setup.board, self.end, self.owners, self.later + self.further, depth)


def komi_words(komi):
    return [] if komi is None else ['--komi', komi]


def judge(text, by_marks, level):
    """The owners at the end of the main line, the points that GNU Go played after it, and the board then."""
    end = setup_of(text, komi_words('0'))
    if by_marks:
        return judged_by_marks(main_line(text), end.board), [], end.board
    owners, played = judged_by_gnugo(end.board, end.side, level)
    return owners, played, end.board


def komi(setup, closed):
    """The komi of the closed position: that of the game, and White's prisoners less Black's, those of the filling too."""
    white, black = (setup.prisoners[colour] + closed.paid(colour) for colour in ('white', 'black'))
    return komi_text(komi_halves(setup.komi) + 2 * (white - black))


def fill_pairs(board, written, options=()):
    """Fills pairs of neutral points, one for each player, as long as the program finds a cycle with one. `written` gives the file of the
    board. Gives the pairs that were filled."""
    filled = []
    while True:
        line = ask('solve', written(board), options)[0].split()
        if line[:2] != ['fault', 'cycle']:
            return filled
        on_cycle = {board.point(word.partition(':')[2]) for word in line[4:]}
        drawn, _ = signs(board, ask('safe', written(board), options))
        empty = [pair for pair in pairs(board, drawn) if not board.stones.keys() & set(pair)]
        here = [pair for pair in empty if on_cycle.issuperset(pair)]
        if not here:
            return filled
        for point, colour in zip(here[0], COLOURS):
            board.stones[point] = colour
        filled.append(here[0])

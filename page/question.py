"""What is asked about a position, and what the program has said of it so far."""

import shutil

import answers
import refusals
from answers import Fault
from position import UNSEALED
from record import MOVES, Setup, has_marks, main_line, pairs

COMMANDS = ('board', 'safe', 'margin', 'moves', 'values', 'line')
MOST_STEPS = 200  # moves of a cycle or a line that are drawn
GNUGO_LARGEST = 19


class Question:
    """A position, and what the program has said of it so far."""

    def __init__(self, position):
        self.position = position
        self.has_unsealed = position.marks is not None and position.territory
        self.setup = None if self.has_unsealed else position.setup
        self.unsealed = position.setup if self.has_unsealed else None  # as it stands without its marks
        self.data, self.lines, self.refused, self.steps = {}, {}, [], []
        self.is_stopped = False
        try:
            nodes = main_line(position.text)
        except Fault:
            nodes = []
        self.moves = sum(key in MOVES and bool(values) for node in nodes for key, values in node)
        self.has_marks = has_marks(nodes)

    def edited_setup(self):
        """What a click changes: the board without the marks that the page wrote, where it did, or else the board."""
        return self.unsealed if self.has_unsealed else self.setup

    def take(self, command, outcome):
        """Keeps an answer, or why there is none."""
        fault = outcome.fault()
        if not fault:
            try:
                self.lines[command] = outcome.lines
                self.data[command] = self.read(command, outcome.lines)
                return
            except (Fault, LookupError, ValueError) as error:
                fault = 'the page can not read this answer: %s' % error
        self.refuse(command, fault)

    def read(self, command, lines):
        if command == UNSEALED:
            self.unsealed = Setup(lines)
            return answers.board_of(self.unsealed)
        if command == 'board':
            self.setup = Setup(lines)
            return answers.board_of(self.setup)
        if command == 'safe':
            return answers.safety_of(self.setup.board, lines)
        return {'margin': answers.margin_of, 'moves': answers.moves_of, 'values': answers.values_of, 'line': answers.line_of}[command](lines)

    def refuse(self, command, line):
        self.data[command] = None
        refusal = refusals.explained(command, line)
        if not any(old['line'] == line for old in self.refused):
            self.refused.append(refusal)

    def commands(self):
        """What is asked: a line of play is told only where no region has a cycle."""
        return COMMANDS[:-1] if self.position.cycles else COMMANDS

    def next_command(self):
        if self.is_stopped or any(refusals.stops_all(refusal['line']) for refusal in self.refused):
            return None
        if self.position.territory and self.unsealed is None and UNSEALED not in self.data:
            return UNSEALED
        return next((command for command in self.commands() if command not in self.data), None)

    def cycle(self):
        return next((refusal for refusal in self.refused if refusal['moves']), None)

    def stepped(self):
        """The moves that can be stepped through: those of the cycle that is refused, or of the line."""
        return (self.cycle() or self.data.get('line') or {'moves': []})['moves'][:MOST_STEPS]

    def owes_step(self):
        """Whether a board of those moves is still to be drawn."""
        moves = self.stepped()
        return bool(moves and self.setup) and not self.is_stopped and len(self.steps) <= len(moves) and None not in self.steps

    def pair(self):
        """A pair of neutral points on the cycle that a script can fill."""
        cycle, safe = self.cycle(), self.data.get('safe')
        if not cycle or not safe:
            return None
        board = self.setup.board
        drawn = {board.point(name): sign for name, sign in safe['signs'].items()}
        on_cycle = {move['point'] for move in cycle['moves']}
        found = [[board.name(point) for point in pair] for pair in pairs(board, drawn) if not board.stones.keys() & set(pair)]
        return next((pair for pair in found if on_cycle.issuperset(pair)), None)

    def is_read(self):
        """Whether it is known what stands on the board, or that the program doesn't say it."""
        return self.edited_setup() is not None or self.is_stopped or 'board' in self.data

    def shown_board(self):
        """The board as `board` says it, or the one that the page wrote where the program refuses that, or nothing."""
        if self.data.get('board'):
            return self.data['board']
        setup = self.edited_setup()
        return setup and {**answers.board_of(setup), 'unread': 'board' in self.data}

    def marks(self):
        """The marks that the page wrote, by the names of their points."""
        setup = self.edited_setup()
        marks = self.position.marks if self.position.marks and setup else ()
        return {setup.board.name(point): colour for point, colour in marks}

    def sealing(self):
        """What the marks change on the board: dead stones that are taken off, and stones that seal an edge, by the names of their points."""
        if self.setup is None or self.unsealed is None or not self.position.territory:
            return {'dead': {}, 'seals': {}}
        board, before = self.setup.board, self.unsealed.board.stones
        return {
            'dead': {board.name(point): colour for point, colour in before.items() if point not in board.stones},
            'seals': {board.name(point): colour for point, colour in board.stones.items() if point not in before}}

    def line(self):
        """How many moves of the file are played, and how many there are."""
        return {'played': self.moves if self.position.after is None else min(self.position.after, self.moves), 'total': self.moves}

    def closing(self):
        """By what `docs/positions/close` can judge the position, or nothing."""
        if self.has_marks:
            return "the file's own marks"
        has_gnugo = shutil.which('gnugo') or shutil.which('gnugo', path='/usr/games')
        is_square = self.setup and self.setup.board.columns == self.setup.board.rows <= GNUGO_LARGEST
        return 'GNU Go' if has_gnugo and is_square else None

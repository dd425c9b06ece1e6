"""A game at the desk: the program's process, and the boards that it comes to."""

import pathlib
import re
from dataclasses import replace

from answers import Fault
from engine import Game
from position import with_moves
from record import COLOURS, OTHER

MOST_LINES = 2_000
MOST_SHOWN = 200  # lines and moves on the page
GAME_SECONDS = 600  # of the processor, for a whole game
REFUSED = {
    'refused not contested': 'that point is settled, or not on the board',
    'refused occupied': 'a stone stands there',
    'refused suicide': 'the stone would have no liberty',
    'refused empty purse': 'your purse is empty',
    'refused no half': 'there is no half-point left',
    'refused line': 'that is no move',
}


class Table:
    def __init__(self, desk, position, engine):
        if engine not in COLOURS:
            raise Fault('the program plays black or white')
        self.desk, self.position, self.engine = desk, position, engine
        self.side = position.setup.side
        self.file = pathlib.Path(desk.folder.name, 'game.sgf')
        self.file.write_bytes(position.text)
        self.begin([])

    def begin(self, typed):
        words = [self.desk.program, 'play', self.file, *self.position.options('play'), '--as', self.engine]
        limits = replace(self.desk.limits, seconds=max(self.desk.limits.seconds, GAME_SECONDS))
        self.board, self.drawn_moves = None, None
        self.game = Game(words, limits, self.engine == self.side, typed, self.told)

    def told(self, game):
        """A line of the game has come; lines of a game that was begun anew count no more."""
        with self.desk.lock:
            if self.desk.table is self and self.game is game:
                self.desk.changed()

    def end(self):
        self.game.end()

    def is_thinking(self):
        return self.game.is_thinking()

    def play(self, move):
        if not isinstance(move, str) or not re.fullmatch('[a-y][a-y]|spend|half', move):
            raise Fault('that is no move')
        if self.game.is_over or self.game.winner():
            raise Fault('the game is over')
        if self.game.is_thinking():
            raise Fault('the program is thinking')
        if len(self.game.typed) >= MOST_LINES:
            raise Fault('the game is too long')
        self.game.play(move)

    def take_back(self):
        """Begins the game anew up to the user's last move; the program plays the same moves again."""
        played = self.game.played()
        if not played:
            raise Fault('there is no move of yours to take back')
        self.game.end()
        self.begin(played[:-1])

    def made(self):
        """The moves that were made, each with its colour."""
        sides = [self.side, OTHER[self.side]]
        return [(sides[number % 2], move) for number, (_, move) in enumerate(self.game.moves())]

    def moves(self):
        """The moves as SGF has them: giving back a point and the half are passes."""
        return [(colour, '' if move in ('spend', 'half') else move) for colour, move in self.made()]

    def text(self, moves):
        return with_moves(self.position, moves)

    def owes_board(self):
        return self.drawn_moves != len(self.game.moves())

    def drawn(self, count, board):
        self.drawn_moves, self.board = count, board or self.board

    def view(self):
        game, made = self.game, self.made()
        spent = {colour: made.count((colour, 'spend')) for colour in COLOURS}
        placed = [move for colour, move in made[:self.drawn_moves or 0] if colour == self.engine and move not in ('spend', 'half')]
        last = game.lines[-1] if game.lines else ''
        return {
            'engine': self.engine, 'user': OTHER[self.engine], 'lines': game.lines[-MOST_SHOWN:], 'board': self.board, 'spent': spent,
            'moves': [{'number': number, 'colour': colour, 'move': move} for number, (colour, move) in enumerate(made, 1)][-MOST_SHOWN:],
            'last': placed[-1] if placed else None,
            'thinking': game.is_thinking(), 'winner': game.winner(), 'over': game.is_over, 'refused': REFUSED.get(last, ''),
            'fault': last if last.startswith('fault') or last == 'input ended' else '',
        }

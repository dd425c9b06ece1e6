"""The desk: the position that is open, what the program says of it, and a game. One process works at a time, and always for the newest
position; what an older one asked is given up."""

import os
import pathlib
import subprocess
import sys
import tempfile
import threading
import time
from dataclasses import replace
from functools import partial

import answers
from answers import TOP, Fault
from engine import Limits, Runner
from position import LONGEST_FILE, UNSEALED, Position, configured, edited, empty, marked, sealed, with_moves, written
from question import COMMANDS, Question
from record import Setup
from table import Table

MOST_UNDONE = 300
READING = 10  # seconds for which a change waits until the program has read the position


class Desk:
    def __init__(self, program, limits=Limits(), files=None, position=None):
        self.program, self.limits, self.files = program, limits, files or {}
        self.lock = threading.RLock()
        self.wake = threading.Condition(self.lock)
        self.runner = Runner(limits, self.lock)
        self.folder = tempfile.TemporaryDirectory(prefix='gdsolve-board-')
        self.change, self.past, self.future, self.note = 0, [], [], ''
        self.question = Question(position or empty(9, 9))
        self.table = self.mending = self.working = None
        self.is_closing = False
        self.worker = threading.Thread(target=self.work, daemon=True)
        self.worker.start()

    def close(self):
        with self.wake:
            self.is_closing = True
            self.leave_table()
            self.runner.give_up()
            self.wake.notify_all()
        self.worker.join(5)
        self.folder.cleanup()

    def changed(self):
        self.change += 1
        self.wake.notify_all()

    # The work

    def work(self):
        while True:
            with self.wake:
                task = self.next_task()
                while task is None and not self.is_closing:
                    self.wake.wait()
                    task = self.next_task()
                if self.is_closing:
                    return
                name, do = task
                self.working = name, time.monotonic()
            try:
                do()
            except (Fault, OSError, LookupError, ValueError) as error:
                self.fail(name, error)
            with self.wake:
                self.working = None
                self.changed()

    def fail(self, name, error):
        """Ends what failed, so that it isn't tried over and over; `again` does."""
        with self.lock:
            self.leave_table()
            self.mending, self.question.is_stopped = None, True
            self.note = 'The work on %s failed: %s' % (name, error)

    def next_task(self):
        question, table = self.question, self.table
        if table and table.owes_board():
            return 'board', partial(self.draw_table, table)
        if self.mending:
            return self.mending[0], partial(self.mend, self.mending)
        if question.owes_step():
            return 'board', partial(self.draw_step, question)
        command = question.next_command()
        return (command, partial(self.ask, question, command)) if command else None

    def ask(self, question, command):
        words = [self.program, 'board' if command == UNSEALED else command, '-', *question.position.options(command)]
        outcome = self.runner.run(words, question.position.text, lambda: self.is_asked(question))
        if outcome:
            with self.lock:
                question.take(command, outcome)

    def is_asked(self, question):
        return self.question is question and not question.is_stopped and not self.is_closing

    def board_after(self, text, count, is_wanted):
        """The program's board after some moves of a text, or nothing where there is none."""
        outcome = self.runner.run([self.program, 'board', '-', '--after', count], text, is_wanted)
        return answers.board_of(Setup(outcome.lines)) if outcome and not outcome.fault() else None

    def draw_step(self, question):
        moves = [(move['colour'], move['point']) for move in question.stepped()]
        text = with_moves(sealed(question.position, question.setup), moves)
        question.steps.append(self.board_after(text, len(question.steps), lambda: self.is_asked(question)))

    def draw_table(self, table):
        moves = table.moves()
        board = self.board_after(table.text(moves), len(moves), lambda: self.table is table)
        table.drawn(len(moves), board)

    # Closing

    def mend(self, mending):
        kind, question = mending
        do = self.filled_pairs if kind == 'fill pairs' else self.closed
        try:
            mended, note = do(question, lambda: self.mending is mending)
        except Fault as fault:
            mended, note = None, str(fault)
        with self.lock:
            if self.mending is not mending:
                return
            self.mending = None
            if mended and self.question is question:
                self.move_to(mended)
            self.note = note

    def run_script(self, words, text, is_wanted):
        outcome = self.runner.run([sys.executable, *words], text, is_wanted, {**os.environ, 'GDSOLVE': self.program}, subprocess.STDOUT)
        if outcome is None:
            raise Fault('stopped')
        if outcome.stopped or outcome.status != 0:
            raise Fault(outcome.stopped or (outcome.lines[-1] if outcome.lines else 'the script ended with status %d' % outcome.status))
        return outcome.lines

    def filled_pairs(self, question, is_wanted):
        alone = sealed(question.position, question.setup)
        lines = self.run_script([TOP / 'page/fill-pairs'], alone.text, is_wanted)
        return replace(alone, text='\n'.join(lines).encode() + b'\n', setup=None), 'The pairs of neutral points on cycles are filled.'

    def closed(self, question, is_wanted):
        position = question.position
        given, output = (pathlib.Path(self.folder.name, name) for name in ('given.sgf', 'closed.sgf'))
        given.write_bytes(position.text)
        words = [TOP / 'docs/positions/close', given, '--output', output]
        words += [] if position.after is None else ['--after', position.after]
        words += [] if position.komi is None else ['--komi=' + position.komi]
        words += ['--marks'] if question.has_marks else []
        told = self.run_script(words, b'', is_wanted)
        return replace(position, text=output.read_bytes(), after=None, komi=None, setup=None), 'Closed. ' + '; '.join(told)

    # What the page asks for: `do` holds the lock

    def do(self, action, *words, **named):
        with self.lock:
            getattr(self, action)(*words, **named)

    def move_to(self, position):
        """Goes to another position, from which `undo` comes back."""
        self.past, self.future = [*self.past[-MOST_UNDONE + 1:], self.question.position], []
        self.turn_to(position)

    def turn_to(self, position):
        self.leave_table()
        self.question, self.mending, self.note = Question(position), None, ''
        self.runner.give_up()
        self.changed()

    def leave_table(self):
        if self.table:
            self.table.end()
            self.table = None

    def open(self, name, text):
        if len(text) > LONGEST_FILE:
            raise Fault('a file has at most %d bytes' % LONGEST_FILE)
        self.move_to(Position(text, name[:200]))

    def choose(self, name):
        if not isinstance(name, str) or name not in self.files:
            raise Fault('there is no such file among those that were opened')
        with open(self.files[name], 'rb') as file:
            self.open(name, file.read(LONGEST_FILE + 1))

    def setup(self):
        """What stands on the board; the program is waited for where it hasn't said so yet."""
        question = self.question
        self.wake.wait_for(lambda: question.is_read() or self.question is not question or self.is_closing, READING)
        if self.question is not question or question.edited_setup() is None:
            raise Fault('the program has not read this position')
        return question.edited_setup()

    def edit(self, point, colour):
        setup = self.setup()
        self.move_to(edited(self.question.position, setup, point, colour))

    def mark(self, point, colour):
        setup = self.setup()
        self.move_to(marked(self.question.position, setup, point, colour))

    def new(self, columns, rows):
        self.move_to(empty(columns, rows))

    def configure(self, options):
        if not isinstance(options, dict):
            raise Fault('options are wanted')
        position = configured(self.question.position, options)
        if position != self.question.position:
            self.move_to(position)

    def undo(self):
        if not self.past:
            raise Fault('there is nothing to undo')
        self.future.append(self.question.position)
        self.turn_to(self.past.pop())

    def redo(self):
        if not self.future:
            raise Fault('there is nothing to do again')
        self.past.append(self.question.position)
        self.turn_to(self.future.pop())

    def stop(self):
        if self.table and self.table.is_thinking():
            self.table.end()
        elif self.mending:
            self.mending, self.note = None, 'Stopped.'
            self.runner.give_up()
        elif self.question.next_command():
            self.question.refuse(self.question.next_command(), 'stopped')
            self.question.is_stopped = True
            self.runner.give_up()
        self.changed()

    def again(self):
        self.turn_to(self.question.position)

    def close_position(self):
        self.begin_mending('close')

    def fill_pairs(self):
        self.setup()
        self.begin_mending('fill pairs')

    def begin_mending(self, kind):
        self.leave_table()
        self.mending = kind, self.question
        self.runner.give_up()
        self.changed()

    def begin_game(self, engine):
        if self.question.refused or not self.question.data.get('moves'):
            raise Fault('a game begins from a position that is answered')
        self.leave_table()
        self.note = ''
        self.table = Table(self, sealed(self.question.position, self.question.setup), engine)
        self.changed()

    def play(self, move):
        self.at_table().play(move)
        self.changed()

    def take_back(self):
        self.at_table().take_back()
        self.changed()

    def end_game(self):
        self.leave_table()
        self.changed()

    def at_table(self):
        if not self.table:
            raise Fault('there is no game')
        return self.table

    # What the page shows

    def view(self):
        with self.lock:
            question, position, data = self.question, self.question.position, self.question.data
            view = {
                'change': self.change, 'name': position.name, 'files': sorted(self.files), 'undo': len(self.past), 'redo': len(self.future), 'note': self.note,
                'options': {name: getattr(position, name) for name in (
                    'after', 'komi', 'turn', 'black_prisoners', 'white_prisoners', 'tax', 'territory', 'cycles', 'positions', 'parts')},
                'record': question.line(), 'marks': question.marks(), 'marked': question.has_marks, **question.sealing(),
                'reading': not question.is_read(), 'board': question.shown_board(), 'signs': answers.SIGNS,
                **{command: data.get(command) for command in COMMANDS[1:]},
                'refusals': question.refused, 'steps': question.steps, 'pair': question.pair(), 'closing': question.closing(),
                'working': self.at_work(), 'game': self.table and self.table.view(),
            }
            if view['moves'] and view['margin']:
                view['summary'] = answers.summary(view['board'], view['moves'], view['margin'])
            return view

    def settle(self, seconds):
        """Waits until all work for the present position is done, but no longer than so many seconds."""
        with self.wake:
            question = self.question
            self.wake.wait_for(lambda: self.question is not question or self.is_settled() or self.is_closing, seconds)

    def is_settled(self):
        return not self.working and self.next_task() is None

    def at_work(self):
        if not self.working:
            return None
        return {'what': self.working[0], 'seconds': int(time.monotonic() - self.working[1])}

    def thermograph(self, point):
        with self.lock:
            lines = self.question.lines.get('values')
        if not lines:
            raise Fault('there are no values')
        return answers.thermograph(lines, point)

    def sgf(self):
        with self.lock:
            if self.table:
                return self.table.text(self.table.moves()).decode()
            return written(self.question.position, self.setup())

"""The program as a process: an answer at a time, under limits of time and memory, and a game line by line."""

import os
import pathlib
import signal
import subprocess
import sys
import threading
from dataclasses import dataclass

LAUNCHER = str(pathlib.Path(__file__).resolve().parent / 'limited.py')
LONGEST_ANSWER = 1 << 23  # bytes
MEMORY_REFUSED = 8  # the program's status where memory was wanted
LONGEST_GAME = 4_000  # lines


@dataclass(frozen=True)
class Limits:
    seconds: int = 60  # of the processor, for an answer
    megabytes: int = 2048
    patience: int = 240  # seconds of the clock


@dataclass(frozen=True)
class Outcome:
    """What a process wrote, and how it ended: `stopped` names why it was cut off, where it was."""

    lines: tuple
    status: int
    stopped: str = ''

    def fault(self):
        """The line for which there is no answer, or nothing."""
        if self.stopped:
            return self.stopped
        if self.lines and self.lines[0].startswith('fault'):
            return self.lines[0]
        if self.status == MEMORY_REFUSED:
            return 'memory was refused'
        return '' if self.status == 0 and self.lines else 'the program ended with status %d' % self.status


def limited(words, limits):
    return [sys.executable, '-I', '-S', LAUNCHER, str(limits.seconds), str(limits.megabytes), *map(str, words)]


class Runner:
    """Runs one process at a time. Who changes what is wanted holds the lock, and gives up the process that runs."""

    def __init__(self, limits, lock):
        self.limits, self.lock = limits, lock
        self.process = None

    def run(self, words, text, is_wanted, environment=None, errors=subprocess.DEVNULL):
        """The outcome of a program on its words and standard input, or None where it isn't wanted, or no longer."""
        with self.lock:
            if not is_wanted():
                return None
            process = self.process = subprocess.Popen(
                limited(words, self.limits), stdin=subprocess.PIPE, stdout=subprocess.PIPE, stderr=errors,
                env=environment, start_new_session=True)
        stopped = ''
        try:
            written, _ = process.communicate(text, timeout=self.limits.patience)
        except subprocess.TimeoutExpired:
            kill(process)
            written, _ = process.communicate()
            stopped = 'stopped after %d seconds' % self.limits.patience
        with self.lock:
            self.process = None
            if not is_wanted():
                return None
        if process.returncode in (-signal.SIGXCPU, -signal.SIGKILL):
            stopped = stopped or 'stopped after %d seconds of the processor' % self.limits.seconds
        if len(written) > LONGEST_ANSWER:
            stopped, written = 'the answer has more than %d bytes' % LONGEST_ANSWER, b''
        return Outcome(tuple(written.decode(errors='replace').splitlines()), process.returncode, stopped)

    def give_up(self):
        """Ends the process that runs; the caller holds the lock."""
        if self.process:
            kill(self.process)


def kill(process):
    """Ends a process and all that it began."""
    try:
        os.killpg(process.pid, signal.SIGKILL)
    except ProcessLookupError:
        pass


class Game:
    """A game of `play`: the lines of both sides, as the program writes them. `begins` is whether the program has the first move, `typed` are
    lines to begin with, and `told` is called after each line."""

    def __init__(self, words, limits, begins, typed, told):
        self.lines, self.is_over, self.begins, self.told = [], False, begins, told
        self.typed = list(typed)
        self.process = subprocess.Popen(
            limited(words, limits), stdin=subprocess.PIPE, stdout=subprocess.PIPE, stderr=subprocess.DEVNULL, start_new_session=True)
        for line in typed:
            self.write(line)
        threading.Thread(target=self.listen, daemon=True).start()

    def listen(self):
        for line in self.process.stdout:
            self.lines.append(line.decode(errors='replace').rstrip('\n')[:200])
            if len(self.lines) >= LONGEST_GAME:
                kill(self.process)
            self.told(self)
        self.process.wait()
        self.is_over = True
        self.told(self)

    def write(self, line):
        try:
            self.process.stdin.write(line.encode() + b'\n')
            self.process.stdin.flush()
        except (BrokenPipeError, ValueError):
            self.is_over = True

    def play(self, line):
        self.typed.append(line)
        self.write(line)

    def moves(self):
        """The moves that were made, each with whether it is the program's."""
        told = [line.split(' ', 1) for line in self.lines if line.startswith(('engine ', 'played '))]
        return [(who == 'engine', move) for who, move in told]

    def is_thinking(self):
        """Whether the program owes a line: it has yet to answer the lines that were typed."""
        answers = sum(line.startswith(('played ', 'refused ')) for line in self.lines)
        return not self.is_over and (answers < len(self.typed) or self.owes_move())

    def owes_move(self):
        made = self.moves()
        return not (made[-1][0] if made else not self.begins)

    def winner(self):
        return next((line.split()[1] for line in self.lines if line.startswith('winner ')), None)

    def played(self):
        """The lines of the user's that were moves."""
        return [move for is_engine, move in self.moves() if not is_engine]

    def end(self):
        kill(self.process)

"""The console sessions of documents: an indented line `$ COMMAND` and the indented lines behind it, which are what the command writes.

In a session of gdsolve two blanks or more begin a remark. Of a game (`play`) the lines of one word are what is typed, and of the engine (`gtp`) the
lines that are no replies; of its replies the empty lines and the blanks at the end of a line aren't printed.
"""

import itertools
import os
import pathlib
import re
import shutil
import subprocess
import tempfile

from script import TOP, program

INDENT = '    '
PROMPT = INDENT + '$ '

# Which lines of a session are what is typed, by the words that its command begins with.
TYPED = {'gdsolve play': lambda text: len(text.split()) == 1, 'gdsolve gtp': lambda text: text[:1] not in ('=', '?')}


def sessions(page):
    """Each session of a page: the number of its line, its command, and its lines with their numbers."""
    lines = list(enumerate(page.read_text(encoding='utf-8').split('\n'), 1))
    for number, line in lines:
        if line.startswith(PROMPT):
            behind = itertools.takewhile(lambda pair: not pair[1].startswith(PROMPT) and (pair[1].startswith(INDENT) or not pair[1]), lines[number:])
            stored = [(at, text.removeprefix(INDENT)) for at, text in behind]
            while stored and not stored[-1][1]:
                stored.pop()
            yield number, line.removeprefix(PROMPT), stored


def is_missing(command, folder):
    """Whether a command needs what isn't here: GNU Go, or a file that an earlier session would have made."""
    has_gnugo = shutil.which('gnugo') or shutil.which('gnugo', path='/usr/games')
    needs_gnugo = re.search(r'docs/positions/(close|ask)\b', command) and '--marks' not in command
    made = re.findall(r'(?<![\w/.-])(\w+\.sgf|told)\b', command.partition('--output')[0].partition('2>')[0])
    return (needs_gnugo and not has_gnugo) or any(not (folder / name).exists() for name in made)


def differences(pages, named=None):
    """How many sessions were run and how many weren't, and a line for each line of them that differs from what is written."""
    run, passed_over, found = 0, 0, []
    solver = program(named)
    for page in pages:
        with tempfile.TemporaryDirectory() as name:
            folder = pathlib.Path(name)
            for link in ('docs', 'examples'):
                (folder / link).symlink_to(TOP / link)
            (folder / 'gdsolve').symlink_to(solver)
            for number, command, stored in sessions(page):
                if is_missing(command, folder):
                    passed_over += 1
                    continue
                run += 1
                if command.startswith('gdsolve'):
                    stored = [(at, re.split(' {2,}', text)[0]) for at, text in stored]
                is_typed = next((told for words, told in TYPED.items() if command.startswith(words)), lambda text: False)
                typed = ''.join(text + '\n' for _, text in stored if is_typed(text))
                stored = [(at, text) for at, text in stored if not is_typed(text)]
                env = {**os.environ, 'GDSOLVE': solver, 'PATH': '%s:%s' % (folder, os.environ.get('PATH', os.defpath))}
                done = subprocess.run(['bash', '-c', command], input=typed, cwd=folder, env=env, stdout=subprocess.PIPE, encoding='utf-8')
                written = done.stdout.split('\n')
                if command.startswith('gdsolve gtp'):
                    written = [line.rstrip() for line in written if line] + ['']
                found += compare('%s' % page.relative_to(TOP), stored + [(number, '')], written)
    return run, passed_over, found


def compare(place, stored, written):
    """A line for each line that differs. `stored` is lines with their numbers; a line that isn't stored has the number of the last."""
    found = []
    for pair, other in itertools.zip_longest(stored, written):
        number, line = pair or (stored[-1][0] if stored else 1, None)
        if line != other:
            found.append('%s:%d: stored %s, written %s' % (place, number, shown(line), shown(other)))
    return found


def shown(line):
    return 'nothing' if line is None else "'%s'" % line

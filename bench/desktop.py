"""A screen of its own (Xvfb) for a program with windows: where the windows are, pointer, keys and pictures."""

import collections
import contextlib
import os
import pathlib
import shutil
import subprocess
import tempfile
import time

from script import Fault

WIDTH, HEIGHT = 1200, 900
PATIENCE = 30  # seconds
TRIALS = 3
PACKAGES = {'Xvfb': 'xvfb', 'xdotool': 'xdotool', 'import': 'imagemagick'}


# Where a client draws its board: its middle in the window, and the distance of its lines in pixels by their number.
Client = collections.namedtuple('Client', 'middle spacing')
KIGO = Client((256, 377), lambda lines: 500 // (lines + 1))
QGO = Client((293, 437), lambda lines: 539 // lines)
ASIDE = 0.3, 0.12  # where a point's colour is looked at, in lines: off the lines, and off the marks on them
DARK, BRIGHT = 110, 150  # a stone's pixel: all less than the one, or all more than the other


def games_path(name):
    """Where a program is; Debian has its games in a folder that root's PATH lacks."""
    return shutil.which(name) or shutil.which(name, path='/usr/games')


def missing(*names):
    """The Debian packages that lack, of a screen and of the programs that are named."""
    return [package for name, package in [*PACKAGES.items(), *((name, name) for name in names)] if not games_path(name)]


def wait_for(what, holds, patience=PATIENCE):
    """What `holds` gives, as soon as it gives something."""
    end = time.monotonic() + patience
    while time.monotonic() < end:
        found = holds()
        if found:
            return found
        time.sleep(0.1)
    raise Fault('%s did not come within %d seconds' % (what, patience))


class Desktop:
    """A screen, and a home folder for what is begun there."""

    def __init__(self):
        self.home, self.begun = tempfile.TemporaryDirectory(), []
        self.environment = {
            **os.environ, 'HOME': self.home.name, 'XDG_CONFIG_HOME': os.path.join(self.home.name, '.config'), 'XDG_RUNTIME_DIR': self.home.name,
            'LC_ALL': 'C.UTF-8'}
        if not any(self.begin_server() for _ in range(TRIALS)):
            raise Fault('Xvfb did not begin')

    def begin_server(self):
        """Whether a server could be begun: one that ends at the same time can take the new one's socket with it."""
        reading, writing = os.pipe()
        words = ['Xvfb', '-displayfd', str(writing), '-screen', '0', '%dx%dx24' % (WIDTH, HEIGHT), '-nolisten', 'tcp']
        self.server = subprocess.Popen(words, pass_fds=[writing], stdin=subprocess.DEVNULL, stdout=subprocess.DEVNULL, stderr=subprocess.DEVNULL)
        os.close(writing)
        with os.fdopen(reading) as numbers:
            self.environment['DISPLAY'] = ':' + numbers.readline().strip()
        is_there = subprocess.run(['xdotool', 'getdisplaygeometry'], env=self.environment, stdout=subprocess.DEVNULL, stderr=subprocess.DEVNULL).returncode == 0
        if not is_there:
            end(self.server)
        return is_there

    def __enter__(self):
        return self

    def __exit__(self, *_):
        for process in [*self.begun, self.server]:
            end(process)
        self.home.cleanup()

    def write(self, name, text):
        """A file of the home folder."""
        path = pathlib.Path(self.home.name, name)
        path.parent.mkdir(parents=True, exist_ok=True)
        path.write_text(text)
        return path

    def begin(self, words):
        process = subprocess.Popen(
            list(map(str, words)), env=self.environment, cwd=self.home.name, start_new_session=True,
            stdin=subprocess.DEVNULL, stdout=subprocess.DEVNULL, stderr=subprocess.DEVNULL)
        self.begun.append(process)
        return process

    def ask(self, *words, status=0):
        done = subprocess.run(list(map(str, words)), env=self.environment, stdout=subprocess.PIPE, stderr=subprocess.PIPE)
        if status is not None and done.returncode != status:
            raise Fault('%s: %s' % (' '.join(map(str, words)), done.stderr.decode(errors='replace').strip()))
        return done.stdout

    def windows(self, name, by='name'):
        """The windows whose title has the name, or whose class is it."""
        return self.ask('xdotool', 'search', '--onlyvisible', '--' + by, name, status=None).decode().split()

    def window(self, name, by='name', patience=PATIENCE):
        """The first such window, once it is there."""
        return wait_for('a window %r' % name, lambda: self.windows(name, by), patience)[0]

    def opened(self, words, name):
        """The window of a program that is begun; again where it doesn't come. qGo can lose a reply of its engine, and then hangs."""
        for _ in range(TRIALS):
            process = self.begin(words)
            with contextlib.suppress(Fault):
                return self.window(name, patience=PATIENCE / TRIALS)
            end(process)
        raise Fault('%s opens no window %r' % (words[0], name))

    def place(self, window):
        """Where the upper left corner of a window is."""
        told = dict(line.split('=') for line in self.ask('xdotool', 'getwindowgeometry', '--shell', window).decode().split())
        return int(told['X']), int(told['Y'])

    def click(self, window, x, y):
        left, top = self.place(window)
        self.ask('xdotool', 'mousemove', left + round(x), top + round(y), 'sleep', '0.2', 'click', '1', 'sleep', '0.3')

    def key(self, window, *names):
        self.ask('xdotool', 'windowfocus', window, 'sleep', '0.3')
        for name in names:
            self.ask('xdotool', 'key', name, 'sleep', '0.3')

    def picture(self, path):
        self.ask('import', '-window', 'root', path)

    def pixels(self):
        """Red, green and blue of each pixel, row by row."""
        return self.ask('import', '-window', 'root', '-depth', '8', 'rgb:-')


def at(client, lines, point, aside=(0, 0)):
    """Where a point, column and row from the upper left, is drawn in the window."""
    return [client.middle[axis] + (point[axis] - (lines - 1) / 2 + aside[axis]) * client.spacing(lines) for axis in (0, 1)]


def stones_seen(desktop, window, client, lines):
    """The stones of the picture, by colour: a pixel of each point is dark, bright, or of wood."""
    pixels, (left, top) = desktop.pixels(), desktop.place(window)
    found = {'black': set(), 'white': set()}
    for point in [(x, y) for y in range(lines) for x in range(lines)]:
        x, y = at(client, lines, point, ASIDE)
        pixel = pixels[3 * (WIDTH * round(top + y) + round(left + x)):][:3]
        if max(pixel) < DARK:
            found['black'].add(point)
        elif min(pixel) > BRIGHT:
            found['white'].add(point)
    return found


def end(process):
    """Ends a process and what it began."""
    try:
        os.killpg(process.pid, 15) if os.getpgid(process.pid) == process.pid else process.terminate()
    except ProcessLookupError:
        return
    try:
        process.wait(5)
    except subprocess.TimeoutExpired:
        process.kill()
        process.wait()

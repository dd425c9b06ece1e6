"""What the scripts of this repository share: their words, how they end, and what they print, read and write."""

import argparse
import os
import pathlib
import subprocess
import sys
import tempfile

TOP = pathlib.Path(__file__).resolve().parent.parent
BUILT = TOP / 'crates/gdsolve/out/gdsolve'

# Statuses of a script beside 0: it has no answer, its words are wrong, its reader has gone, it was interrupted.
FAULT, WORDS, DESERTED, INTERRUPTED = 1, 2, 141, 130


class Fault(Exception):
    """What keeps a script from its answer, in words for the user."""


class Parser(argparse.ArgumentParser):
    """Reads a script's words; wrong ones are told in one line."""

    def __init__(self, text):
        super().__init__(description=text, formatter_class=argparse.RawDescriptionHelpFormatter, allow_abbrev=False)

    def error(self, message):
        say('%s: %s; %s --help has the words' % (self.prog, message, self.prog))
        sys.exit(WORDS)


def count(text):
    """A number from 0 on, for a word of the command line."""
    if not (text.isascii() and text.isdigit() and len(text) <= 10):
        raise argparse.ArgumentTypeError('%s is no number' % printable(text))
    return int(text)


def printable(text):
    """The text with each sign that could do more to a terminal than stand there written out, as \\x1b."""
    return ''.join(sign if sign.isprintable() else written_out(sign) for sign in text)


def written_out(sign):
    code = ord(sign)
    if 0xdc80 <= code <= 0xdcff:  # a byte that is no UTF-8
        code -= 0xdc00
    return '\\x%02x' % code if code < 256 else '\\u%04x' % code


def say(text):
    """A line on standard error."""
    print(printable(text), file=sys.stderr, flush=True)


def run(main):
    """Ends the script with the status that `main` gives, 0 for none. A fault is one line on standard error."""
    name = pathlib.Path(sys.argv[0]).name
    try:
        if sys.stdout is None:
            raise Fault('standard output is closed')
        sys.stdout.reconfigure(errors='backslashreplace')
        status = main() or 0
        sys.stdout.flush()
    except BrokenPipeError:
        os.dup2(os.open(os.devnull, os.O_WRONLY), sys.stdout.fileno())
        status = DESERTED
    except KeyboardInterrupt:
        status = INTERRUPTED
    except (Fault, UnicodeError) as fault:
        say('%s: %s' % (name, fault))
        status = FAULT
    except OSError as fault:
        where = '' if fault.filename is None else os.fsdecode(fault.filename) + ': '
        say('%s: %s%s' % (name, where, fault.strerror or fault))
        status = FAULT
    except subprocess.CalledProcessError as fault:
        say('%s: %s ended with status %s' % (name, ' '.join(map(str, fault.cmd)), fault.returncode))
        status = FAULT
    sys.exit(status)


def read_bytes(path):
    """The bytes of a file, or of standard input for -."""
    if str(path) != '-':
        return pathlib.Path(path).read_bytes()
    if sys.stdin is None:
        raise Fault('standard input is closed')
    return sys.stdin.buffer.read()


def write_text(path, text):
    """Writes a file whole, or leaves what stood there: it is written beside, and renamed. Devices are written to."""
    real = pathlib.Path(os.path.realpath(path))
    written = text.encode('utf-8', 'backslashreplace')
    if real.exists() and not real.is_file():
        real.write_bytes(written)
        return
    with tempfile.NamedTemporaryFile(dir=real.parent, prefix='.' + real.name[:100], delete=False) as beside:
        try:
            beside.write(written)
            beside.flush()
            mask = os.umask(0)
            os.umask(mask)
            os.chmod(beside.name, real.stat().st_mode & 0o777 if real.exists() else 0o666 & ~mask)
            os.replace(beside.name, real)
        except BaseException:
            os.unlink(beside.name)
            raise


def program(named=None):
    """The path of the program: the one that is named, else that of the environment's GDSOLVE, else the one built here."""
    path = pathlib.Path(named or os.environ.get('GDSOLVE') or BUILT).resolve()
    if not (path.is_file() and os.access(path, os.X_OK)):
        raise Fault('there is no program %s: build it by ./gdsolve, or name one' % path)
    return str(path)


def ask(command, text, options=()):
    """The lines that the program writes for the bytes of a file."""
    done = subprocess.run([program(), command, '-', *options], input=text, stdout=subprocess.PIPE)
    lines = done.stdout.decode(errors='replace').splitlines()
    if not lines:
        raise Fault('the program wrote nothing, and ended with status %d' % done.returncode)
    return lines


def answered(command, text, options=()):
    """The same, where a fault line keeps the script from its answer."""
    lines = ask(command, text, options)
    if lines[0].startswith('fault'):
        raise Fault(lines[0])
    return lines

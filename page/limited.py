"""Becomes another program, under limits that it can't raise: python3 limited.py SECONDS MEGABYTES PROGRAM WORD..

A process of its own sets them, because a server with threads can't safely run code between fork and exec.
"""

import os
import resource
import sys

MEGABYTE = 1 << 20
NICENESS = 5


def limit(kind, most):
    """Sets a limit, within the one that already holds."""
    _, hard = resource.getrlimit(kind)
    most = most if hard == resource.RLIM_INFINITY else min(most, hard)
    resource.setrlimit(kind, (most, most))


def main():
    seconds, megabytes, program, *words = sys.argv[1:]
    limit(resource.RLIMIT_CPU, int(seconds))
    limit(resource.RLIMIT_AS, int(megabytes) * MEGABYTE)
    limit(resource.RLIMIT_CORE, 0)
    os.nice(NICENESS)
    os.execv(program, [program, *words])


if __name__ == '__main__':
    main()

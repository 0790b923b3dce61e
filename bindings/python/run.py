#!/usr/bin/env python3
"""Says the lines of a script to a gateway, or of a script for storages to a bus: run.py [-s] [-t] SCRIPT.

It prints what they are answered. -s: they are of storages. -t: prints calls a second in place of it. Where a line is bad it prints
`bad line N` in place of all else, and ends with status 2, as `zq replay` does.
"""
import sys
import time

import zq


def heads(lines):
    """How many lines stand before the calls."""
    count = min(1, len(lines))
    while count < min(3, len(lines)) and lines[count].startswith((b'start ', b'best ')):
        count += 1
    return count


def read(print_of_step):
    """Reads the print of a step, which may be refused."""
    try:
        zq.read_step(print_of_step)
    except zq.Refused:
        pass


def run(script, storages=False, reads=False):
    """All prints, and how many calls they are of; or `bad line N`, and None. Each print is read as a step, where that is wanted."""
    lines = script.split(b'\n')
    if lines[-1] == b'':
        lines.pop()
    head = 0 if storages else heads(lines)
    prints, number = [], 0
    try:
        speaker = zq.Bus() if storages else zq.Gateway(b'\n'.join(lines[:head]))
        for number, line in enumerate(lines[head:], head + 1):
            prints.append(speaker.call(line))
            if reads and not storages:
                read(prints[-1])
    except zq.BadLine as bad:
        return b'bad line %d\n' % (bad.number or number), None
    return b''.join(prints), len(prints)


def main(words):
    with open(words[-1], 'rb') as file:
        script = file.read()
    begun = time.perf_counter()
    prints, calls = run(script, '-s' in words)
    if '-t' in words and calls is not None:
        s = time.perf_counter() - begun
        print(f'Python: {calls} calls, {len(prints)} bytes, {s:.3f} s, {calls / s:.0f} calls a second')
    else:
        sys.stdout.buffer.write(prints)
    return 0 if calls is not None else 2


if __name__ == '__main__':
    sys.exit(main(sys.argv[1:]))

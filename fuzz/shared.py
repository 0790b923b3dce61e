#!/usr/bin/env python3
"""usage: shared.py SCRIPT SLOTS < PRINT

Checks what `share W SLOTS` printed of a script: the lines before the calls, the stored calls, a line `--`, and the steps of their replay.
Each stored call but the reports is one of the script; those of the first part come first, and those of each worker stand in its order. Only
requests may be missing, and then at least SLOTS of them are stored. The replies of a request are reported in one row, by number, when no face
owes a final any more, and at the end none is left to be reported. The steps are those that `model.py` answers. It shares nothing with the
program. Exits with 0, or says what is wrong and exits with 1."""

import sys

from model import Gateway, replay
from words import BadLine, head_of, read_call, read_script


def call(line):
    """What a line says, in whichever words."""
    return read_call(line.split(b' '))


def is_ask(read):
    return read[0] == 'ask'


def parts_of(lines):
    """The lines before the calls, and the calls of each part."""
    head = lines[:head_of(lines)]
    parts = [[]]
    for line in lines[len(head):]:
        if line == b'worker':
            parts.append([])
        else:
            parts[-1].append(call(line))
    return head, parts


def after(parts, places, wanted):
    """The places where each part may stand when one of them made this call; requests before it may be passed over."""
    for which, place in enumerate(places):
        while place < len(parts[which]):
            if parts[which][place] == wanted:
                yield places[:which] + (place + 1,) + places[which + 1:]
            if not is_ask(parts[which][place]):
                break
            place += 1


def is_rest_asks(parts, places):
    return all(is_ask(read) for part, place in zip(parts, places) for read in part[place:])


def is_woven(parts, made):
    """Whether the calls are those of the parts, each part's in order."""
    at = {(0,) * len(parts)}
    for read in made:
        at = {then for places in at for then in after(parts, places, read)}
    return any(is_rest_asks(parts, places) for places in at)


def first_made(first, made):
    """How many of the calls are of the first part: all of its calls but requests that are missing."""
    place = 0
    for count, read in enumerate(made):
        while place < len(first) and first[place] != read and is_ask(first[place]):
            place += 1
        if place == len(first) or first[place] != read:
            return count
        place += 1
    return len(made)


def reported_wrong(config, calls):
    """What is wrong with the reports among the calls, or None."""
    gateway, row = Gateway(config), None
    for kind, values in calls:
        query = next((query for query in gateway.queries if kind == 'sent' and values[0] in query.in_flight), None)
        if kind == 'sent' and query is None:
            return 'a report is of no reply in flight'
        if row and query is not row:
            return 'a call stands among the reports of a request'
        if query and query.pending:
            return 'a report stands where a face owes a final'
        if query and values[0] != min(query.in_flight):
            return 'reports are out of order'
        gateway.call(kind, values)
        row = query if query and query.in_flight else None
    return None if all(query.pending for query in gateway.queries) else 'a reply is not reported'


def wrong(script, slots, printed):
    """What is wrong with the print, or None."""
    head, parts = parts_of(script.removesuffix(b'\n').split(b'\n'))
    stored, found, steps = printed.partition(b'--\n')
    if not found:
        return 'there is no line --'
    lines = stored.removesuffix(b'\n').split(b'\n')
    if lines[:len(head)] != head:
        return 'the lines before the calls differ'
    try:
        config, calls = read_script(lines)
    except BadLine as at:
        return f'line {at} is no call'
    made = [read for read in calls if read[0] != 'sent']
    given = [read for part in parts for read in part]
    if sum(not is_ask(read) for read in made) != sum(not is_ask(read) for read in given):
        return 'other calls than requests are missing, or too many'
    asked, asks = sum(map(is_ask, made)), sum(map(is_ask, given))
    if asked > asks or (asked < asks and asked < slots):
        return f'{asked} of {asks} requests are stored, with {slots} slots'
    begun = first_made(parts[0], made)
    if not is_woven([parts[0]], made[:begun]) or not is_woven(parts[1:], made[begun:]):
        return 'the calls are not those of the parts, each in order'
    said = reported_wrong(config, calls)
    if said:
        return said
    run = replay(stored)
    if run.status != 0 or run.print != steps:
        return 'the steps are not those of the replay'
    return None


if __name__ == '__main__':
    with open(sys.argv[1], 'rb') as source:
        said = wrong(source.read(), int(sys.argv[2]), sys.stdin.buffer.read())
    if said:
        print(said)
        sys.exit(1)

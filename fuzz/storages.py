"""Storages that answer queries, without a gateway: what each line of a script for them is answered."""

import re
from dataclasses import dataclass, field

from keys import includes, intersects, is_key
from words import BadLine, choice, fields, payload, require, shown, text, u32


def key(word):
    """A text that is a key."""
    found = text(word)
    require(is_key(found))
    return found


READERS = {
    b'storage': (key, choice('c', 'p')),
    b'put': (u32, key, payload),
    b'delete': (u32, key),
    b'get': (key, choice('all', 'complete', 'best')),
}


def read_line(line):
    """The name of a line, and its fields: words between single spaces."""
    name, *words = line.split(b' ')
    require(name in READERS and b'' not in words)
    return name.decode(), *fields(words, *READERS[name])


def is_plain(name):
    """Neither wild nor with a verbatim chunk."""
    return not re.search(rb'[*$]', name) and all(chunk[:1] != b'@' for chunk in name.split(b'/'))


@dataclass
class Storage:
    key: bytes
    complete: bool
    pairs: dict = field(default_factory=dict)


class Storages:
    def __init__(self):
        self.storages = []

    def refused(self, number, name):
        """Why a storage does not take the key."""
        if number >= len(self.storages):
            return 'UnknownStore'
        if not is_plain(name):
            return 'NotPlain'
        return None if includes(self.storages[number].key, name) else 'Outside'

    def on_storage(self, name, complete):
        self.storages.append(Storage(name, complete == 'c'))
        return [f'storage {len(self.storages) - 1}']

    def changed(self, number, name, change):
        """Changes the pairs unless it is refused, and says the value before."""
        refusal = self.refused(number, name)
        if refusal:
            return [f'refused {refusal}']
        pairs = self.storages[number].pairs
        before = pairs.get(name)
        change(pairs)
        return ['done' if before is None else f'old {shown(before)}']

    def on_put(self, number, name, value):
        return self.changed(number, name, lambda pairs: pairs.update({name: value}))

    def on_delete(self, number, name):
        return self.changed(number, name, lambda pairs: pairs.pop(name, None))

    def asked(self, name, target):
        """The storages that are asked, by their keys and numbers: all whose key meets the name; of these the complete
        ones; or the first complete one, and else all. A storage is complete for what its key includes."""
        numbers = [number for number, it in enumerate(self.storages) if intersects(it.key, name)]
        numbers.sort(key=lambda number: (self.storages[number].key, number))
        complete = [n for n in numbers if self.storages[n].complete and includes(self.storages[n].key, name)]
        return {'all': numbers, 'complete': complete, 'best': complete[:1] or numbers}[target]

    def on_get(self, name, target):
        said = []
        for number in self.asked(name, target):
            pairs = sorted(self.storages[number].pairs.items())
            said += [f'{shown(of)} {shown(value)}' for of, value in pairs if intersects(of, name)]
        return said + ['end']


def run(script):
    """The status and the print of a script."""
    lines = script.split(b'\n')
    if lines[-1] == b'':
        lines.pop()
    storages, read = Storages(), []
    for at, line in enumerate(lines, 1):
        try:
            read.append(read_line(line))
        except BadLine:
            return 2, f'bad line {at}\n'
    said = [word for name, *rest in read for word in getattr(storages, f'on_{name}')(*rest)]
    return 0, ''.join(f'{line}\n' for line in said)

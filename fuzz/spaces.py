"""Namespaces and deny lists: what leaves of what a face is handed."""

from collections import namedtuple
from dataclasses import dataclass, field

from keys import chunk_fits, includes, is_key
from words import Expression, shown


class Message(namedtuple('Message', 'kind id written rest')):
    """What a face is handed: an expression or none, and the words that follow it."""

    def line(self):
        return ' '.join([self.kind, str(self.id), *self.expression(), *self.rest])

    def expression(self):
        """The word of the expression, in messages that have one."""
        if self.kind in ('final', 'declfinal'):
            return []
        return ['-' if self.written is None else written_as(self.written)]

    def is_bare_error(self):
        """An error that says no key."""
        return self.kind == 'response' and self.rest[1] == 'err' and self.written[::2] == (0, b'')


def written_as(written):
    return f'{written.number}:{written.side}:{shown(written.suffix)}'


def is_plain(text):
    """A key that stands for itself alone."""
    return is_key(text) and not any(chunk[:1] == b'@' or set(chunk) & set(b'*$') for chunk in text.split(b'/'))


def strip(space, key):
    """What is left of a key behind a plain one, from its first `**` on or once the plain one ends."""
    left = key.split(b'/')
    for chunk in space.split(b'/'):
        if left[:1] == [b'**']:
            break
        if not left or not chunk_fits(chunk, left[0], False):
            return None
        left = left[1:]
    return b'/'.join(left) or None


@dataclass
class Exit:
    """The namespace of a face, if it has one, and the keys that it may not be asked for.

    Of what did not leave it keeps the texts of numbers and the ids of queryables, until these end.
    """
    space: bytes = None
    denied: list = field(default_factory=list)
    heads: dict = field(default_factory=dict)
    kept: set = field(default_factory=set)

    def wire(self, written):
        """An expression as it leaves, if it does."""
        text = written.suffix
        if written.number:
            if written.side == 'r' or written.number not in self.heads:
                return written
            text = self.heads[written.number] + text if text else b''
        left = strip(self.space, text) if is_key(text) else None
        return None if left is None else Expression(0, written.side, left)

    def leaves(self, message, key):
        """What leaves of a message; the key is the whole text of a request."""
        if message.kind == 'request' and any(includes(denied, key) for denied in self.denied):
            return None
        if self.space is None or message.kind in ('final', 'declfinal') or message.is_bare_error():
            return message
        if message.written is None:
            return None if self.ends(message) else message
        written = self.wire(message.written)
        if written is None:
            self.keep(message)
            return None
        return message._replace(written=written)

    def ends(self, message):
        """The end of a queryable leaves, unless it is kept; then it is kept no more."""
        is_kept = message.id in self.kept
        self.kept.discard(message.id)
        return is_kept

    def keep(self, message):
        """What did not leave is known by its number or id."""
        if message.kind == 'key':
            self.heads[message.id] = message.written.suffix
        if message.kind == 'queryable':
            self.kept.add(message.id)

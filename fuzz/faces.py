"""Faces: what they declared, and the numbers that stand for texts."""

from collections import namedtuple
from dataclasses import dataclass, field

from keys import intersects, is_key
from spaces import Exit
from words import LOCAL, NORTH, U16, Expression, Region


class Refused(Exception):
    """The call changes nothing; its cause is named."""


def refuse(cause, holds):
    if holds:
        raise Refused(cause)


# What is declared on a key. Of two informations the lesser counts: complete ones, then the nearer.
Info = namedtuple('Info', 'partial distance')
# What a face was told of a key, and under which id.
Known = namedtuple('Known', 'id info')


class Interest(namedtuple('Interest', 'key numbers aggregate')):
    """The key that a face wants to hear of, or none for all; whether it wants numbers for keys; and whether it wants
    one entry on its key, for all that meet it, which without a key it cannot.
    """

    def meets(self, key):
        return self.key is None or intersects(self.key, key)

    def folds(self):
        return self.aggregate and self.key is not None

    def asks(self, key):
        """Whether it wants to hear of the key as it is."""
        return not self.folds() and self.meets(key)


@dataclass
class Face:
    """An open face: whether it told all, or of which keys; what its numbers and the gateway's stand for; queryables.

    The face of a router has a table, in which the nodes of its messages stand for ids. Other faces have what they
    know from the gateway, by key, and the last id of it.
    """
    number: int
    region: Region
    id: int
    bound: str
    last_id: int
    told: bool = False
    told_of: set = field(default_factory=set)
    texts: dict = field(default_factory=dict)
    ours: dict = field(default_factory=dict)
    queryables: dict = field(default_factory=dict)
    nodes: list = field(default_factory=list)
    interests: dict = field(default_factory=dict)
    known: dict = field(default_factory=dict)
    last_known: int = 0
    barred: list = field(default_factory=list)
    exit: Exit = field(default_factory=Exit)

    def info(self, key):
        """What was declared on the key."""
        return min((info for declared, info in self.queryables.values() if declared == key), default=None)

    def enters(self, suffix):
        """A text without a number, behind the namespace."""
        return b'/'.join(part for part in (self.exit.space, suffix) if part)

    def says(self, written):
        """The text of an expression."""
        if written.number == 0:
            return self.enters(written.suffix)
        texts = self.texts if written.side == 's' else self.ours
        refuse('UnknownScope', written.number not in texts)
        return texts[written.number] + written.suffix

    def says_key(self, written):
        """The text of an expression that has to be there and a key."""
        key = b'' if written is None else self.says(written)
        refuse('InvalidKeyExpr', not is_key(key))
        return key

    def number_of(self, part):
        """The number of a text, and whose it is for the face: its own, else the gateway's; the least of several."""
        for side, texts in (('r', self.texts), ('s', self.ours)):
            numbers = [n for n, known in texts.items() if known == part]
            if numbers:
                return min(numbers), side
        return None

    def writes(self, key):
        """The key by the longest part of whole chunks that has a number."""
        known = [*self.texts.values(), *self.ours.values()]
        parts = [part for part in known if (key + b'/').startswith(part + b'/')]
        return self.behind(key, max(parts, key=len, default=b''))

    def behind(self, key, part):
        """The key as the number of its first part, if that has one, and what follows."""
        if not self.number_of(part):
            return Expression(0, 's', key)
        return Expression(*self.number_of(part), key[len(part):])

    def declares(self, key, part):
        """The key as it is declared: in full to an application, else by its first part alone."""
        return self.behind(key, b'' if self.region == LOCAL else part)

    def takes_number(self, part):
        """Whether the gateway may number a part: always in North, never for an application, else where it is asked."""
        if self.region in (NORTH, LOCAL):
            return self.region == NORTH
        return any(interest.numbers and interest.meets(part) for interest in self.interests.values())

    def gives_number(self, part):
        """A number for a part of a key, the least that is free, where the face takes one."""
        if part == b'' or self.number_of(part) or not self.takes_number(part):
            return None
        free = next((n for n in range(1, U16 + 1) if n not in self.texts and n not in self.ours), None)
        if free:
            self.ours[free] = part
        return free

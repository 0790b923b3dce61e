"""The words and lines of a script. docs/SCRIPT.md has what they mean."""

import re
from collections import namedtuple
from dataclasses import dataclass, field


U8, U16, U32, U64, U128 = (2**bits - 1 for bits in (8, 16, 32, 64, 128))
MODES = ('router', 'peer', 'client')


# Words

class BadLine(Exception):
    """The line is no call."""


def require(condition):
    if not condition:
        raise BadLine


def number(most):
    """Reads a decimal number without sign or leading zeros."""
    def read(word):
        require(re.fullmatch(rb'0|[1-9][0-9]{0,59}', word) and int(word) <= most)
        return int(word)
    return read


u8, u16, u32, u64, u128 = (number(most) for most in (U8, U16, U32, U64, U128))


def choice(*names):
    """Reads one of some words."""
    def read(word):
        require(word in [name.encode() for name in names])
        return word.decode()
    return read


def tagged(tag, reader):
    """Reads what follows a tag and a colon."""
    return lambda word: fields(word.split(b':', 1), choice(tag), reader)[1]


def optional(reader):
    """Reads `-` as none."""
    return lambda word: None if word == b'-' else reader(word)


def payload(word):
    """`-` is empty; `%` and two hexadecimal digits are a byte, any other `%` is itself."""
    if word == b'-':
        return b''
    return re.sub(rb'%([0-9A-Fa-f]{2})', lambda found: bytes([int(found[1], 16)]), word)


def text(word):
    """A payload that is UTF-8."""
    try:
        return payload(word).decode().encode()
    except UnicodeDecodeError:
        raise BadLine from None


# A number, whose it is (`s`, the sender's, or `r`, the receiver's), and what follows its text.
Expression = namedtuple('Expression', 'number side suffix')


NOTHING = Expression(0, 's', b'')


def expression(word):
    return Expression(*fields(word.split(b':', 2), u16, choice('s', 'r'), text))


def ids(word):
    """A list of ids, joined by commas."""
    return [] if word == b'-' else [u128(part) for part in word.split(b',')]


def listed(reader):
    """Reads a list joined by commas, `-` as the empty one."""
    return lambda word: [] if word == b'-' else [reader(part) for part in word.split(b',')]


# The tree of a node: places of the children of its root, and for each node the place of the next one towards it.
Tree = namedtuple('Tree', 'children directions')


def trees(word):
    """Children and directions, `x` for none, of each tree."""
    directions = listed(lambda part: None if part == b'x' else u32(part))
    parts = [] if word == b'-' else word.split(b';')
    return [Tree(*fields(part.split(b'/'), listed(u32), directions)) for part in parts]


Region = namedtuple('Region', 'kind number mode', defaults=[0, ''])
NORTH, LOCAL = Region('north'), Region('local')


def region(word):
    if word in (b'north', b'local'):
        return Region(word.decode())
    return Region(*fields(word.split(b':'), choice('south'), u32, choice(*MODES)))


def region_order(where):
    """North comes first, then Local, then South by number and mode."""
    return ['north', 'local', 'south'].index(where.kind), where.number, ['', *MODES].index(where.mode)


def gateway_lists(word):
    """For each id the gateways that may carry its requests."""
    entries = [] if word == b'-' else word.split(b';')
    return [fields(entry.split(b'='), u128, ids) for entry in entries]


def fields(words, *readers):
    """As many values as words, each by its reader."""
    require(len(words) == len(readers))
    return tuple(reader(word) for reader, word in zip(readers, words))


def shown(content):
    """A text or payload as a word of the print."""
    if content in (b'', b'-'):
        return '%2D' if content else '-'
    return ''.join(chr(b) if 32 < b < 127 and b != 37 else f'%{b:02X}' for b in content)


# Lines

@dataclass
class Config:
    id: int
    timeout: int
    regions: list = field(default_factory=list)
    north_mode: str = ''
    start: tuple = (0, 0, 0, 0, 0)
    best: str = 'region'

    def mode(self, where):
        """What a region is made of; Local is of applications."""
        return {NORTH: self.north_mode, LOCAL: 'application'}.get(where, where.mode)


def read_config(words):
    """North once, no region twice, and South numbers of a byte."""
    require(words[0] == b'config')
    config = Config(*fields(words[1:3], u128, u64))
    for word in words[3:]:
        if word.startswith(b'north:'):
            entry, config.north_mode = NORTH, tagged('north', choice(*MODES))(word)
        else:
            entry = region(word)
            require(entry != NORTH and entry.number <= U8)
        require(entry not in config.regions)
        config.regions.append(entry)
    require(NORTH in config.regions)
    return config


FORMATS = [
    ('close', u32),
    ('key', u32, u16, expression),
    ('unkey', u32, u16),
    ('queryable', u32, u32, expression, choice('c', 'p'), u16, u16),
    ('unqueryable', u32, u32, optional(expression), u16),
    ('interest', u32, u32, optional(expression), choice('k', 'n')),
    ('interest', u32, u32, optional(expression), choice('k', 'n'), choice('a')),
    ('uninterest', u32, u32),
    ('ask', u32, u32, expression, choice('all', 'complete', 'best'), optional(u64), u16, u8, payload, u64),
    ('reply', u32, u32, expression, choice('ok', 'err'), payload),
    ('reply', u32, u32, expression, choice('ok', 'err'), payload, tagged('by', u128)),
    ('final', u32, u32),
    ('sent', u64),
    ('poll', u64),
    ('finalize', u32, choice('initial'), choice('0', '1')),
    ('finalize', u32, choice('key'), text, choice('0', '1')),
    ('gateways', region, gateway_lists, lambda word: None if word == b'none' else ids(word)),
    ('network', region, ids, trees, listed(u16)),
    ('nodes', u32, ids),
]
READERS = {(kind, len(readers)): readers for kind, *readers in FORMATS}


def read_open(words):
    """A face, its namespace if it has one, and the keys that it may not ask for and not be asked for."""
    where, face_id, _, bound, namespace = fields(
        words[:5], region, u128, choice(*MODES), choice('north', 'south'), optional(text))
    denied = {'in': [], 'out': []}
    for item in words[5:]:
        side = 'in' if item.startswith(b'in') else 'out'
        denied[side].append(tagged(side, text)(item))
    return where, face_id, bound, namespace, denied['in'], denied['out']


def read_call(words):
    """The kind of a call, and its values."""
    kind, values = words[0].decode('latin-1'), words[1:]
    if kind == 'open':
        return kind, read_open(values)
    require((kind, len(values)) in READERS)
    return kind, fields(values, *READERS[kind, len(values)])


def head_of(lines):
    """How many lines stand before the calls: `config`, then `start` or none, then `best` or none."""
    at = 1
    for first in (b'start', b'best'):
        at += lines[at:at + 1] != [] and lines[at].split(b' ')[0] == first
    return at


def read_script(lines, may=lambda *call: True):
    """The configuration and the calls, all of which may be made; the number of the first bad line is raised with it."""
    config, calls, head = None, [], head_of(lines)
    for at, line in enumerate(lines, start=1):
        words = line.split(b' ')
        try:
            require(b'' not in words)
            if at == 1:
                config = read_config(words)
            elif at <= head and words[0] == b'start':
                config.start = fields(words[1:], u32, u64, u64, u32, u32)
            elif at <= head:
                config.best, = fields(words[1:], choice('region', 'overall'))
            else:
                calls.append(read_call(words))
                require(may(*calls[-1]))
        except BadLine:
            raise BadLine(at) from None
    return config, calls

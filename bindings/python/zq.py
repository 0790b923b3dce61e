"""The proved query gateway for Python 3.9 and later, by ctypes over libzq.so (docs/LIBRARY.md).

    import zq
    gateway = zq.Gateway('config 1 10000 north:client local')
    (lamp, _), (ann, _) = gateway.open('local', 10), gateway.open('local', 11)
    gateway.queryable(lamp, 1, 'house/lamp')
    request, messages = gateway.ask(ann, 7, 'house/*', b'on?')

Each call answers an outcome, a number or None, and the messages that are to be sent. A refusal is an exception with its name, and
then nothing changed. ZQ_LIBRARY may name libzq.so; else it is looked for beside this file and in ../out.
"""

import ctypes
import os
import threading
from pathlib import Path
from typing import List, NamedTuple, Optional, Union

# ---- what may go wrong


class Error(Exception):
    """What the library did not do. Where nothing else is said, nothing changed."""


class BadLine(Error, ValueError):
    """A line is no line of its kind, or has a newline in it; of a head, `number` is that of its bad line."""

    def __init__(self, line, number=0):
        super().__init__(f'bad line {number}: {line!r}' if number else f'bad line: {line!r}')
        self.line, self.number = line, number


class Busy(Error):
    """A call from inside another call of the same thread, as from a signal handler."""


class Closed(Error):
    """It was closed."""


class NoMemory(Error, MemoryError):
    """No memory was found."""


class Unprinted(NoMemory):
    """The call was made, and no memory was found for its print: `print` gives it."""


class Spent(NoMemory):
    """No memory was found amid a `storage` or `get` of a bus: it joins and gets no more, its pairs stay."""


class BadKey(Error, ValueError):
    """A text is no key."""


class Refused(Error):
    """A refusal, which has a class of its own: `name` is its name."""

    @property
    def name(self):
        return type(self).__name__


class NoLocal(Refused):
    """The configuration of a bus lacks `local`."""


class UnknownFace(Refused):
    """The face was never opened, or is closed."""


class UnknownRegion(Refused):
    """The configuration lacks the region."""


class UpstreamInUse(Refused):
    """The face would be a second upstream."""


class UnknownScope(Refused):
    """The number of an expression is neither 0 nor known at the face."""


class InvalidKeyExpr(Refused):
    """A text that has to be a key is none."""


class QueryNotFound(Refused):
    """No request is pending at the face under the id."""


class NotInFlight(Refused):
    """The reply is not in flight."""


class Remapped(Refused):
    """The number is 0, or stands for another text."""


class UnknownId(Refused):
    """Nothing stands there that the call could take back."""


class IdInUse(Refused):
    """The id stands for another key."""


class UnknownRouter(Refused):
    """The node number stands for no router, or for the gateway itself."""


class NoFreeId(Refused):
    """No number or no id is left for what the call brings."""


class UnknownStore(Refused):
    """No storage has the number."""


class NotPlain(Refused):
    """The key has a `*`, a `$` or a chunk that begins with `@`."""


class Outside(Refused):
    """The storage's key does not include it."""


class BusSpent(Refused):
    """An earlier `storage` or `get` of the bus found no memory."""

    name = 'Spent'


_REFUSALS = {it.__name__: it for it in Refused.__subclasses__()}
_REFUSALS['Spent'] = BusSpent

# ---- the library

_OK, _BAD_LINE, _NO_MEMORY, _UNPRINTED, _SHORT, _CLOSED, _IN_USE, _NOTHING, _BAD_KEY, _SPENT, _NO_LOCAL, _NO_FREE_ID, _NULL = range(13)


class _Handle(ctypes.Structure):
    _fields_ = [('at', ctypes.c_void_p), ('live', ctypes.c_bool)]


def _found():
    here = Path(__file__).resolve().parent
    named = os.environ.get('ZQ_LIBRARY')
    return named or next((str(it) for it in (here / 'libzq.so', here.parent / 'out/libzq.so') if it.exists()), 'libzq.so')


_lib = ctypes.CDLL(_found())
_size, _handle, _bytes = ctypes.c_size_t, ctypes.POINTER(_Handle), ctypes.c_char_p
_out, _flag, _moment = ctypes.POINTER(_size), ctypes.POINTER(ctypes.c_bool), ctypes.POINTER(ctypes.c_uint64)
for _name, *_types in (
    ('zq_open', _bytes, _size, _handle, _moment),
    ('zq_open_bus', _bytes, _size, _handle, _moment),
    ('zq_call', _handle, _bytes, _size, ctypes.c_void_p, _size, _out),
    ('zq_print', _handle, ctypes.c_void_p, _size, _out),
    ('zq_close', _handle),
    ('zq_next_deadline', _handle, _moment),
    ('zq_keys_meet', _bytes, _size, _bytes, _size, _flag),
    ('zq_key_includes', _bytes, _size, _bytes, _size, _flag),
):
    _function = getattr(_lib, _name)
    _function.argtypes, _function.restype = _types, ctypes.c_uint32


def _raw(text):
    return text.encode() if isinstance(text, str) else bytes(text)


def _related(function, a, b):
    a, b, yes = _raw(a), _raw(b), ctypes.c_bool()
    if function(a, len(a), b, len(b), ctypes.byref(yes)) != _OK:
        raise BadKey(a, b)
    return yes.value


def keys_meet(a, b):
    """Whether two keys intersect."""
    return _related(_lib.zq_keys_meet, a, b)


def key_includes(a, b):
    """Whether key `a` includes key `b`."""
    return _related(_lib.zq_key_includes, a, b)


class Speaker:
    """What is spoken to by lines. Threads may share it: a lock lets one call in at a time."""

    def __init__(self, opens, head):
        self._lock, self._busy, self._handle = threading.RLock(), False, _Handle()
        self._len, self._out = _size(), ctypes.create_string_buffer(4096)
        head, bad = _raw(head), ctypes.c_uint64()
        status = opens(head, len(head), ctypes.byref(self._handle), ctypes.byref(bad))
        if status:
            raise self._fault(status, head, bad.value)

    def _fault(self, status, line=b'', number=0):
        if status == _BAD_LINE:
            return BadLine(line, number)
        known = {_NO_MEMORY: NoMemory, _UNPRINTED: Unprinted, _CLOSED: Closed, _SPENT: Spent, _NO_LOCAL: NoLocal, _NO_FREE_ID: NoFreeId}
        return known.get(status, Error)(*([] if status in known else [f'status {status}']))

    def _enter(self):
        self._lock.acquire()
        if self._busy:
            self._lock.release()
            raise Busy
        self._busy = True

    def _leave(self):
        self._busy = False
        self._lock.release()

    def _given(self, status, line=b''):
        while status == _SHORT:
            self._out = ctypes.create_string_buffer(self._len.value)
            status = _lib.zq_print(self._handle, self._out, len(self._out), self._len)
        if status:
            raise self._fault(status, line)
        return ctypes.string_at(self._out, self._len.value)

    def call(self, line):
        """Does what a line says (a str, or bytes, without a newline); the print of what comes of it, as bytes."""
        line = _raw(line)
        self._enter()
        try:
            return self._given(_lib.zq_call(self._handle, line, len(line), self._out, len(self._out), self._len), line)
        finally:
            self._leave()

    def print(self):
        """The print of what came of the last line, once more. It does nothing else."""
        self._enter()
        try:
            return self._given(_lib.zq_print(self._handle, self._out, len(self._out), self._len))
        finally:
            self._leave()

    def close(self):
        """Lets it go. It is closed then."""
        self._enter()
        try:
            _lib.zq_close(self._handle)
        finally:
            self._leave()

    def __enter__(self):
        return self

    def __exit__(self, *_):
        self.close()

    def __del__(self):
        if getattr(self, '_handle', None) is not None and _lib is not None:
            _lib.zq_close(self._handle)


# ---- words


def escape(text):
    """A text or bytes as a word of a line."""
    raw = _raw(text)
    if raw in (b'', b'-'):
        return '%2D' if raw else '-'
    return ''.join(chr(b) if 32 < b < 127 and b != 37 else f'%{b:02X}' for b in raw)


def unescape(word):
    """The bytes of a word of a print."""
    if word == '-':
        return b''
    first, *parts = word.encode().split(b'%')
    return first + b''.join(bytes([int(p[:2], 16)]) + p[2:] for p in parts)


class Wire(NamedTuple):
    """A key expression: a number for a key, or 0, and what follows its text. Where one is taken, a str is a key without a number."""

    number: int
    suffix: str
    receiver: bool = False

    def __str__(self):
        return f"{self.number}:{'r' if self.receiver else 's'}:{escape(self.suffix)}"


def _wire(it):
    return '-' if it is None else str(it if isinstance(it, Wire) else Wire(0, it))


def _read_wire(word):
    if word == '-':
        return None
    number, whose, suffix = word.split(':', 2)
    return Wire(int(number), unescape(suffix).decode(), whose == 'r')


def _opt(it):
    return '-' if it is None else str(it)


def _read_opt(word):
    return None if word == '-' else int(word)


def _list(items, between=','):
    return between.join(map(str, items)) or '-'


# ---- what a gateway hands


class Request(NamedTuple):
    id: int
    key: Wire
    target: str
    timeout: Optional[int]
    node: int
    qos: int
    payload: bytes


class Response(NamedTuple):
    id: int
    key: Wire
    qos: int
    ok: bool
    payload: bytes
    responder: Optional[int]


class Final(NamedTuple):
    id: int
    qos: int


class Key(NamedTuple):
    number: int
    key: Wire


class Queryable(NamedTuple):
    id: int
    key: Wire
    complete: bool
    distance: int
    node: int
    interest: Optional[int]


class Unqueryable(NamedTuple):
    id: int
    key: Optional[Wire]
    node: int


class DeclareFinal(NamedTuple):
    interest: Optional[int]


Body = Union[Request, Response, Final, Key, Queryable, Unqueryable, DeclareFinal]

_BODIES = {
    'request': (Request, int, _read_wire, str, _read_opt, int, int, unescape),
    'response': (Response, int, _read_wire, int, 'ok'.__eq__, unescape, _read_opt),
    'final': (Final, int, int),
    'key': (Key, int, _read_wire),
    'queryable': (Queryable, int, _read_wire, 'c'.__eq__, int, int, _read_opt),
    'unqueryable': (Unqueryable, int, _read_wire, int),
    'declfinal': (DeclareFinal, _read_opt),
}


def _body(words):
    kind, *readers = _BODIES[words[0]]
    return kind(*[read(word) for read, word in zip(readers, words[1:])])


class Message(NamedTuple):
    """A message that is to be sent to a face: what leaves through its exit, None where nothing does. `body` is what was handed. A
    message with the number of a reply is to be reported by `sent` once it was sent, or where nothing leaves."""

    face: int
    request: Optional[int]
    reply: Optional[int]
    body: Body
    leaves: Optional[Body]


class Answer(NamedTuple):
    """What a call was answered: the number of a face, a request or a reply, or None; and the messages that are to be sent."""

    outcome: Optional[int]
    messages: List[Message]


def read_step(text):
    """The answer that the print of a step says. A refusal is raised."""
    first, *lines = text.decode('ascii').splitlines()
    words, messages = first.split(' '), []
    if words[1] == 'refused':
        raise _REFUSALS[words[2]]()
    for line in lines:
        mark, *w = line.split(' ')
        if mark == '>':
            body = _body(w[3:])
            messages.append(Message(int(w[0]), _read_opt(w[1]), _read_opt(w[2]), body, body))
        else:
            messages[-1] = messages[-1]._replace(leaves=None if w == ['-'] else _body(w))
    return Answer(_read_opt(words[2]) if words[2:] else None, messages)


class Gateway(Speaker):
    """A gateway, of the lines before a script's calls. Each call answers an outcome and messages."""

    def __init__(self, config):
        super().__init__(_lib.zq_open, config)

    def next_deadline(self):
        """When it is to be told next that a moment has come, by `poll`, in milliseconds; None where it waits for nothing."""
        self._enter()
        try:
            deadline = ctypes.c_uint64()
            status = _lib.zq_next_deadline(self._handle, deadline)
            if status not in (_OK, _NOTHING):
                raise self._fault(status)
            return deadline.value if status == _OK else None
        finally:
            self._leave()

    def step(self, *words):
        """Makes the call of these words (docs/SCRIPT.md)."""
        return read_step(self.call(' '.join(map(str, words))))

    def open(self, region, zid, mode='client', remote='north', namespace=None, entry_deny=(), exit_deny=()):
        """A face is opened: in 'north', 'local' or 'south:NUM:MODE', by its id. Answers its number."""
        deny = [f'in:{escape(it)}' for it in entry_deny] + [f'out:{escape(it)}' for it in exit_deny]
        return self.step('open', region, zid, mode, remote, '-' if namespace is None else escape(namespace), *deny)

    def close_face(self, face):
        """A face is closed."""
        return self.step('close', face)

    def key(self, face, number, key):
        """A face gives a number to a key."""
        return self.step('key', face, number, _wire(key))

    def unkey(self, face, number):
        """It takes the number back."""
        return self.step('unkey', face, number)

    def queryable(self, face, id, key, complete=True, distance=0, node=0):
        """A face declares, under an id, that it answers queries on a key."""
        return self.step('queryable', face, id, _wire(key), 'c' if complete else 'p', distance, node)

    def unqueryable(self, face, id, key=None, node=0):
        """It withdraws the id. The key is read in a region of routers alone."""
        return self.step('unqueryable', face, id, _wire(key), node)

    def interest(self, face, id, key=None, numbers=False, aggregate=False):
        """A face asks to hear, under an id, of the queryables on the keys that meet a key, or on all."""
        return self.step('interest', face, id, _wire(key), 'k' if numbers else 'n', *(['a'] if aggregate else []))

    def uninterest(self, face, id):
        """It asks no longer under the id."""
        return self.step('uninterest', face, id)

    def ask(self, face, id, key, payload=b'', target='all', timeout=None, node=0, qos=0, now=0):
        """A face asks, under an id of its own, at a moment in milliseconds. Answers the request's number."""
        return self.step('ask', face, id, _wire(key), target, _opt(timeout), node, qos, escape(payload), now)

    def reply(self, face, id, key, payload=b'', responder=None):
        """A face replies to the request that it has under the id. Answers the reply's number, None where the asker is closed."""
        return self.step('reply', face, id, _wire(key), 'ok', escape(payload), *([] if responder is None else [f'by:{responder}']))

    def error(self, face, id, payload=b'', key='', responder=None):
        """It replies that it failed."""
        return self.step('reply', face, id, _wire(key), 'err', escape(payload), *([] if responder is None else [f'by:{responder}']))

    def final(self, face, id):
        """It has no more to say to the request."""
        return self.step('final', face, id)

    def sent(self, reply):
        """The reply of this number has been sent, or nothing of it leaves."""
        return self.step('sent', reply)

    def poll(self, now):
        """A moment has come, in milliseconds."""
        return self.step('poll', now)

    def finalize(self, face, key=None, set=True):
        """All that a face had to declare, at its opening or on a key, has come; or the mark is taken away."""
        return self.step('finalize', face, *(['initial'] if key is None else ['key', escape(key)]), int(set))

    def network(self, region, nodes, trees, distances):
        """The network of a region of routers: their ids, the tree of each (children, and the next router on the way to each), and
        how far each is."""
        ways = [f"{_list(children)}/{_list('x' if it is None else it for it in next_ones)}" for children, next_ones in trees]
        return self.step('network', region, _list(nodes), _list(ways, ';'), _list(distances))

    def nodes(self, face, ids):
        """What the node numbers of a router's face stand for."""
        return self.step('nodes', face, _list(ids))

    def gateways(self, region, entries, others=None):
        """For each client or node of a region, the gateways that may carry its requests; and for one that is not known."""
        listed = [f'{zid}={_list(ids)}' for zid, ids in entries]
        return self.step('gateways', region, _list(listed, ';'), 'none' if others is None else _list(others))


class Bus(Speaker):
    """A bus of storages, over a gateway of the lines before a script's calls: what `get` brings is what is proved of it."""

    def __init__(self, config='config 1 10000 north:client local'):
        super().__init__(_lib.zq_open_bus, config)

    def _said(self, *words):
        text = self.call(' '.join(map(str, words))).decode('ascii')
        if text.startswith('refused '):
            raise _REFUSALS[text.split()[1]]()
        return text

    def _changed(self, *words):
        text = self._said(*words)
        return None if text == 'done\n' else unescape(text.split()[1])

    def storage(self, key, complete=True):
        """A storage joins, and answers for the key."""
        return Storage(self, int(self._said('storage', escape(key), 'c' if complete else 'p').split()[1]))

    def get(self, key, target='all'):
        """What storages reply on a key: each pair that meets it, as a list of keys and values."""
        lines = self._said('get', escape(key), target).splitlines()[:-1]
        return [(unescape(it).decode(), unescape(value)) for it, value in (line.split(' ') for line in lines)]


class Storage(NamedTuple):
    """A storage of a bus, by its number."""

    bus: Bus
    number: int

    def put(self, key, value):
        """It has this value at the key; answers the value before, or None."""
        return self.bus._changed('put', self.number, escape(key), escape(value))

    def delete(self, key):
        """It has no value at the key any more; answers the value before, or None."""
        return self.bus._changed('delete', self.number, escape(key))

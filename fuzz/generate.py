#!/usr/bin/env python3
"""Random scripts: `fuzz/generate.py KIND SEED` prints one, for a seed always the same.

Few keys, ids and moments are used, so that they collide; counters are often near their ends.
"""

import contextlib
import random
import re
import sys

import keys
from faces import Face
from model import Gateway
from spaces import is_plain
from telling import Network, front
from words import LOCAL, U16, U32, U64, U128, BadLine, Tree, read_call, read_config, region

PLAIN = [b'a b', b'a\nb', b'a\tb', *(
    'a b a/b a/b/c ab abc a/a b/a ab/c aab é é/a - a/- % a%zz a:b 😀/a a=b ~ ; , %41'.encode().split())]
WILD = '''** * a/* */b a/** **/b **/a/** */* a/*/c */** a$* $*a a$*b $*a$* a$*/b ab$* **/a$*b/** é$* $*é
    **/b/**/b a/**/b a/**/a/** $*a$*a$* */*/* -$* a/b$* $*%$* **/a */**/b'''.encode().split()
VERBATIM = '''@v **/@v @v/** a/@v/* */@v @v$* @$* **/@v/** @ a/@v @v/a @v/* @a/@v **/@a/**/@v @é @v/$* **/@v$*
    @v$*/a'''.encode().split()
NO_KEYS = [b'', *b'/a a//b a/ **/** **/* $* a$*$* a* *a $a a# a?b @* a$** **$* a/$* / *** $ $*/a *$*'.split()]
CHUNKS = 'a b ab * ** a$* $*b @v @v$* é aa $*a$* a$*b'.encode().split()
BESIDE = '''a a a b b a! a- a. a0 a+ ab aa é a~ ! 0 a@ ~ ba aé - ) a) * ** a$* $*a a$*b @v @v$* @ !$* a-$* $*~
    a$*é'''.encode().split() + [b'\x01']
IDS = [0, 1, 2, 3, 10, 11, U128]
MODES = ['client', 'client', 'peer', 'router']
BODIES = [b'', b'hi', b'-', b'a b', b'\xff\x00', b'%', b'%4', '😀'.encode(), b'\r', b'\x7f~!']
# Words at the edges of the format.
EDGES = (
    b'- 0 00 01 +1 -1 1 255 256 65535 65536 4294967295 4294967296 18446744073709551615 18446744073709551616'
    b' 340282366920938463463374607431768211455 340282366920938463463374607431768211456 x % %31 %2D 2D , 1,2 1, -,1'
    b' north local south south:0:client south:00:client south:256:peer south:4294967296:peer south:1 south:1:peer:'
    b' South:0:peer north:client client Client peer router 0:s: 0:s:- 0:s 0:t:a :s:a 1:r:a 65535:s:a 65536:s:a'
    b' 0:s:a:b:c 0:s:: 0:s:% 0:s:%4 0:s:%ff 0:s:%C3%A9 0:s:%c3 0:s:\xc3\xa9 0:s:\xed\xa0\x80 0:s:%F4%90%80%80'
    b' 0:s:%C0%AF 0:s:a%2Fb 0:s:a%zz 0:s:%252F ok err OK by:1 by: by:01 c p k all best region overall start complete none 1=2 1=2,3;2=-'
    b' 1=2; ;1=2 1= =1 1=2,,3 1=,2 1=2=3 1=-,2 in: in:- out:%FF in:a in initial key worker interest nodes'
    b' \t \r 0\r \x00 \xff 1\x0b ').split(b' ')

# How likely the kinds of calls are; and what a theme has otherwise.
WEIGHTS = dict(open=2, close=2, key=5, unkey=2, queryable=10, unqueryable=3, ask=14, reply=10, final=7, sent=7,
               poll=4, finalize=3, gateways=2, interest=3, uninterest=1)
THEMES = {
    'all': {},
    'life': dict(ask=20, reply=18, final=10, sent=12, poll=8, close=4, queryable=6, finalize=1, key=2),
    'counters': dict(open=6, close=4, ask=22, reply=20, final=6, poll=8, sent=9, finalize=1, gateways=1),
    'keys': dict(key=16, unkey=7, queryable=16, unqueryable=6, ask=26, reply=6),
    'regions': dict(ask=22, gateways=6, finalize=8, open=4, close=3, key=3),
    'routers': dict(open=4, close=1, network=4, nodes=4, queryable=24, unqueryable=8, ask=14, reply=2, final=2, sent=1,
                    poll=1, finalize=0.5, gateways=1),
    'wide': dict(ask=27, queryable=45, unqueryable=10, key=13, close=0.5, reply=1, final=3, finalize=1),
    'spaces': dict(open=4, close=2, key=8, queryable=18, unqueryable=8, interest=7, uninterest=2, ask=20, reply=12, final=4,
                   sent=3, poll=1, finalize=2, gateways=0.5),
    'told': dict(interest=14, uninterest=6, queryable=24, unqueryable=14, open=3, close=3, key=6, unkey=5, ask=5,
                 reply=1, final=1, sent=0.5, poll=0.5, finalize=0.5, gateways=0.5, network=2, nodes=1),
}

def word(rng, content):
    """A text or payload as a word, with some bytes written by `%` that need not be."""
    if content in (b'', b'-'):
        return b'%2D' if content else b'-'
    return b''.join(rng.choice([b'%%%02X', b'%%%02x']) % byte if byte in b'\n %' or rng.random() < 0.03
                    else bytes([byte]) for byte in content)


def joined(rng, chunks):
    """A key of some of the chunks."""
    while True:
        key = b'/'.join(rng.choices(chunks, k=rng.randint(1, 4)))
        if keys.is_key(key):
            return key


def some_key(rng):
    """A key of the lists above, or of a few random chunks."""
    random_key = [joined(rng, CHUNKS)]
    return rng.choice(rng.choice([PLAIN, PLAIN, WILD, WILD, VERBATIM, random_key, random_key]))


def some_entries(rng, most_south, modes=MODES):
    """Regions of a configuration."""
    south = {f'south:{rng.choice([0, 0, 1, 255])}:{rng.choice(modes)}' for _ in range(rng.randint(0, most_south))}
    entries = ['north:' + rng.choice(modes[1:]), *rng.choice([['local']] * 5 + [[]]), *sorted(south)]
    return rng.sample(entries, len(entries))


class Writer:
    """Writes a script line by line. The model runs along, so that most lines name what is there.

    A method named like a call makes the words that follow the call's name, mostly for the face that it is given.
    """

    # which calls may be written: all, if no other choice is made for all scripts
    may = staticmethod(lambda *call: True)

    def __init__(self, rng, theme, entries, faces=3):
        self.rng, self.theme, self.faces_wanted = rng, theme, faces
        self.regions = [entry if entry.startswith('south') else entry.partition(':')[0] for entry in entries]
        self.own = rng.choice([1, 2, 3, 11, U128])
        timeout = rng.choice([0, 1, 3, 5, 10000, 10000, U64, U64 - 5])
        self.lines = [f'config {self.own} {timeout} {" ".join(entries)}'.encode()]
        self.config = read_config(self.lines[0].split(b' '))
        if theme == 'counters' or rng.random() < 0.15:
            self.write_start()
        self.write_best()
        self.gateway = Gateway(self.config)
        self.keys = [some_key(rng) for _ in range(rng.randint(2, 5))]
        self.queryable_ids = [0, 1, 2, 3, U32]
        self.ids = rng.sample(IDS, rng.randint(2, 4)) + [self.own]
        self.now = rng.choice([0, 0, 1, 5, 10, U64 - 4])

    def write_start(self):
        """Counters that are near their ends, or not."""
        face, *others = (self.rng.choice([0, top - self.rng.randint(0, 9)]) for top in (U32, U64, U64, U32, U32))
        self.config.start = min(face, U32 - self.rng.randint(2, 8)), *others
        self.lines.append(b'start %d %d %d %d %d' % self.config.start)

    def write_best(self):
        """The choice of best matching, or no line of it. Half of the scripts choose over all regions."""
        chance = self.rng.random()
        if chance < 0.6:
            self.config.best = 'overall' if chance < 0.5 else 'region'
            self.lines.append(b'best ' + self.config.best.encode())

    def write(self, count):
        """A script of so many lines. A line that would be bad is left out."""
        while len(self.lines) < count:
            weights = self.weights()
            kind = self.rng.choices(list(weights), list(weights.values()))[0]
            faces = list(self.gateway.faces.values())
            stranger = Face(self.rng.choice([0, 1, 2, U32]), LOCAL, 0, '', 0)
            face = self.rng.choice(faces) if faces and self.rng.random() < 0.985 else stranger
            words = kind, *getattr(self, kind)(face)
            line = b' '.join(part if isinstance(part, bytes) else str(part).encode() for part in words)
            with contextlib.suppress(BadLine):
                call = read_call(line.split(b' '))
                if self.may(*call):
                    self.gateway.call(*call)
                    self.lines.append(line)
        return b'\n'.join(self.lines) + self.rng.choice([b'', b'\n', b'\n', b'\n'])

    def weights(self):
        """How likely each kind of call is: less so where it has nothing to name."""
        faces, weights = self.gateway.faces.values(), WEIGHTS | THEMES[self.theme]
        if not faces:
            return dict(open=60 if self.gateway.next_face < U32 else 1, close=1, sent=1, poll=1, gateways=1)
        if len(faces) < self.faces_wanted:
            weights['open'] = 40
        if not self.pending():
            weights.update(reply=0.3, final=0.3, poll=1)
        if not self.in_flight():
            weights['sent'] = 0.3
        if not any(face.texts for face in faces):
            weights['unkey'] = 0.15
        if not any(face.queryables for face in faces):
            weights.update(unqueryable=0.15, queryable=25)
        if 'uninterest' in weights and not any(face.interests for face in faces):
            weights['uninterest'] = 0.15
        if any(face.region in self.gateway.routed and not face.nodes for face in faces):
            weights['nodes'] = 20
        return weights

    def in_flight(self):
        return [reply for query in self.gateway.queries for reply in sorted(query.in_flight)]

    def pending(self):
        return [entry for query in self.gateway.queries for entry in query.pending]

    def text(self):
        """Mostly one of the script's few keys."""
        chance, key = self.rng.random(), self.rng.choice(self.keys)
        if chance < 0.82:
            return key
        if chance < 0.9:
            return key + self.rng.choice([b'/a', b'/*', b'/**', b'b', b'$*', b'/@v'])
        return some_key(self.rng) if chance < 0.97 else self.rng.choice(NO_KEYS)

    def expression(self, face, text):
        """A text, often by a number of the face, at times by an unknown one."""
        rng = self.rng
        given = [n for n, part in face.ours.items() if text.startswith(part)]
        if given and rng.random() < 0.3:
            number = rng.choice(given)
            return b'%d:r:%s' % (number, word(rng, text[len(face.ours[number]):]))
        number = rng.choice([0, *[n for n, part in face.texts.items() if text.startswith(part)] * 2])
        if number == 0 and face.exit.space and rng.random() < 0.8:
            text = text.removeprefix(face.exit.space).removeprefix(b'/')
        text = text[len(face.texts.get(number, b'')):]
        if rng.random() < 0.05:
            number = rng.choice([1, 2, 9, U16, *face.texts])
            text = rng.choice([text, b'/a', b'/**', b'$*', b'', b'//'])
        side = b'r' if rng.random() < (0.03 if number else 0.25) else b's'
        return b'%d:%s:%s' % (number, side, word(rng, text))

    def open(self, _):
        rng = self.rng
        where, namespace = rng.choice(self.regions), '-'
        if rng.random() < 0.04:
            where = rng.choice(['south:7:client', 'south:256:peer', 'south:4294967295:router', 'local'])
            namespace = rng.choice(['-', 'n', '%2D', 'a/* in:k out:**', '- in:-', '- out:a in:%20', '@a', 'a/'])
        elif rng.random() < (0.6 if self.theme == 'spaces' else 0.1):
            namespace = self.gate()
        return where, rng.choice(self.ids), rng.choice(MODES), rng.choice(['north', 'south']), namespace

    def gate(self):
        """A namespace near the script's keys, or none, and at times deny lists."""
        rng = self.rng
        fronts = [front(key) for key in self.keys]
        space = rng.choice([*filter(is_plain, fronts), *(part.split(b'/')[0] for part in fronts), b'', b'a'])
        items = [rng.choice([b'in:', b'out:']) + word(rng, rng.choice([*self.keys, b'**', space + b'/**']))
                 for _ in range(rng.choice([0, 0, 0, 1, 2]))]
        return b' '.join([word(rng, space), *items])

    def close(self, face):
        return face.number,

    def key(self, face):
        """A few numbers, a taken one with its own or another text."""
        number = self.rng.choice([0, *[1, 2, 3, 4, U16] * 6])
        text = b'/'.join(self.text().split(b'/')[:self.rng.randint(1, 3)])
        if self.rng.random() < 0.5:
            text = face.texts.get(number, text)
        return face.number, number, self.expression(face, text)

    def unkey(self, face):
        return face.number, self.rng.choice([*face.texts] * 5 + [0, 1, U16])

    def queryable(self, face):
        """A few ids, a taken one mostly with its own key."""
        rng = self.rng
        number, text = rng.choice(self.queryable_ids), self.text()
        if rng.random() < 0.8:
            text = face.queryables.get(number, [text])[0]
        return (face.number, number, self.expression(face, text), rng.choice('ccp'), rng.choice([0, 5, U16]),
                self.node(face))

    def node(self, face):
        """Mostly a place of the face's table."""
        return self.rng.choice([0, U16, *[*range(len(face.nodes))] * 8])

    def unqueryable(self, face):
        """Mostly what was declared: an id, or for a router an entry."""
        number = self.rng.choice([*face.queryables] * 5 + [0, 1, U32])
        entries = self.gateway.entries.get(face.region, {})
        known = [(key, face.nodes.index(router)) for key, router in entries if router in face.nodes]
        text, node = self.rng.choice([*known * 3, (self.text(), self.node(face))])
        unread = [] if known else [b'-', b'9:s:zz']
        return face.number, number, self.rng.choice([*unread, self.expression(face, text)]), node

    def interest(self, face):
        """A few ids, a taken one mostly with its own key; at times all keys are meant, and at times one entry."""
        rng = self.rng
        number, text = rng.choice([0, 1, 2, 7, U32]), rng.choice([*[self.text()] * 4, None])
        if number in face.interests and rng.random() < 0.8:
            text = face.interests[number].key
        last = ['a'] if rng.random() < 0.4 else []
        return face.number, number, b'-' if text is None else self.expression(face, text), rng.choice('kn'), *last

    def uninterest(self, face):
        """Mostly of a face that has interests."""
        asking = [other for other in self.gateway.faces.values() if other.interests]
        face = self.rng.choice([*asking * 5, face])
        return face.number, self.rng.choice([*face.interests] * 5 + [0, 1, U32])

    def ask(self, face):
        """Often a key that another face declared, or is marked on."""
        rng = self.rng
        self.now = min(U64, self.now + rng.choice([0, 0, 0, 1, 1, 3]))
        others = [other for other in self.gateway.faces.values() if other.number != face.number]
        known = [key for other in others for key, _ in other.queryables.values()]
        known += [key for other in others for key in sorted(other.told_of)] * 2
        known += [key for entries in self.gateway.entries.values() for key, _ in entries]
        text = rng.choice(known) if known and rng.random() < 0.5 else self.text()
        return (face.number, rng.choice([0, 1, 7, 7, U32]), self.expression(face, text),
                rng.choice(['all', 'complete', 'best']), rng.choice(['-', '-', '-', 0, 1, 2, 5, U64, U64 - 4]),
                rng.choice([0, 3, *[self.node(face)] * 3]), rng.choice([0, 5, 255]), word(rng, rng.choice(BODIES)),
                self.now)

    def final(self, face):
        """Mostly for a request that is pending there."""
        pending = self.pending()
        if pending and face.number in self.gateway.faces and self.rng.random() < 0.95:
            return self.rng.choice(pending)[:2]
        return face.number, self.rng.choice([0, 1, 2, U32])

    def reply(self, face):
        rng = self.rng
        number, query_id = self.final(face)
        expression = self.expression(self.gateway.faces.get(number, face), self.text())
        if rng.random() < 0.12:
            expression = rng.choice([b'0:s:-', b'0:s:', b'0:r:-'])
        outcome, content = rng.choice(['ok', 'ok', 'err']), word(rng, rng.choice(BODIES))
        responder = rng.choice([(), (), (b'by:0',), (b'by:%d' % U128,)])
        return number, query_id, expression, outcome, content, *responder

    def sent(self, _):
        return self.rng.choice(self.in_flight() * 5 + [0, 1, U64, self.gateway.next_reply]),

    def poll(self, _):
        """Mostly a deadline, or the moment before it."""
        deadlines = [entry.deadline for entry in self.pending()]
        moment = self.rng.choice(deadlines * 5 + [self.now, self.now, self.now, U64])
        return max(0, moment - self.rng.choice([0, 0, 1])),

    def finalize(self, face):
        if self.rng.random() < 0.4:
            return face.number, 'initial', self.rng.choice('0111')
        text = self.rng.choice([*sorted(face.told_of), self.text()])
        return face.number, 'key', word(self.rng, text), self.rng.choice('0111')

    def gateways(self, _):
        where = self.rng.choice(self.regions * 5 + ['south:9:client'])
        lists = [f'{self.rng.choice(self.ids)}={self.id_list()}' for _ in range(self.rng.randint(0, 3))]
        return where, ';'.join(lists) or '-', self.rng.choice(['none', '-', self.id_list()])

    def network(self, _):
        """A table of few ids, which is often the last one with a tree changed."""
        where = self.rng.choice(self.regions * 9 + ['south:9:router'])
        nodes, trees, distances = self.gateway.networks.get(region(where.encode()), Network([], [], []))
        if not nodes or self.rng.random() < 0.5:
            nodes = self.rng.sample([*self.ids, *self.ids[:2]], k=self.rng.choice([0, 3, 4, 5, 6]))
            distances = self.rng.choices([0, 1, 2, 5, U16], k=max(0, len(nodes) + self.rng.choice([0, 0, -1, 1])))
            trees = [self.tree(nodes) for _ in range(len(nodes) + self.rng.choice([-1, 0, 0, 0, 1]))]
        if trees:
            trees = [*trees]
            trees[self.rng.randrange(len(trees))] = self.tree(nodes)
        shown = [f'{numbers(tree.children)}/{numbers(tree.directions)}' for tree in trees]
        return where, numbers(nodes), ';'.join(shown) or '-', numbers(distances)

    def tree(self, nodes):
        """Children and directions among the nodes, at times beyond them, at times too few."""
        places = [*range(len(nodes))] * 6 + [len(nodes), U16, U16 + 1]
        directions = self.rng.choices(places * 2 + [None], k=max(0, len(nodes) - self.rng.choice([0, 0, 0, 1])))
        return Tree(self.rng.choices(places, k=self.rng.choice([0, 1, 2, 3, 3, 4])), directions)

    def nodes(self, face):
        """The table of a face, mostly of one of a router."""
        routed = [other for other in self.gateway.faces.values() if other.region in self.gateway.routed]
        new = [other for other in routed if not other.nodes]
        face = self.rng.choice([*new * 9, *routed * 5, face])
        return face.number, numbers(self.rng.choices(self.ids, k=self.rng.choice([0, 2, 3, 4])))

    def id_list(self):
        """Often with the gateway's own id."""
        chosen = self.rng.choices([*self.ids, self.own, 1], k=self.rng.randint(0, 4))
        return numbers(chosen)

    def use_few_ids(self):
        """The gateway's own id and three others."""
        self.ids = [self.own, *self.rng.sample([n for n in (5, 6, 7, 8) if n != self.own], 3)]


def numbers(items):
    """A list as a word, with `x` for none."""
    return ','.join('x' if item is None else str(item) for item in items) or '-'


def mixed(rng):
    """All kinds of calls, or mostly those of one theme."""
    theme = rng.choice(['all', 'life', 'counters', 'keys', 'regions', 'regions'])
    entries = some_entries(rng, 3 if theme in ('all', 'regions') else 1)
    return Writer(rng, theme, entries).write(rng.randint(10, 60))


def dense(rng):
    """Many regions and faces, marks and lists of gateways, and few keys."""
    entries = some_entries(rng, 6, ['client', 'client', 'peer'])
    writer = Writer(rng, 'regions', entries, faces=rng.choice([5, 7, 9]))
    writer.keys = writer.keys[:2] + [b'**']
    return writer.write(rng.randint(40, 110))


def long(rng):
    """Some hundred lines on one gateway."""
    theme = rng.choice(['all', 'life', 'keys', 'regions'])
    return Writer(rng, theme, some_entries(rng, 2)).write(rng.randint(150, 500))


def wide(rng):
    """Many faces and queryables, on many keys whose bytes lie around `/`, `*`, `$` and `@`."""
    writer = Writer(rng, 'wide', some_entries(rng, 2), faces=rng.choice([3, 10, 25]))
    writer.keys = [joined(rng, BESIDE) for _ in range(rng.choice([20, 60, 150]))]
    writer.queryable_ids = range(8)
    return writer.write(rng.randint(100, 400))


def routers(rng):
    """Faces of routers and others, networks and tables of few ids, and few keys."""
    entries = ['north:' + rng.choice(['router', 'router', 'client']), 'local', 'south:0:router', 'south:1:client']
    writer = Writer(rng, 'routers', entries[:rng.choice([3, 3, 4])], faces=rng.choice([4, 6]))
    writer.use_few_ids()
    return writer.write(rng.randint(30, 120))


def told(rng):
    """Interests, and declarations that come, change and go; some faces, and all of North and of peers, open late."""
    south = rng.sample(['south:0:client', 'south:1:client', 'south:2:peer', 'south:3:router'], k=rng.choice([1, 2, 3]))
    entries = [f'north:{rng.choice(["client", "client", "peer", "router"])}', *rng.choice([['local'], []]), *south]
    writer, front = Writer(rng, 'told', entries, faces=rng.choice([3, 5, 7])), rng.choice(PLAIN)
    near = [front, front + b'/a', front + b'/b', front + b'/*', front + b'/**', front + b'/a$*', b'**', some_key(rng)]
    writer.keys = rng.sample(near, k=rng.choice([3, 4, 6]))
    writer.use_few_ids()
    regions = writer.regions
    writer.regions = [where for where in regions if where != 'north' and not where.endswith('peer')] or regions
    writer.write(rng.randint(10, 40))
    writer.regions, writer.faces_wanted = regions, writer.faces_wanted + 2
    return writer.write(rng.randint(60, 160))


def spaces(rng):
    """Faces in namespaces and with deny lists, on few keys, of which some are namespaces themselves."""
    entries = [f'north:{rng.choice(["client", "peer", "router"])}', 'local', 'south:0:client', 'south:1:peer']
    writer, front = Writer(rng, 'spaces', entries[:rng.choice([2, 3, 4])], faces=rng.choice([3, 5, 7])), rng.choice(PLAIN)
    near = [front, front + b'/a', front + b'/b/a', front + b'/*', b'*/a', b'**', b'**/a', b'*', some_key(rng)]
    writer.keys = [front, *rng.sample(near[1:], k=rng.choice([2, 3, 5]))]
    writer.use_few_ids()
    return writer.write(rng.randint(40, 160))


def mutated(rng):
    """A short script in which a byte, a word or a line, or two, are replaced, put in or taken out."""
    script = Writer(rng, 'all', some_entries(rng, 1)).write(rng.randint(4, 14))
    for _ in range(rng.choice([1, 1, 1, 2])):
        script = change(rng, script)
    return script


def change(rng, script):
    """A part, with what stands between it and the next, is changed."""
    byte = bytes([rng.choice(b'\n :;,=%-0123456789asrnk@*$/#?\r\t\x00\xff\x7f')])
    edge, line = rng.choice(EDGES), rng.choice(script.split(b'\n'))
    ways = [(rb'()', byte, b''), *[(rb'([ \n])', edge, b' ')] * 3, (rb'(\n)', line, b'\n')]
    between, new, gap = rng.choice(ways)
    parts = re.split(between, script) + [b'']
    at = rng.choice([rng.randrange(0, len(parts), 2), rng.randrange(0, min(len(parts), 20), 2)])
    part, behind = parts[at:at + 2]
    if gap == b' ':
        new = rng.choice([new, new, b'0' + part, part + b'%FF', part])
    parts[at:at + 2] = rng.choice([[new, behind]] * 4 + [[new, gap, part, behind], []])
    return b''.join(parts)


KINDS = {'mixed': mixed, 'dense': dense, 'long': long, 'wide': wide, 'mutated': mutated, 'routers': routers, 'told': told,
         'spaces': spaces}


def generate(kind, seed):
    """The script of a kind and a seed."""
    return KINDS[kind](random.Random(f'{kind} {seed}'))


if __name__ == '__main__':
    if len(sys.argv) != 3 or sys.argv[1] not in KINDS or not sys.argv[2].isdigit():
        sys.exit(f'usage: fuzz/generate.py {"|".join(KINDS)} SEED')
    sys.stdout.buffer.write(generate(sys.argv[1], int(sys.argv[2])))

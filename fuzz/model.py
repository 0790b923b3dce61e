#!/usr/bin/env python3
"""What is right: the query gateway as plain lists.

`fuzz/model.py < script` prints what the script's calls have to be answered, and exits with the
status that the program has to exit with. docs/SCRIPT.md has the words of a script.
"""

import sys
from collections import namedtuple
from dataclasses import dataclass, field
from itertools import count

from faces import Face, Refused, refuse
from keys import includes, intersects, is_key
from spaces import Exit, Message, is_plain
from telling import Declared, Network, at, kept
from words import LOCAL, NORTH, NOTHING, U16, U32, U64, BadLine, Expression, read_script, region_order, shown

FARTHEST = U16


# A target that owes its final, under which id and until when.
Entry = namedtuple('Entry', 'face id deadline')


@dataclass
class Query:
    """An open request, with what it waits for."""
    number: int
    asker: int
    id: int
    qos: int
    pending: list = field(default_factory=list)
    in_flight: set = field(default_factory=set)


# A face that may answer, for a node. Offers are taken by distance, then key, then face.
Offer = namedtuple('Offer', 'distance key face complete declared node')


def pick(offers, target):
    """What a target mode takes of a region's offers."""
    complete = [offer for offer in offers if offer.complete]
    if target == 'complete':
        return [offer for offer in offers if offer.complete or not offer.declared]
    if target == 'best':
        return complete[:1] or offers
    return offers


def nearest(regions):
    """Of all regions together the first complete offer alone, or all of them."""
    complete = sorted(offer for offers in regions for offer in offers if offer.complete)
    return [complete[:1]] if complete else regions


class Gateway(Declared):
    def __init__(self, config):
        self.config = config
        self.next_face, self.next_query, self.next_reply, self.first_known, self.first_id = config.start
        self.faces = {}
        self.queries = []
        self.gateways = {}
        self.routed = [where for where in config.regions if config.mode(where) == 'router']
        self.networks = {where: Network([], [], []) for where in self.routed}
        self.entries = {where: {} for where in self.routed}
        self.handed, self.tellings, self.ends = [], set(), []

    def call(self, kind, values):
        """The lines of a call: its answer, then requests or replies, then finals, then declarations."""
        self.handed, self.tellings, self.ends = [], set(), []
        before = {where: self.elsewhere(where) for where in self.routed}
        try:
            answer = getattr(self, f'on_{kind}')(*values) or 'done'
        except Refused as cause:
            return [f'= refused {cause}']
        self.tell_own(before)
        self.tell_due()
        return [f'= {answer}', *self.handed, *self.finals(), *self.declarations()]

    def finals(self):
        """A query ends when no target owes its final and no reply is in flight. The asker is told."""
        ended = [query for query in self.queries if not query.pending and not query.in_flight]
        self.queries = [query for query in self.queries if query.pending or query.in_flight]
        return [line for query in ended if query.asker in self.faces
                for line in self.hand(query.asker, query.number, '-', Message('final', query.id, None, [str(query.qos)]))[0]]

    def hand(self, face, number, reply, message, key=None):
        """The lines of a message of a request, and whether it leaves."""
        return self.out(face, f'> {face} {number} {reply}', message, key)

    # Faces, numbers, marks, lists

    def on_open(self, where, face_id, bound, space, barred, denied):
        """Namespaces are plain; there is one upstream; face numbers end before the last."""
        refuse('UnknownRegion', where not in self.config.regions)
        refuse('InvalidKeyExpr', space is not None and not is_plain(space) or not all(map(is_key, barred + denied)))
        refuse('UpstreamInUse', where == NORTH and self.config.north_mode == 'client' and self.faces_of(NORTH))
        refuse('NoFreeId', self.next_face == U32)
        face = Face(self.next_face, where, face_id, bound, self.first_id, last_known=self.first_known,
                    barred=barred, exit=Exit(space, denied))
        with kept(self.faces):
            self.faces[face.number] = face
            self.need_ids()
        self.next_face += 1
        return f'opened {face.number}'

    def on_close(self, face):
        """What the face owed is let go."""
        self.face(face)
        del self.faces[face]
        for query in self.queries:
            query.pending = [entry for entry in query.pending if entry.face != face]

    def on_key(self, face, key_number, written):
        """A number keeps its text until it is taken back."""
        face = self.face(face)
        key = face.says_key(written)
        refuse('Remapped', key_number == 0 or face.texts.get(key_number, key) != key)
        face.texts[key_number] = key

    def on_unkey(self, face, key_number):
        """What was declared by the number stays."""
        refuse('UnknownId', key_number not in self.face(face).texts)
        del self.face(face).texts[key_number]

    def on_finalize(self, face, what, *mark):
        """Sets or takes a mark, which says that the face has told all, or all of a key."""
        face, *key, on = self.face(face), *mark
        refuse('InvalidKeyExpr', what == 'key' and not is_key(*key))
        if what == 'initial':
            face.told = on == '1'
        else:
            face.told_of = face.told_of.difference(key).union(key if on == '1' else [])

    def on_gateways(self, where, lists, _):
        """The last lists of a region count, and in them the first list of an id."""
        refuse('UnknownRegion', where not in self.config.regions)
        self.gateways[where] = dict(reversed(lists))

    # Selection

    def router_offers(self, where, key, asker, node):
        """An offer for each entry that meets, on the way from the source: the node's router, or this gateway."""
        network = self.networks[where]
        source = network.place(at(asker.nodes, node) if asker.region == where else self.config.id)
        for (declared, router), info in self.entries[where].items():
            near, distance = network.way(source, router)
            face = self.face_of(where, near)
            if face and distance is not None and intersects(declared, key):
                complete = not info.partial and includes(declared, key)
                yield Offer(distance, declared, face.number, complete, True, source)

    def declared_offers(self, face, key):
        """An offer for each key that meets: complete where one that is declared so includes the key."""
        distance = 0 if face.region == LOCAL else 1
        offers = []
        for declared in {declared for declared, _ in face.queryables.values() if intersects(declared, key)}:
            complete = not face.info(declared).partial and includes(declared, key)
            offers.append(Offer(distance, declared, face.number, complete, True, 0))
        return offers

    def may_have_more(self, face, key):
        """Whether a face of North may answer a key that it has not declared."""
        if self.config.north_mode == 'peer' and face.bound == 'north':
            return not face.told
        return key not in face.told_of

    def offers(self, where, key, asker, node):
        """The offers of a region, in order. Peers, and those in North, reach one another by themselves."""
        if where in self.routed:
            return sorted(self.router_offers(where, key, asker, node))
        found, apart = [], where == NORTH or self.config.mode(where) == 'peer'
        for face in self.faces_of(where):
            if asker.region != where or not apart:
                found += self.declared_offers(face, key)
            if where == NORTH != asker.region and self.may_have_more(face, key):
                found.append(Offer(FARTHEST, key, face.number, False, False, 0))
        return sorted(found)

    def may_ask(self, asker, source, face):
        """No one is asked by itself. Between North and the rest, a list says which gateway carries requests.

        The list is the asker's, or for an asker in North the asked face's. With none or an empty one, this
        gateway does; else the greatest of the list, and none where the source is in the list itself: the
        asker, or the router that its table has at the request's node.
        """
        if face.number == asker.number:
            return False
        if (face.region == NORTH) == (asker.region == NORTH):
            return True
        listed = face if asker.region == NORTH else asker
        carriers = self.gateways.get(listed.region, {}).get(listed.id)
        if not carriers:
            return True
        return source is None or source not in carriers and max(carriers) == self.config.id

    def select(self, asker, written, target, node):
        """The faces that are asked, with their nodes: those of each region in turn, each once. No key, no face."""
        try:
            key = asker.says_key(written)
        except Refused:
            return {}
        if any(includes(barred, key) for barred in asker.barred):
            return {}
        source = at(asker.nodes, node) if asker.region in self.routed else asker.id
        regions = [[offer for offer in self.offers(where, key, asker, node)
                    if self.may_ask(asker, source, self.faces[offer.face])]
                   for where in sorted(self.config.regions, key=region_order)]
        if target == 'best' and self.config.best == 'overall':
            picked = nearest(regions)
        else:
            picked = [pick(offers, target) for offers in regions]
        nodes = {}
        for offers in picked:
            for offer in offers:
                nodes.setdefault(offer.face, offer.node)
        return nodes

    # The life of a query

    def pending_at(self, face):
        """The queries that wait for a face, by the ids that they have there."""
        return {entry.id: query for query in self.queries for entry in query.pending if entry.face == face}

    def next_id(self, face):
        """The first id after the last one given, in a circle, that is not pending at the face."""
        taken = self.pending_at(face.number)
        face.last_id = next(n % 2**32 for n in count(face.last_id + 1) if n % 2**32 not in taken)
        return face.last_id

    def on_ask(self, face, own_id, written, target, timeout, node, qos, content, now):
        """Every target owes its final until the deadline, which is no later than time ends."""
        asker = self.face(face)
        targets = self.select(asker, written, target, node)
        refuse('NoFreeId', self.next_query == U64)
        query = Query(self.next_query, face, own_id, qos)
        deadline = min(U64, now + (self.config.timeout if timeout is None else timeout))
        for number, node in targets.items():
            to = self.faces[number]
            entry = Entry(number, self.next_id(to), deadline)
            key = asker.says(written)
            rest = [target, '-' if timeout is None else str(timeout), str(node), str(qos), shown(content)]
            lines, leaves = self.hand(number, query.number, '-', Message('request', entry.id, to.writes(key), rest), key)
            self.handed += lines
            if leaves:
                query.pending.append(entry)
        self.queries.append(query)
        self.next_query += 1
        return f'asked {query.number}'

    def respond(self, query, key, outcome, content, responder):
        """Hands the asker a reply, which is in flight from now on."""
        query.in_flight.add(self.next_reply)
        rest = [str(query.qos), outcome, shown(content), '-' if responder is None else str(responder)]
        message = Message('response', query.id, Expression(0, 's', key), rest)
        self.handed += self.hand(query.asker, query.number, self.next_reply, message)[0]
        self.next_reply += 1

    def on_reply(self, face, query_id, written, outcome, content, responder=None):
        """A reply to a closed asker is accepted and goes nowhere. The empty expression is no key, in an error nowhere."""
        face_says = self.face(face).says
        key = b'' if outcome == 'err' and written[::2] == NOTHING[::2] else face_says(written)
        query = self.pending_at(face).get(query_id)
        refuse('QueryNotFound', query is None)
        refuse('InvalidKeyExpr', key != b'' and not is_key(key))
        if query.asker not in self.faces:
            return 'replied -'
        refuse('NoFreeId', self.next_reply == U64)
        self.respond(query, key, outcome, content, responder)
        return f'replied {self.next_reply - 1}'

    def on_final(self, face, query_id):
        """The target owes nothing more to this request."""
        self.face(face)
        query = self.pending_at(face).get(query_id)
        refuse('QueryNotFound', query is None)
        query.pending = [entry for entry in query.pending if (entry.face, entry.id) != (face, query_id)]

    def on_sent(self, reply):
        """The reply is in flight no more."""
        for query in self.queries:
            if reply in query.in_flight:
                query.in_flight.remove(reply)
                return
        raise Refused('NotInFlight')

    def on_poll(self, now):
        """What is due is let go, by deadline, query, face and id; open askers get an error in its place."""
        due = sorted((entry.deadline, query.number, entry, query)
                     for query in self.queries for entry in query.pending if entry.deadline <= now)
        refuse('NoFreeId', sum(query.asker in self.faces for *_, query in due) > U64 - self.next_reply)
        for *_, entry, query in due:
            query.pending.remove(entry)
            if query.asker in self.faces:
                self.respond(query, b'', 'err', b'Timeout', self.faces[entry.face].id)


# A run

# What the program has to exit with and to print; and the lines of each call, with its kind.
Run = namedtuple('Run', 'status print calls')


def lines_of(script):
    """Its lines, the last of which need not end by a newline."""
    lines = script.split(b'\n')
    if lines[-1] == b'' and len(lines) > 1:
        lines.pop()
    return lines


def replay(script):
    """The run of a script."""
    try:
        config, calls = read_script(lines_of(script))
    except BadLine as at:
        return Run(2, f'bad line {at}\n'.encode(), [])
    gateway = Gateway(config)
    answers = [(kind, gateway.call(kind, values)) for kind, values in calls]
    return Run(0, ''.join(f'{line}\n' for _, lines in answers for line in lines).encode(), answers)


if __name__ == '__main__':
    run = replay(sys.stdin.buffer.read())
    sys.stdout.buffer.write(run.print)
    sys.exit(run.status)

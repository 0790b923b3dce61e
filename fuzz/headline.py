#!/usr/bin/env python3
"""The headline as a checker of a recorded run: the definitions of crates/zq_trace/specs, written out in Python.

usage: fuzz/headline.py SCRIPT PRINT

Says `holds`, or at which call which sentence fails first; the status is then 1. The print may be any gateway's. That
too few ids are left for what faces are told is taken from the print, where those ids are near their end.
"""
import copy
import sys
from collections import namedtuple

from keys import includes, intersects, is_key
from words import (LOCAL, NORTH, NOTHING, U16, U32, U64, BadLine, Expression, expression, optional, payload,
                   read_script, region_order, u8, u16, u32, u64, u128)

# ---- Traces: what is read of a print

Handed = namedtuple('Handed', 'to number reply message leaves')       # leaves: True if something leaves
Step = namedtuple('Step', 'outcome handed')
KINDS = {'request': 0, 'response': 1, 'final': 2}
Request = namedtuple('Request', 'id wire target timeout node qos payload')
Response = namedtuple('Response', 'id wire qos body payload responder')
Final = namedtuple('Final', 'id qos')


def read_message(words):
    kind, rest = words[0].decode(), words[1:]
    if kind == 'request':
        return kind, Request(u32(rest[0]), expression(rest[1]), rest[2].decode(), optional(u64)(rest[3]), u16(rest[4]), u8(rest[5]), payload(rest[6]))
    if kind == 'response':
        return kind, Response(u32(rest[0]), expression(rest[1]), u8(rest[2]), rest[3].decode(), payload(rest[4]), optional(u128)(rest[5]))
    if kind == 'final':
        return kind, Final(u32(rest[0]), u8(rest[1]))
    if kind == 'key':
        return kind, (u16(rest[0]), expression(rest[1]))
    return kind, tuple(rest)


def read_print(text):
    """The steps of a print."""
    steps = []
    for line in text.split(b'\n'):
        if not line:
            continue
        words = line.split(b' ')
        if words[0] == b'=':
            steps.append(Step(tuple(w.decode() for w in words[1:]), []))
        elif words[0] == b'>':
            steps[-1].handed.append(Handed(u32(words[1]), optional(u64)(words[2]), optional(u64)(words[3]), read_message(words[4:]), True))
        else:
            last = steps[-1].handed[-1]
            steps[-1].handed[-1] = last._replace(leaves=words[1:] != [b'-'])
    return steps


def is_accepted(step):
    return step.outcome[0] != 'refused'


# ---- Faces.antt

class Face:
    def __init__(self, values):
        self.region, self.zid, self.bound, self.space, self.denied, _ = values
        self.theirs, self.ours, self.queryables, self.interests, self.nodes = {}, {}, {}, {}, []
        self.initial, self.finalized = False, set()


UNSCOPED = None                       # what an expression says: None if its scope stands for nothing, b'' if it is empty


def says(w, face, is_error=False):
    if w.number == 0:
        if face.space is None or is_error and w.suffix == b'':
            return w.suffix
        return face.space + (b'/' + w.suffix if w.suffix else b'')
    side = face.theirs if w.side == 's' else face.ours
    return side[w.number] + w.suffix if w.number in side else UNSCOPED


def read_by(face, w):
    """What a handed expression says to its face."""
    if w.number == 0:
        return w.suffix
    side = face.ours if w.side == 's' else face.theirs
    return side[w.number] + w.suffix if w.number in side else UNSCOPED


class Trace:
    """The past: each fold is kept with the trace that it is the fold of."""

    def __init__(self, config):
        self.config, self.start = config, config.start
        self.faces, self.closed, self.opened = {}, set(), []
        self.gateways, self.requests, self.last_id = {}, [], {}
        self.pending, self.in_flight, self.next_reply = [], [], config.start[2]
        self.networks, self.entries = {}, {}

    # Awaited.antt
    def waits(self, n):
        return any(e[0] == n for e in self.pending) or any(f[0] == n for f in self.in_flight)

    def request(self, n):
        return next((f for f in self.requests if f[0] == n), None)

    def owner(self, face, id):
        return next((self.request(e[0]) for e in self.pending if e[1:3] == (face, id)), None)

    def is_taken(self, face, id):
        return any(e[1:3] == (face, id) for e in self.pending)

    def free_id(self, face):
        last = self.last_id.get(face, self.start[4])
        for k in range(1, len(self.pending) + 2):
            if not self.is_taken(face, (last + k) % 2 ** 32):
                return (last + k) % 2 ** 32

    def if_open(self, f):
        return None if f is None or f[1] in self.closed else f

    # the trace with one more call
    def then(self, kind, v, t):
        if not is_accepted(t):
            return
        if kind == 'open' and t.outcome[0] == 'opened':
            self.faces[int(t.outcome[1])] = Face(v)
            self.opened.append(int(t.outcome[1]))
        elif kind == 'close':
            self.faces.pop(v[0], None)
            self.closed.add(v[0])
        elif kind in ('key', 'unkey', 'queryable', 'unqueryable', 'interest', 'uninterest', 'nodes', 'finalize') and v[0] in self.faces:
            f = self.faces[v[0]]
            if kind == 'key':
                f.theirs[v[1]] = says(v[2], f) or b''
            elif kind == 'unkey':
                f.theirs.pop(v[1], None)
            elif kind == 'queryable':
                key, router = says(v[2], f) or b'', at(f.nodes, v[5])
                f.queryables[v[1]] = (key, v[3] == 'c')
                if router is not None:
                    self.entries.setdefault(f.region, {})[(key, router)] = v[3] == 'c'
            elif kind == 'unqueryable':
                key, router = (says(v[2], f) or b'') if v[2] is not None else b'', at(f.nodes, v[3])
                f.queryables.pop(v[1], None)
                self.entries.get(f.region, {}).pop((key, router), None)
            elif kind == 'interest':
                f.interests[v[1]] = says(v[2], f) if v[2] is not None else None
            elif kind == 'uninterest':
                f.interests.pop(v[1], None)
            elif kind == 'nodes':
                f.nodes = v[1]
            elif kind == 'finalize' and v[1] == 'initial':
                f.initial = v[2] == '1'
            elif kind == 'finalize':
                (f.finalized.add if v[3] == '1' else f.finalized.discard)(v[2])
        elif kind == 'gateways':
            self.gateways[v[0]] = v[1]
        elif kind == 'network':
            self.networks[v[0]] = v[1:]
            self.entries[v[0]] = {k: i for k, i in self.entries.get(v[0], {}).items() if k[1] in v[1]}
        for h in t.handed:
            if h.message[0] == 'key' and h.to in self.faces:
                self.faces[h.to].ours[h.message[1][0]] = h.message[1][1].suffix
            if h.message[0] == 'request':
                self.last_id[h.to] = h.message[1].id
        if kind == 'ask' and t.outcome[0] == 'asked':
            self.requests.append((int(t.outcome[1]), v[0], v[1], v[6]))
        moment = min(v[8] + (self.config.timeout if v[4] is None else v[4]), U64) if kind == 'ask' else 0
        self.pending = [e for e in self.pending if not ends_entry(kind, v, e)] + [
            (h.number, h.to, h.message[1].id, moment) for h in t.handed if h.leaves and h.message[0] == 'request' and h.number is not None]
        flights = [(h.number, h.reply) for h in t.handed if h.reply is not None and h.number is not None]
        self.in_flight = [f for f in self.in_flight if not (kind == 'sent' and f[1] == v[0])] + flights
        self.next_reply += len(flights)


def ends_entry(kind, v, e):
    return kind == 'final' and e[1:3] == v[:2] or kind == 'close' and e[1] == v[0] or kind == 'poll' and e[3] <= v[0]


# ---- Selected.antt

Offer = namedtuple('Offer', 'distance key face complete bare node region')
NO_NETWORK = ([], [], [])            # nodes, trees and distances


def at(items, n):
    return items[n] if n is not None and n < len(items) else None


def strategy_in(past, r):
    mode = past.config.mode(r)
    return 'broker' if r == LOCAL or r != NORTH and mode == 'client' else mode


def place_of(network, zid):
    """The place of an id in a network, if a message can name it."""
    n = network[0].index(zid) if zid in network[0] else None
    return n if n is not None and n <= U16 else None


def place_in(past, node, f):
    """The place of the router that a node of the face stands for; outside regions of routers the first."""
    if strategy_in(past, f.region) != 'router':
        return 0
    return place_of(past.networks.get(f.region, NO_NETWORK), at(f.nodes, node))


def faces_in(past, r):
    return [(n, past.faces[n]) for n in past.opened if n in past.faces and past.faces[n].region == r]


def declared_offers(past, r, q):
    here = faces_in(past, r)
    keys = sorted({key for _, f in here for key, _ in f.queryables.values()})
    return [Offer(0 if r == LOCAL else 1, key, n, any(c for k, c in f.queryables.values() if k == key) and includes(key, q), False, 0, r)
            for key in keys if intersects(key, q) for n, f in here if any(k == key for k, _ in f.queryables.values())]


def bare_offers(past, r, src, q):
    """In North, for askers of South, the faces that may have what they have not declared."""
    if r != NORTH or src == NORTH:
        return []
    by_key = lambda f: strategy_in(past, r) == 'client' or f.bound == 'south'
    return [Offer(U16, q, n, False, True, 0, r) for n, f in faces_in(past, r) if ((q not in f.finalized) if by_key(f) else not f.initial)]


def router_offers(past, r, src, q, place):
    """One offer for each router's entry on a key that meets the request's, to the face on the way to the router."""
    network, found = past.networks.get(r, NO_NETWORK), []
    source = None if place is None else place if src == r else place_of(network, past.config.id)
    tree = at(network[1], source)
    for (key, zid), complete in sorted(past.entries.get(r, {}).items()):
        i = place_of(network, zid)
        d = at(tree.directions, i) if tree else None
        near = at(network[0], d) if d is not None and d <= U16 else None
        face = next((n for n, f in faces_in(past, r) if f.zid == near), None) if near is not None else None
        distance = at(network[2], i)
        if intersects(key, q) and face is not None and distance is not None:
            found.append(Offer(distance, key, face, complete and includes(key, q), False, source, r))
    return found


def offers_in(past, node, f, q, r):
    """What a region offers to a face that asks for a key, with a node: by distance, key and face."""
    strategy = strategy_in(past, r)
    if strategy == 'router':
        found = router_offers(past, r, f.region, q, place_in(past, node, f) if f.region == r else 0)
    elif strategy == 'broker':
        found = declared_offers(past, r, q)
    else:
        found = [] if f.region == r else declared_offers(past, r, q) + bare_offers(past, r, f.region, q)
    return sorted(found, key=lambda o: o[:3])


def source_of(past, node, f):
    return at(f.nodes, node) if strategy_in(past, f.region) == 'router' else f.zid


def passes(past, asker, node, o):
    f = past.faces[asker]
    if o.face == asker:
        return False
    if (f.region == NORTH) == (o.region == NORTH):
        return True
    region, zid = (o.region, past.faces[o.face].zid) if f.region == NORTH else (f.region, f.zid)
    listed = next((zids for z, zids in past.gateways.get(region, []) if z == zid), None)
    source = source_of(past, node, f)
    if not listed or source is None:
        return True
    return source not in listed and max(listed) == past.config.id


def chosen(target, offers):
    if target == 'complete':
        return [o for o in offers if o.complete or o.bare]
    if target == 'best':
        return [o for o in offers if o.complete][:1] or offers
    return offers


def asked_key(past, face, w):
    f = past.faces.get(face)
    q = says(w, f) if f else None
    return q if q and is_key(q) and not any(includes(d, q) for d in f.denied) else None


def select(past, face, w, target, node):
    q = asked_key(past, face, w)
    if q is None:
        return []
    regions = [[o for o in offers_in(past, node, past.faces[face], q, r) if passes(past, face, node, o)]
               for r in sorted(past.config.regions, key=region_order)]
    route = {}
    for offers in picked(past.config.best, target, regions):
        for o in offers:
            route.setdefault(o.face, o)
    return list(route.values())


def picked(best, target, regions):
    """Region by region, but the nearest complete offer of all regions where the choice is over all."""
    if best == 'overall' and target == 'best':
        complete = sorted(o for offers in regions for o in offers if o.complete)
        return [complete[:1]] if complete else regions
    return [chosen(target, offers) for offers in regions]


# ---- Expected.antt

Shown = namedtuple('Shown', 'to number reply message')


def shown(past, h):
    kind, m = h.message
    if kind == 'request' and h.to in past.faces:
        text = read_by(past.faces[h.to], m.wire)
        if text:
            m = m._replace(wire=Expression(0, 's', text))
    return Shown(h.to, h.number, h.reply, (kind, m))


def next_request(past):
    return past.start[1] + len(past.requests)


def requests_of(past, kind, v):
    if kind != 'ask':
        return []
    face, id, w, target, timeout, node, qos, content, now = v
    return [Shown(o.face, next_request(past), None, ('request', Request(past.free_id(o.face), Expression(0, 's', asked_key(past, face, w)), target, timeout, o.node, qos, content)))
            for o in select(past, face, w, target, node)]


def reply_to(f, k, wire, body, content, responder):
    return Shown(f[1], f[0], k, ('response', Response(f[2], wire, f[3], body, content, responder)))


def reply_says(past, v):
    f = past.faces.get(v[0])
    return says(v[2], f, v[3] == 'err') if f else UNSCOPED


def timed_out(past, now):
    late = sorted({(e[3], e[0], e[1]) for e in past.pending if e[3] <= now})
    return [(f, face) for _, n, face in late for f in [past.if_open(past.request(n))] if f]


def replies_of(past, kind, v):
    if kind == 'reply':
        f = past.if_open(past.owner(v[0], v[1]))
        return [reply_to(f, past.next_reply, Expression(0, 's', reply_says(past, v) or b''), v[3], v[4], v[5] if len(v) > 5 else None)] if f else []
    if kind == 'poll':
        return [reply_to(f, past.next_reply + i, Expression(0, 's', b''), 'err', b'Timeout', past.faces[face].zid if face in past.faces else None)
                for i, (f, face) in enumerate(timed_out(past, v[0]))]
    return []


def finals_of(past, after, kind, v, t):
    open_to = [f for f in past.requests if past.waits(f[0])] + after.requests[len(past.requests):]
    return [Shown(f[1], f[0], None, ('final', Final(f[2], f[3]))) for f in open_to if not after.waits(f[0]) and f[1] not in after.closed]


# ---- Refusals.antt

def no_key(s):
    return [(s is UNSCOPED, 'UnknownScope'), (not (s and is_key(s)), 'InvalidKeyExpr')]


def is_plain(text):
    return is_key(text) and not any(c[:1] == b'@' or set(c) & set(b'*$') for c in text.split(b'/'))


def causes(past, kind, v, lacks_told):
    c, f = past.config, past.faces.get(v[0]) if kind not in ('open', 'sent', 'poll', 'gateways', 'network') else None
    unknown = (f is None, 'UnknownFace')
    if kind == 'open':
        region, _, _, space, barred, denied = v
        return [(region not in c.regions, 'UnknownRegion'), (space is not None and not is_plain(space) or not all(map(is_key, barred + denied)), 'InvalidKeyExpr'),
                (region == NORTH and c.north_mode == 'client' and any(g.region == NORTH for g in past.faces.values()), 'UpstreamInUse'),
                (past.start[0] + len(past.opened) + 1 == 2 ** 32, 'NoFreeId'), (lacks_told, 'NoFreeId')]
    if kind == 'sent':
        return [(not any(k == v[0] for _, k in past.in_flight), 'NotInFlight')]
    if kind == 'poll':
        return [(past.next_reply + len(timed_out(past, v[0])) > U64, 'NoFreeId')]
    if kind in ('gateways', 'network'):
        return [(v[0] not in c.regions, 'UnknownRegion')]
    if f is None:
        return [unknown]
    routes = strategy_in(past, f.region) == 'router'
    said = lambda w: says(w, f)
    no_router = lambda node: (source_of(past, node, f) in (None, c.id), 'UnknownRouter')
    if kind == 'key':
        s = said(v[2])
        return [*no_key(s), (v[1] == 0 or f.theirs.get(v[1], s) != s, 'Remapped')]
    if kind == 'unkey':
        return [(v[1] not in f.theirs, 'UnknownId')]
    if kind == 'queryable':
        s = said(v[2])
        return [*no_key(s), no_router(v[5]) if routes else (v[1] in f.queryables and f.queryables[v[1]][0] != s, 'IdInUse'), (lacks_told, 'NoFreeId')]
    if kind == 'unqueryable':
        if not routes:
            return [(v[1] not in f.queryables, 'UnknownId')]
        s = said(v[2]) if v[2] is not None else b''
        return [*no_key(s), no_router(v[3]), ((s, at(f.nodes, v[3])) not in past.entries.get(f.region, {}), 'UnknownId')]
    if kind == 'interest':
        s = said(v[2]) if v[2] is not None else None
        return [*(no_key(s) if v[2] is not None else []), (v[1] in f.interests and f.interests[v[1]] != s, 'IdInUse'), (lacks_told, 'NoFreeId')]
    if kind == 'uninterest':
        return [(v[1] not in f.interests, 'UnknownId')]
    if kind == 'finalize':
        return [(v[1] == 'key' and not is_key(v[2]), 'InvalidKeyExpr')]
    if kind == 'ask':
        return [(next_request(past) + 1 == 2 ** 64, 'NoFreeId')]
    if kind == 'reply':
        s = reply_says(past, v)
        return [(s is UNSCOPED, 'UnknownScope'), (not past.is_taken(v[0], v[1]), 'QueryNotFound'), (not (s == b'' or s and is_key(s)), 'InvalidKeyExpr'),
                (past.if_open(past.owner(v[0], v[1])) is not None and past.next_reply + 1 > U64, 'NoFreeId')]
    if kind == 'final':
        return [(not past.is_taken(v[0], v[1]), 'QueryNotFound')]
    return []


def granted(past, kind, v):
    if kind == 'open':
        return ('opened', str(past.start[0] + len(past.opened)))
    if kind == 'ask':
        return ('asked', str(next_request(past)))
    if kind == 'reply':
        return ('replied', str(past.next_reply) if past.if_open(past.owner(v[0], v[1])) else '-')
    return ('done',)


# ---- Headline.antt

def first_failure(past, after, kind, v, t):
    """The first sentence that the step does not keep."""
    # that too few ids are left for what faces are told is left to a parameter: here it is taken from the print, where they are near their end
    lacks_told = t.outcome == ('refused', 'NoFreeId') and past.start[3] > 2 ** 32 - 2 ** 10
    cause = next((name for holds, name in causes(past, kind, v, lacks_told) if holds), None)
    if t.outcome != (('refused', cause) if cause else granted(past, kind, v)):
        return f'answered: {" ".join(("refused", cause) if cause else granted(past, kind, v))}'
    accepted = is_accepted(t)
    if not accepted and t.handed:
        return 'silent'
    of_kind = lambda k: [h for h in t.handed if KINDS.get(h.message[0], 3) == k]
    for k, name, wanted in ((0, 'requests', requests_of(past, kind, v)), (1, 'replies', replies_of(past, kind, v)), (2, 'finals', finals_of(past, after, kind, v, t))):
        if [shown(past, h) for h in of_kind(k)] != (wanted if accepted else []):
            return name
    if any(h.number is not None or h.reply is not None for h in of_kind(3)):
        return 'apart'
    return None if of_kind(0) + of_kind(1) + of_kind(2) + of_kind(3) == t.handed else 'ordered'


def check(script, text):
    """None, or the number of the call whose step fails first, from 1 on, and the sentence."""
    lines = script.split(b'\n')
    if lines[-1] == b'':
        lines.pop()
    config, calls = read_script(lines)
    steps = read_print(text)
    past = Trace(config)
    for i, ((kind, v), t) in enumerate(zip(calls, steps), 1):
        after = copy.deepcopy(past)
        after.then(kind, v, t)
        failure = first_failure(past, after, kind, v, t)
        if failure:
            return i, failure
        past = after
    return None if len(calls) == len(steps) else (min(len(calls), len(steps)) + 1, 'as many steps as calls')


if __name__ == '__main__':
    if len(sys.argv) != 3:
        sys.exit('usage: fuzz/headline.py SCRIPT PRINT')
    found = check(open(sys.argv[1], 'rb').read(), open(sys.argv[2], 'rb').read())
    print('holds' if not found else f'call {found[0]}: {found[1]}')
    sys.exit(1 if found else 0)

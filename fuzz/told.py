#!/usr/bin/env python3
"""What faces are told, as a checker of a recorded run: the definitions of crates/zq_trace/specs, written out in Python.

usage: fuzz/told.py SCRIPT PRINT

Says `holds`, or at which call which sentence fails first, and of which face; the status is then 1. The print may be any
gateway's. Faces in regions of routers are left out.
"""
import copy
import sys
from collections import namedtuple

from faces import Info
from headline import Trace, at, is_accepted, place_of, read_by, read_print, says, strategy_in
from keys import includes, intersects
from words import NORTH, expression, read_script, u16, u32

Asked = namedtuple('Asked', 'key aggregate')
Told = namedtuple('Told', 'key id info interest')     # no info is a withdrawal


class Past(Trace):
    """The past, with the informations of what was declared, what faces ask for, and what their receivers keep."""

    def __init__(self, config):
        super().__init__(config)
        self.infos, self.routed, self.asked, self.kept = {}, {}, {}, {}

    def then(self, kind, v, t):
        if is_accepted(t) and kind in ('queryable', 'unqueryable', 'interest', 'uninterest') and v[0] in self.faces:
            self.note(kind, v, self.faces[v[0]])
        super().then(kind, v, t)
        if is_accepted(t) and kind == 'close':
            for table in (self.infos, self.asked, self.kept):
                table.pop(v[0], None)
        if is_accepted(t) and kind == 'network':
            listed = self.networks[v[0]][0]
            self.routed[v[0]] = {k: i for k, i in self.routed.get(v[0], {}).items() if k[1] in listed}

    def note(self, kind, v, f):
        if kind == 'interest':
            self.asked.setdefault(v[0], {})[v[1]] = Asked(None if v[2] is None else says(v[2], f), v[4:] == ('a',))
        elif kind == 'uninterest':
            self.asked[v[0]].pop(v[1])
        elif strategy_in(self, f.region) == 'router':
            entries = self.routed.setdefault(f.region, {})
            entry = (says(v[2], f), at(f.nodes, v[-1]))
            entries.pop(entry, None)
            if kind == 'queryable':
                entries[entry] = Info(v[3] == 'p', v[4])
        else:
            queryables = self.infos.setdefault(v[0], {})
            queryables.pop(v[1], None)
            if kind == 'queryable':
                queryables[v[1]] = says(v[2], f), Info(v[3] == 'p', v[4])


# ---- Due.antt

def least(pairs):
    """The least of the informations on each key."""
    infos = {}
    for key, info in pairs:
        infos[key] = min(info, infos.get(key, info))
    return infos


def infos_of(past, r):
    """What a region has on each key."""
    routed = [(key, info) for (key, _), info in past.routed.get(r, {}).items()]
    return least(routed + [x for n, f in past.faces.items() if f.region == r for x in past.infos.get(n, {}).values()])


def hears(past, n):
    """What a face hears on each key: of other regions, and of its fellows where they hear of one another."""
    f = past.faces[n]
    others = [x for r in past.config.regions if r != f.region for x in infos_of(past, r).items()]
    among = strategy_in(past, f.region) == 'broker'
    return least(others + [x for m, g in past.faces.items() if among and m != n and g.region == f.region for x in past.infos.get(m, {}).values()])


def folded(heard, key):
    """One information for all keys that meet the key: a part is complete where its key includes it."""
    return min((Info(i.partial or not includes(k, key), i.distance) for k, i in heard.items() if intersects(k, key)), default=None)


def due(past, n):
    """What is due to a face outside regions of routers, by key."""
    heard, asked = hears(past, n), past.asked.get(n, {}).values()
    if past.faces[n].region == NORTH:
        return heard
    entries = {a.key for a in asked if a.aggregate and a.key is not None}
    plain = [a for a in asked if not a.aggregate or a.key is None]
    wanted = {k: i for k, i in heard.items() if k not in entries and any(a.key is None or intersects(a.key, k) for a in plain)}
    return wanted | {k: i for k in entries for i in [folded(heard, k)] if i}


def neighbours(past):
    return [n for n, f in past.faces.items() if strategy_in(past, f.region) != 'router']


# ---- Told.antt

def read_told(face, kept, handed):
    """What a face is told by what it is handed, each message read by the numbers given before, and the ends of answers."""
    told, ends, numbers = [], [], copy.copy(face)
    numbers.ours = dict(face.ours)
    for kind, rest in handed:
        if kind == 'key':
            numbers.ours[rest[0]] = rest[1].suffix
        elif kind == 'queryable':
            interest = None if rest[5] == b'-' else u32(rest[5])
            told.append(Told(read_by(numbers, expression(rest[1])), u32(rest[0]), Info(rest[2] == b'p', u16(rest[3])), interest))
        elif kind == 'unqueryable':
            told.append(Told(kept.get(u32(rest[0]), (None,))[0], u32(rest[0]), None, None))
        elif kind == 'declfinal':
            ends.append(None if rest[0] == b'-' else u32(rest[0]))
    return told, ends


def first_failure(past, after, kind, v, t):
    """The first face and sentence that the step does not keep; and what receivers keep after it."""
    keeps = {}
    if not is_accepted(t):
        return (t.handed[0].to, 'silent', keeps) if t.handed else (None, None, keeps)
    for n in neighbours(after):
        had, has = (due(past, n) if n in past.faces else {}), due(after, n)
        face = past.faces.get(n, after.faces[n])
        kept = dict(past.kept.get(n, {})) if n in past.faces else {}
        told, ends = read_told(face, kept, [h.message for h in t.handed if h.to == n])
        anew = kind in ('interest', 'uninterest') and v[0] == n
        asked = after.asked[n][v[1]] if anew and kind == 'interest' else None
        answers = [] if asked is None else [k for k in has if (k == asked.key if asked.aggregate and asked.key is not None else asked.key is None or intersects(asked.key, k))]
        news = [k for k in {*had, *has} if had.get(k) != has.get(k) and k not in answers and not (anew and k not in has)]
        expected = sorted([(k, has.get(k), None) for k in news] + [(k, has[k], v[1]) for k in answers], key=lambda x: x[0])
        if [(x.key, x.info, x.interest) for x in told] != expected:
            return n, 'difference', keeps
        if ends != ([v[1]] if asked is not None else []):
            return n, 'ends', keeps
        if anew:
            kept = {i: x for i, x in kept.items() if x[0] in has}
        for x in told:
            ids = [i for i, y in kept.items() if y[0] == x.key]
            if ids != [x.id] and (ids or x.id in kept or x.info is None):
                return n, 'ids', keeps
            kept.pop(x.id, None)
            if x.info is not None:
                kept[x.id] = x.key, x.info
        if sorted(kept.values()) != sorted(has.items()):
            return n, 'keeps', keeps
        keeps[n] = kept
    return None, None, keeps


def check(script, text):
    """None, or the number of the call whose step fails first, from 1 on, the face and the sentence."""
    lines = script.split(b'\n')
    if lines[-1] == b'':
        lines.pop()
    config, calls = read_script(lines)
    past = Past(config)
    for i, ((kind, v), t) in enumerate(zip(calls, read_print(text)), 1):
        after = copy.deepcopy(past)
        after.then(kind, v, t)
        face, failure, keeps = first_failure(past, after, kind, v, t)
        if failure:
            return i, face, failure
        after.kept.update(keeps)
        past = after
    return None


if __name__ == '__main__':
    if len(sys.argv) != 3:
        sys.exit('usage: fuzz/told.py SCRIPT PRINT')
    found = check(open(sys.argv[1], 'rb').read(), open(sys.argv[2], 'rb').read())
    print('holds' if not found else f'call {found[0]}: face {found[1]}: {found[2]}')
    sys.exit(1 if found else 0)

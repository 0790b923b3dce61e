"""What faces declare, and what their neighbours are told of it."""

from collections import namedtuple
from contextlib import contextmanager
from itertools import takewhile

from faces import Info, Interest, Known, Refused, refuse
from keys import includes, intersects
from spaces import Message
from words import NORTH, U16, U32, Expression

# What a face is told of a key: under which id, and, where it is asked for, by which interest. No info is a withdrawal.
Telling = namedtuple('Telling', 'face key node id info interest', defaults=[None])


@contextmanager
def kept(table):
    """A table that is as before where what is done with it is refused."""
    before = dict(table)
    try:
        yield
    except Refused:
        table.clear()
        table.update(before)
        raise


def merged(pairs):
    """The least of the informations on each key."""
    infos = {}
    for key, info in pairs:
        infos[key] = min(info, infos.get(key, info))
    return infos


def folded(heard, key):
    """One information for all keys that meet the key, if there is any: a part is complete where its key includes it."""
    parts = [Info(info.partial or not includes(part, key), info.distance)
             for part, info in heard.items() if intersects(part, key)]
    return min(parts, default=None)


def front(key):
    """The chunks before the first one that is wild."""
    return b'/'.join(takewhile(lambda chunk: b'*' not in chunk, key.split(b'/')))


def at(items, place):
    """What stands at a place, if anything does."""
    return items[place] if place is not None and place < len(items) else None


class Network(namedtuple('Network', 'nodes trees distances')):
    """The ids of routers, and of each of them its tree and how far it is."""

    def place(self, router):
        """The first place of an id, if a message can name it."""
        place = self.nodes.index(router) if router in self.nodes else None
        return None if place is None or place > U16 else place

    def ids(self, tree):
        """The ids of a tree's children, where a message can name their places."""
        return [at(self.nodes, child) for child in tree.children if child < len(self.nodes) and child <= U16]

    def children(self, root):
        """The ids of the children of a router's tree."""
        tree = at(self.trees, self.place(root))
        return self.ids(tree) if tree else []

    def way(self, source, router):
        """The next router on the way to one, in the tree at a place, and how far that one is."""
        place, tree = self.place(router), at(self.trees, source)
        direction = at(tree.directions, place) if tree else None
        near = at(self.nodes, direction) if direction is not None and direction <= U16 else None
        return near, at(self.distances, place)


class Declared:
    """The part of a gateway that has what was declared, and tells it.

    Whom a call has to tell what is worked out after it, from all that stands then.
    """

    def face(self, number):
        refuse('UnknownFace', number not in self.faces)
        return self.faces[number]

    def faces_of(self, where):
        return [face for face in self.faces.values() if face.region == where]

    def on_queryable(self, face, queryable, written, complete, distance, node):
        """An id keeps its key until it is withdrawn; whether it is complete may change."""
        face = self.face(face)
        key = face.says_key(written)
        info = Info(complete == 'p', distance)
        if face.region in self.routed:
            return self.announce(face, self.router(face, node), key, info)
        refuse('IdInUse', face.queryables.get(queryable, (key,))[0] != key)
        with kept(face.queryables):
            face.queryables[queryable] = key, info
            self.need_ids()

    def on_unqueryable(self, face, queryable, written, node):
        """The id says what is withdrawn; for routers key and router do. What was asked stays pending."""
        face = self.face(face)
        if face.region in self.routed:
            key = face.says_key(written)
            router = self.router(face, node)
            refuse('UnknownId', (key, router) not in self.entries[face.region])
            return self.announce(face, router, key, None)
        refuse('UnknownId', queryable not in face.queryables)
        del face.queryables[queryable]

    def infos(self, where):
        """What a region has on each key, merged."""
        entries = [(key, info) for (key, _), info in self.entries.get(where, {}).items()]
        return merged(entries + [pair for face in self.faces_of(where) for pair in face.queryables.values()])

    def elsewhere(self, where):
        """What the other regions have on each key, merged."""
        others = [other for other in self.config.regions if other != where]
        return merged(pair for other in others for pair in self.infos(other).items())

    # Faces outside regions of routers

    def on_interest(self, face, interest_id, written, numbers, aggregate=''):
        """All that is due and that it asks for is told, known or not, and that this was all. An id keeps its key.

        What is due no more is forgotten, and not withdrawn: the interest may have asked in another way before.
        """
        face = self.face(face)
        interest = Interest(None if written is None else face.says_key(written), numbers == 'k', aggregate == 'a')
        refuse('IdInUse', face.interests.get(interest_id, interest).key != interest.key)
        with kept(face.interests):
            face.interests[interest_id] = interest
            self.need_ids()
        due = self.forget(face)
        for key in sorted(due):
            if key == interest.key if interest.folds() else interest.meets(key):
                self.inform(face, key, due[key], interest_id)
        self.ends.append((face.number, Message('declfinal', interest_id, None, [])))

    def on_uninterest(self, face, interest_id):
        """What is due no more is forgotten, and not withdrawn. What stays due with other information is told."""
        face = self.face(face)
        refuse('UnknownId', interest_id not in face.interests)
        del face.interests[interest_id]
        self.forget(face)

    def forget(self, face):
        """What is due to the face; it does not know anything else any more."""
        due = self.due(face)
        face.known = {key: known for key, known in face.known.items() if key in due}
        return due

    def heard(self, face):
        """What others have on each key: other regions, and among applications and clients the other faces."""
        fellows = []
        if face.region != NORTH and self.config.mode(face.region) != 'peer':
            fellows = [other for other in self.faces_of(face.region) if other is not face]
        pairs = [pair for fellow in fellows for pair in fellow.queryables.values()]
        return merged([*self.elsewhere(face.region).items(), *pairs])

    def due(self, face):
        """What a face has to know: in North all that it hears, elsewhere what an interest asks for, of routers none."""
        if face.region in self.routed:
            return {}
        heard, asked = self.heard(face), face.interests.values()
        if face.region == NORTH:
            return heard
        due = {key: info for key, info in heard.items() if any(interest.asks(key) for interest in asked)}
        entries = {interest.key: folded(heard, interest.key) for interest in asked if interest.folds()}
        return due | {key: info for key, info in entries.items() if info}

    def need_ids(self):
        """Each key that a face does not know yet takes an id, and each id is given once, the last one too."""
        for face in self.faces.values():
            new = [key for key in self.due(face) if key not in face.known]
            refuse('NoFreeId', len(new) > U32 - face.last_known)

    def inform(self, face, key, info, interest_id=None):
        """A key that is known has its id, a new one the next."""
        if key not in face.known:
            face.last_known += 1
        known_id = face.known[key].id if key in face.known else face.last_known
        face.known[key] = Known(known_id, info)
        self.tellings.add(Telling(face.number, key, 0, known_id, info, interest_id))

    def tell_due(self):
        """Each face is told what it has to know and does not, and what it knows and has not to."""
        for face in self.faces.values():
            due = self.due(face)
            for key in sorted({*due, *face.known}):
                if key not in due:
                    self.tellings.add(Telling(face.number, key, 0, face.known.pop(key).id, None))
                elif key not in face.known or face.known[key].info != due[key]:
                    self.inform(face, key, due[key])

    # Routers

    def on_nodes(self, face, table):
        """The ids that the numbers of a face's messages stand for."""
        self.face(face).nodes = table

    def on_network(self, where, nodes, trees, distances):
        """Entries of routers that are not listed go. New children of a tree are told what its root has."""
        refuse('UnknownRegion', where not in self.config.regions)
        if where not in self.routed:
            return
        old, new = self.networks[where], Network(nodes, trees, distances)
        self.networks[where] = new
        self.entries[where] = {entry: info for entry, info in self.entries[where].items() if entry[1] in nodes}
        for root, tree in zip(nodes, trees[: U16 + 1]):
            fresh = [child for child in new.ids(tree) if child not in old.children(root)]
            for key, info in self.standing(where, root).items():
                self.tell(where, fresh, root, key, info)

    def router(self, face, node):
        """The router that declares: one of the face's table, and not this gateway."""
        router = at(face.nodes, node)
        refuse('UnknownRouter', router in (None, self.config.id))
        return router

    def announce(self, face, router, key, info):
        """A router's entry comes or goes, which the children of its tree are told."""
        entries = self.entries[face.region]
        with kept(entries):
            entries[key, router] = info
            if info is None:
                del entries[key, router]
            self.need_ids()
        self.tell(face.region, self.networks[face.region].children(router), router, key, info, face)

    def standing(self, where, root):
        """What a router has declared, or the gateway has, on each key."""
        if root == self.config.id:
            return self.elsewhere(where)
        return {key: info for (key, router), info in self.entries[where].items() if router == root}

    def tell_own(self, before):
        """The children of the gateway's own tree are told what it has now and had not."""
        for where, had in before.items():
            has, children = self.elsewhere(where), self.networks[where].children(self.config.id)
            for key in had | has:
                if had.get(key) != has.get(key):
                    self.tell(where, children, self.config.id, key, has.get(key))

    def face_of(self, where, router):
        """The first face of a router."""
        return next((face for face in self.faces_of(where) if face.id == router), None)

    def tell(self, where, children, root, key, info, source=None):
        """Each child's face is told, but for the one that said it."""
        place = self.networks[where].place(root)
        for face in [self.face_of(where, child) for child in children]:
            if face and face is not source and place is not None:
                self.tellings.add(Telling(face.number, key, place, 0, info))

    # Lines

    def declarations(self):
        """What is told, by face, key and node, and the ends of answers."""
        tellings = sorted(self.tellings, key=lambda telling: (telling.face, telling.key, telling.node))
        told = [(telling.face, message) for telling in tellings for message in self.messages(telling)]
        return [line for face, message in told + self.ends for line in self.out(face, f'> {face} - -', message)[0]]

    def out(self, face, head, message, key=None):
        """The lines of a message, with what leaves where that differs; and whether anything does."""
        left = self.faces[face].exit.leaves(message, key)
        lines = [f'{head} {message.line()}']
        if left != message:
            lines.append(f'< {left.line() if left else "-"}')
        return lines, left is not None

    def messages(self, telling):
        """A withdrawal has a key among routers alone. The number of a key comes right before its first use."""
        face, info, node = self.faces[telling.face], telling.info, str(telling.node)
        part = front(telling.key)
        if info is None and face.region not in self.routed:
            return [Message('unqueryable', telling.id, None, [node])]
        given = face.gives_number(part)
        numbered = [Message('key', given, Expression(0, 's', part), [])] if given else []
        key = face.declares(telling.key, part)
        if info is None:
            return numbered + [Message('unqueryable', telling.id, key, [node])]
        interest = '-' if telling.interest is None else str(telling.interest)
        rest = ['cp'[info.partial], str(info.distance), node, interest]
        return numbered + [Message('queryable', telling.id, key, rest)]

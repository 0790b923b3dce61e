#!/usr/bin/env python3
"""A request/reply bus in one process: storages answer, clients get. The proved gateway decides who is asked and when it ends."""
from collections import deque

import zq


class Post:
    """A gateway, its faces by number, and the messages that are still to be sent."""

    def __init__(self):
        self.gateway, self.faces, self.ready = zq.Gateway('config 1 10000 north:client local'), {}, deque()

    def make(self, answer):
        """Takes what a call handed; its outcome."""
        self.ready.extend(answer.messages)
        return answer.outcome

    def attach(self, face):
        number = self.make(self.gateway.open('local', 100 + len(self.faces)))
        self.faces[number] = face
        return number

    def deliver(self):
        """Sends until nothing is left; a reply is reported as sent once its face has it."""
        while self.ready:
            message = self.ready.popleft()
            if message.leaves:
                self.faces[message.face].take(message.leaves)
            if message.reply is not None:
                self.make(self.gateway.sent(message.reply))


class Storage:
    """Holds values by key, and answers each request by those whose keys meet its key."""

    def __init__(self, post, key, pairs):
        self.post, self.pairs, self.face = post, pairs, post.attach(self)
        post.make(post.gateway.queryable(self.face, 1, key))

    def take(self, request):
        for key, value in self.pairs.items():
            if zq.keys_meet(request.key.suffix, key):
                self.post.make(self.post.gateway.reply(self.face, request.id, key, value))
        self.post.make(self.post.gateway.final(self.face, request.id))


class Client:
    """Gets: asks, and gathers replies until the one final."""

    def __init__(self, post):
        self.post, self.face, self.got, self.ended = post, post.attach(self), [], False

    def take(self, message):
        if isinstance(message, zq.Response):
            self.got.append((message.key.suffix, message.payload.decode()))
        else:
            self.ended = True

    def get(self, key):
        self.got, self.ended = [], False
        self.post.make(self.post.gateway.ask(self.face, 1, key))
        self.post.deliver()
        assert self.ended, 'the gateway owes the final'
        return self.got


if __name__ == '__main__':
    post = Post()
    Storage(post, 'demo/a/**', {'demo/a/x': '1', 'demo/a/y': '2'})
    Storage(post, 'demo/b/**', {'demo/b/x': '3'})
    for client, key in zip([Client(post) for _ in range(3)], ('demo/**', 'demo/*/x', 'other')):
        print(key, client.get(key))

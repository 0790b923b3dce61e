#!/usr/bin/env python3
"""The scripts that bench/run times, by name: `bench/scripts.py load` prints one.

Each generator here makes a script, line by line; the number that some take says how many requests, keys or faces.
"""

import inspect
import sys

CONFIG = 'config 1 10000 north:client local'


def faces(count, gate='-'):
    """The head of a script, with so many faces, from number 0 on, each with this namespace and these deny lists."""
    yield CONFIG
    for face in range(count):
        yield f'open local {face + 10} client north {gate}'


# Four scripts of 200,000 lines

def load(requests=49_996, gate='-'):
    """Eight faces, of which four declare. Each request is replied to, ended and reported as sent before the next."""
    yield from faces(8, gate)
    for face in range(4):
        yield f'queryable {face} 1 0:s:load/{face}/** c 0 0'
    for i in range(requests):
        yield from exchange(4 + i % 4, i % 4, i, i // 4 + 1, i, f'load/{i % 4}/{i}')


def exchange(asker, face, number, pending_id, reply, key):
    """A request with its one reply and its end."""
    return (f'ask {asker} {number} 0:s:{key} all - 0 0 {number} {number}',
            f'reply {face} {pending_id} 0:s:{key} ok {number}', f'final {face} {pending_id}', f'sent {reply}')


def fanout(requests=9_514):
    """A hundred faces declare one key. Each request is handed to all; ten of them, in turn, reply and end."""
    yield from faces(101)
    for face in range(100):
        yield f'queryable {face} 1 0:s:k/** c 0 0'
    for i in range(requests):
        yield f'ask 100 {i} 0:s:k/0 all - 0 0 hi {i}'
        for face in range(10 * i, 10 * i + 10):
            yield f'reply {face % 100} {i + 1} 0:s:k/0 ok yo'
            yield f'final {face % 100} {i + 1}'


def keys(requests=179_979):
    """Twenty faces declare 20,000 keys, of which each eleventh has a `*`. Half of the requests ask on what is not declared."""
    yield from faces(20)
    for n in range(20_000):
        middle = '*' if n % 11 == 10 else f'r{n // 10}'
        yield f'queryable {n % 20} {n} 0:s:h{n // 10}/{middle}/t{n % 10} {"cp"[n % 2]} 0 0'
    for i in range(requests):
        n = i * 7919 % 40_000
        middle = (f'r{n // 10}', '*', '**')[i % 3]
        target = ('all', 'complete', 'best')[i // 3 % 3]
        yield f'ask {i % 20} {i} 0:s:h{n // 10}/{middle}/t{n % 10} {target} - 0 0 - 0'


def timeouts(requests=66_665):
    """Requests that stay open side by side, each with a deadline of its own. Then polls, each of which lets one target go,
    and after each the report that its error was sent."""
    yield from faces(2)
    yield 'queryable 0 1 0:s:k c 0 0'
    for i in range(requests):
        yield f'ask 1 {i} 0:s:k all {i + 1} 0 0 hi 0'
    for i in range(requests):
        yield f'poll {i + 1}'
        yield f'sent {i}'


def again(requests=200_000, asked=1_000, declared=100_000):
    """Twenty faces declare keys, of which each third has a `*`, and ask again and again on some of them."""
    def name(n):
        return f'h{n // 10}/{"*" if n % 3 == 2 else f"r{n // 10}"}/t{n % 10}'

    yield from faces(20)
    for n in range(declared):
        yield f'queryable {n % 20} {n} 0:s:{name(n)} {"cp"[n % 2]} 0 0'
    for i in range(requests):
        yield f'ask {i % 20} {i} 0:s:{name(i * 7919 % asked)} {("all", "complete", "best")[i // 3 % 3]} - 0 0 - 0'


# What one more costs: of each pair the first script has so many, and the second the same and CALLS more

CALLS = 100_000


def open_requests(count):
    """So many open requests."""
    yield from faces(2)
    yield 'queryable 0 1 0:s:k c 0 0'
    for i in range(count):
        yield f'ask 1 {i} 0:s:k all - 0 0 hi 0'


def open_requests_more(count):
    yield from open_requests(count)
    for i in range(CALLS // 2):
        yield from exchange(1, 0, count + i, count + i + 1, i, 'k')


def key(n):
    return f'building/{n % 10}/floor/{n % 100}/sensor/{n}'


def declared(count):
    """So many keys of one face."""
    yield from faces(2)
    for n in range(count):
        yield f'queryable 0 {n} 0:s:{key(n)} c 0 0'


def declared_and_withdrawn(count):
    yield from declared(count)
    for n in range(CALLS):
        yield f'queryable 0 {count + n} 0:s:{key(count + n)} c 0 0'
        yield f'unqueryable 0 {count + n} - 0'


def declared_and_asked(count):
    yield from declared(count)
    for i in range(CALLS):
        yield f'ask 1 {i} 0:s:{key(i * 7919 % count)} all - 0 0 - 0'


def asked_once(count):
    """So many keys of one face, each of which is asked for once, so that what is offered on it is kept."""
    yield from declared(count)
    for n in range(count):
        yield f'ask 1 {n} 0:s:{key(n)} all - 0 0 - 0'


def asked_once_and_declared(count):
    yield from asked_once(count)
    for n in range(CALLS // 4):
        yield f'queryable 0 {count + n} 0:s:{key(count + n)} c 0 0'
        yield f'unqueryable 0 {count + n} - 0'


def on_one_key(count):
    """So many queryables on one key."""
    yield from faces(1)
    for n in range(count):
        yield f'queryable 0 {n} 0:s:k c 0 0'


def on_one_key_and_withdrawn(count):
    yield from on_one_key(count)
    for n in range(CALLS):
        yield f'queryable 0 {count + n} 0:s:k c 0 0'
        yield f'unqueryable 0 {count + n} - 0'


def numbers(count):
    """So many numbers for keys, half of them at each of two faces."""
    yield from faces(2)
    for n in range(count):
        yield f'key {n % 2} {n // 2 + 1} 0:s:{key(n)}'


def numbers_and_given_back(count):
    yield from numbers(count)
    for n in range(count, count + CALLS):
        yield f'key 0 {count // 2 + 1} 0:s:{key(n)}'
        yield f'unkey 0 {count // 2 + 1}'


def faces_with_one(count):
    """So many faces, of which one declares."""
    yield from faces(count)
    yield 'queryable 0 1 0:s:k c 0 0'


def faces_and_asked(count):
    yield from faces_with_one(count)
    for i in range(CALLS):
        yield f'ask {i * 7919 % (count - 1) + 1} {i} 0:s:k all - 0 0 hi 0'


# The same beside routers, which the baseline does not have

def routed(count):
    """A gateway between two routers, of which one has so many keys, and an application."""
    yield 'config 1 10000 north:router local'
    yield 'open north 2 router north -'
    yield 'open north 3 router north -'
    yield 'open local 10 client north -'
    yield 'nodes 0 2'
    yield 'network north 1,2,3 1,2/x,1,2;2/x,x,2;1/x,1,x 0,10,20'
    for n in range(count):
        yield f'queryable 0 0 0:s:{key(n)} c 0 0'


def routed_and_withdrawn(count):
    """Half as many calls as elsewhere: a script has a greatest length."""
    yield from routed(count)
    for n in range(count, count + CALLS // 2):
        yield f'queryable 0 0 0:s:{key(n)} c 0 0'
        yield f'unqueryable 0 0 0:s:{key(n)} 0'


def routed_and_declared(count):
    """The application declares and withdraws, and both routers are told."""
    yield from routed(count)
    for n in range(CALLS):
        yield f'queryable 2 1 0:s:{key(n)} p 0 0'
        yield 'unqueryable 2 1 - 0'


def routed_and_asked(count):
    yield from routed(count)
    for i in range(CALLS):
        yield f'ask 2 {i} 0:s:{key(i * 7919 % count)} all - 0 0 - 0'


def networks(routers=1_000, keys=10_000, times=10):
    """Routers that have keys; the network is put in place again and again, with another child in its last tree."""
    yield 'config 1 10000 north:router local'
    for face in range(10):
        yield f'open north {face + 2} router north -'
        yield f'nodes {face} {",".join(str(zid) for zid in range(2, routers + 2))}'
    for n in range(keys):
        yield f'queryable {n % 10} 0 0:s:{key(n)} c 0 {n % routers}'
    nodes = ','.join(str(zid) for zid in range(1, routers + 2))
    far = ','.join('1' for _ in range(routers + 1))
    tree = f'1,2,3/{",".join(str(place % 10 + 1) for place in range(routers + 1))}'
    for i in range(times):
        yield f'network north {nodes} {";".join([tree] * 19 + [f"{i % 10 + 1}/x"])} {far}'


# Neighbours that are told

def told(calls=20_000, aggregate=''):
    """Sixty faces in four regions, all with an interest but the first. Each in turn declares one of 130 keys, twice, and
    withdraws the first. Every other interest may aggregate."""
    yield 'config 1 10000 north:peer local south:0:client south:1:peer'
    for n in range(60):
        yield f'open {("north", "local", "south:0:client", "south:1:peer")[n % 4]} {n + 10} client north -'
    for n in range(1, 60):
        asked = (f'a/{n % 10}/*', '**/t1', 'a/**')[(n - 1) % 3]
        yield f'interest {n} 1 0:s:{asked} {"nk"[n % 5 == 0]}{aggregate if n % 2 == 0 else ""}'
    for n in range(calls):
        turn, face = divmod(n, 60)
        if turn % 3 == 2:
            yield f'unqueryable {face} {turn - 2} - 0'
        else:
            yield f'queryable {face} {turn} 0:s:a/{turn % 10}/t{n % 13} {"cpp"[n % 3]} {n % 5} 0'


def named(turns=2_500):
    """An upstream that is told, an application and a client: numbers given and taken back, and keys of many chunks."""
    yield from ('config 1 10000 north:client local south:0:client', 'open local 10 client north -',
                'open south:0:client 11 client north -', 'open north 12 router south -',
                'queryable 0 1 0:s:x/** c 0 0', 'interest 1 1 - k')
    for n in range(turns):
        yield f'key {n % 3} {n % 50 + 1} 0:s:x/{n}'
        yield f'queryable 0 {n + 2} 0:s:x/{n}/y/z/q{n % 3} p 0 0'
        yield from (f'ask {1 + i % 2} {4 * n + i} 0:s:x/{4 * n + i}/y/q1 all - 0 0 - 0' for i in range(4))
        yield f'unkey {n % 3} {n % 50 + 1}'
        yield f'unqueryable 0 {n + 2} - 0'


def under_upstream(count):
    """A gateway's face to its router, and an application that has so many keys, each of which the router is told."""
    yield CONFIG
    yield 'open north 99 router south -'
    yield 'open local 10 client north -'
    for n in range(count):
        yield f'queryable 1 {n} 0:s:{key(n)} c 0 0'


def under_upstream_and_withdrawn(count):
    yield from under_upstream(count)
    for n in range(count, count + CALLS):
        yield f'queryable 1 {n} 0:s:{key(n)} c 0 0'
        yield f'unqueryable 1 {n} - 0'


def asked(count, declared=0):
    """So many faces, each of which asks for one key that nobody has, and one that then declares keys."""
    yield from faces(count + 1)
    for face in range(count):
        yield f'interest {face} 1 0:s:asked/{face} n'
    for n in range(declared):
        yield f'queryable {count} {n} 0:s:{key(n)} c 0 0'


def asked_and_withdrawn(count):
    """What is declared is asked for by nobody."""
    yield from asked(count)
    for n in range(CALLS):
        yield f'queryable {count} {n} 0:s:{key(n)} c 0 0'
        yield f'unqueryable {count} {n} - 0'


def heard_and_withdrawn(count):
    """What is declared is asked for by one of them."""
    yield from asked(count)
    for n in range(CALLS):
        yield f'queryable {count} {n} 0:s:asked/{n * 7919 % count} c 0 0'
        yield f'unqueryable {count} {n} - 0'


def letters(n):
    """The nth of `a` to `z`, `aa` to `zz`, and so on."""
    word = ''
    while n >= 0:
        word, n = chr(ord('a') + n % 26) + word, n // 26 - 1
    return word


def folded(count, declared=0):
    """A face that asks for one entry on each of so many keys `a/*`, and one that then declares keys under them."""
    yield from faces(2)
    for n in range(count):
        yield f'interest 1 {n} 0:s:{letters(n)}/* n a'
    for n in range(declared):
        yield f'queryable 0 {n} 0:s:{letters(n * 7919 % count)}/{n} c {n % 100} 0'


def folded_and_withdrawn(count):
    """What is declared changes one of the entries."""
    yield from folded(count, count)
    for n in range(count, count + CALLS):
        yield f'queryable 0 {n} 0:s:{letters(n * 7919 % count)}/{n} c 0 0'
        yield f'unqueryable 0 {n} - 0'


def declared_and_answered(count):
    """So many keys, and a face that asks for one of them, a hundredth as often as elsewhere."""
    yield from declared(count)
    for i in range(CALLS // 100):
        yield f'interest 1 1 0:s:{key(i * 7919 % count)} n'
        yield 'uninterest 1 1'


# Scripts that are made to be slow, or to take much memory

def long_key(size=65_536):
    return 'a/' * (size // 2 - 1) + 'a'


def long_key_declared():
    """A key of 64 KiB, declared."""
    yield from faces(2)
    yield f'queryable 0 1 0:s:{long_key()} c 0 0'


def long_key_named():
    """The same key, for which a face gives a number."""
    yield from faces(2)
    yield f'key 0 1 0:s:{long_key()}'


def long_key_asked():
    """The same key, named and declared by one face and asked by another."""
    yield from long_key_named()
    yield 'queryable 0 1 1:s:- c 0 0'
    yield f'ask 1 1 0:s:{long_key()} all - 0 0 - 0'


def wild_fronts():
    """10,000 keys `*/xN/**` and 20,000 requests."""
    yield from faces(2)
    for n in range(10_000):
        yield f'queryable 0 {n} 0:s:*/x{n}/** c 0 0'
    for i in range(20_000):
        yield f'ask 1 {i} 0:s:a/x{i * 7919 % 10_000}/b all - 0 0 - 0'


def greater_characters(declared=10_000, asked=1_000):
    """Keys `k/aN` and one `k/z$*`, and requests on `k/é`."""
    yield from faces(2)
    for n in range(declared):
        yield f'queryable 0 {n} 0:s:k/a{n} c 0 0'
    yield f'queryable 0 {declared} 0:s:k/z$* c 0 0'
    for i in range(asked):
        yield f'ask 1 {i} 0:s:k/%C3%A9 all - 0 0 - 0'


def shorter_keys(declared=500, asked=1_000):
    """Keys of ever more `z`, one that goes on to a `*`, and requests of one `z` more."""
    yield from faces(2)
    for n in range(1, declared + 1):
        yield f'queryable 0 {n} 0:s:{"z" * n} c 0 0'
    yield f'queryable 0 {declared + 1} 0:s:{"z" * declared}/* c 0 0'
    for i in range(asked):
        yield f'ask 1 {i} 0:s:{"z" * (declared + 1)} all - 0 0 - 0'


def long_chunks(declared=2_000, asked=100, size=10_000):
    """Keys `a$*N/A`, and requests that go on by a long chunk."""
    yield from faces(2)
    for n in range(declared):
        yield f'queryable 0 {n} 0:s:a$*{n}/A c 0 0'
    for i in range(asked):
        yield f'ask 1 {i} 0:s:a/{"B" * size} all - 0 0 - 0'


def wild_chunks():
    """10,000 keys `**/a$*b$*cN` and 5,000 requests."""
    yield from faces(2)
    for n in range(10_000):
        yield f'queryable 0 {n} 0:s:**/a$*b$*c{n} c 0 0'
    for i in range(5_000):
        yield f'ask 1 {i} 0:s:{"aab" * 12}c{i * 7919 % 10_000} all - 0 0 - 0'


def many_wild_chunks(end='', asked=''):
    """A key of 2,500 chunks `a$*b` behind a `**`, and 20 requests that it nearly meets."""
    yield from faces(2)
    yield f'queryable 0 1 0:s:**/{"a$*b/" * 2_500}x{end} c 0 0'
    for i in range(20):
        yield f'ask 1 {i} 0:s:{"accb/" * 5_000}y{asked} all - 0 0 - 0'


def long_payloads():
    """1,000 faces and 50 requests of 10 kB, each handed to all."""
    yield from faces(1_001)
    for face in range(1_000):
        yield f'queryable {face} 1 0:s:k c 0 0'
    for i in range(50):
        yield f'ask 1000 {i} 0:s:k all - 0 0 {"p" * 10_000} 0'


def nested_numbers():
    """30,000 numbers, each for the text of the one before and a chunk more."""
    yield from faces(1)
    yield 'key 0 1 0:s:a'
    for n in range(2, 30_001):
        yield f'key 0 {n} {n - 1}:s:/a'


def poll_of_many():
    """A poll at which 100,000 requests run out of time."""
    yield from open_requests(100_000)
    yield 'poll 20000'


def close_of_many():
    """A face closes to which 100,000 requests were handed."""
    yield from open_requests(100_000)
    yield 'close 0'


def nearly_alike(part, size=1_024):
    """A thousand requests on a key that differs from the declared one in one letter, before ends that meet. Both
    repeat a part."""
    text = (part * size)[:(size - 3) // len(part) * len(part)].ljust(size - 3, 'a')
    yield from faces(2)
    yield f'queryable 0 1 0:s:{text}x/$*e c 0 0'
    for i in range(1_000):
        yield f'ask 1 {i} 0:s:{text}y/e all - 0 0 - 0'


def shared(workers, requests=20_000):
    """Each worker asks, replies and ends, at an asker and a target of its own; all ask as often, and all together so many times."""
    yield from faces(2 * workers)
    for worker in range(workers):
        yield f'queryable {worker} 1 0:s:load/{worker}/** c 0 0'
    for worker in range(workers):
        yield 'worker'
        for i in range(requests // workers):
            yield from exchange(workers + worker, worker, i, i + 1, 0, f'load/{worker}/{i}')[:3]


if __name__ == '__main__':
    made = {name: it for name, it in globals().items() if inspect.isgeneratorfunction(it)}
    if len(sys.argv) < 2 or sys.argv[1] not in made:
        sys.exit(f'usage: bench/scripts.py {"|".join(made)} [NUMBER]')
    for line in made[sys.argv[1]](*map(int, sys.argv[2:])):
        print(line)

#!/usr/bin/env python3
"""The same store over the proved bus: what a get brings is the proved one. Threads put and get at the same time."""
import threading

import zq

bus = zq.Bus()
for key, pairs in {'demo/a/**': {'demo/a/x': '1', 'demo/a/y': '2'}, 'demo/b/**': {'demo/b/x': '3'}}.items():
    storage = bus.storage(key)
    for name, value in pairs.items():
        storage.put(name, value)

got = {}
keys = ('demo/**', 'demo/*/x', 'other')
clients = [threading.Thread(target=lambda key=key: got.update({key: bus.get(key)})) for key in keys]
for client in clients:
    client.start()
for client in clients:
    client.join()
for key in keys:
    print(key, [(name, value.decode()) for name, value in got[key]])

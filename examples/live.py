#!/usr/bin/env python3
"""Drives a gateway through two pipes: a client asks, and two others reply. Prints the calls, and what each is answered."""
import pathlib
import subprocess

zq = pathlib.Path(__file__).resolve().parent.parent / 'zq'
gateway = subprocess.Popen([zq, 'live'], stdin=subprocess.PIPE, stdout=subprocess.PIPE, text=True)
sent = 0


def call(line):
    """Makes a call, and returns the lines of its answer: that to an empty line, which is bad, comes behind them."""
    global sent
    sent += 2
    print(line, end='\n\n', file=gateway.stdin, flush=True)
    answer = list(iter(lambda: gateway.stdout.readline().split(f'bad line {sent}: ')[0].rstrip(), ''))
    print(line, *answer, sep='\n    ')
    return [words.split() for words in answer]


call('config 1 10000 north:client local')
asker, *repliers = [call(f'open local {zid} client north -')[0][2] for zid in (10, 11, 12)]
for face in repliers:
    call(f'queryable {face} 1 0:s:k c 0 0')
for _, face, _, _, _, request, *_ in call(f'ask {asker} 7 0:s:k all - 0 0 hi 0')[1:]:
    replied = call(f'reply {face} {request} 0:s:k ok from-{face}')[0][2]
    call(f'final {face} {request}')
    call(f'sent {replied}')
gateway.stdin.close()
raise SystemExit(gateway.wait())

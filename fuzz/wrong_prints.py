#!/usr/bin/env python3
"""Wrong prints that headline.py or told.py has to refuse: each way in which a print is changed, at places of right ones.

usage: fuzz/wrong_prints.py [COUNT]

Right prints are those of the model, of COUNT random scripts (40) for each of the two. Says for each way at how many
places it was tried, and by which sentence it was refused; the status is 1 where a wrong print was taken for a right one.
"""
import re
import sys

import generate
import headline
import model
import told
from words import BadLine


def lines_of(text):
    return text.decode('latin-1').split('\n')


def sub_at(lines, i, new):
    return lines[:i] + ([new] if isinstance(new, str) else new) + lines[i + 1:]


def each(pattern):
    def find(lines):
        return [i for i, line in enumerate(lines) if re.match(pattern, line)]
    return find


def words(line, k, f):
    w = line.split(' ')
    w[k] = f(w[k])
    return ' '.join(w)


plus = lambda w: str(int(w) + 1)
REQUEST, RESPONSE, FINAL = r'> \d+ \d+ - request ', r'> \d+ \d+ \d+ response ', r'> \d+ \d+ - final '

MUTATIONS = [
    ('a request is not handed', each(REQUEST), lambda ls, i: sub_at(ls, i, [])),
    ('a request is handed twice', each(REQUEST), lambda ls, i: sub_at(ls, i, [ls[i], ls[i]])),
    ('a request is under another id', each(REQUEST), lambda ls, i: sub_at(ls, i, words(ls[i], 5, plus))),
    ('a request is under an id that is pending there', each(REQUEST + '[2-9]'), lambda ls, i: sub_at(ls, i, words(ls[i], 5, lambda w: str(int(w) - 1)))),
    ('a request is handed to another face', each(REQUEST), lambda ls, i: sub_at(ls, i, words(ls[i], 1, plus))),
    ('a request has another payload', each(REQUEST), lambda ls, i: sub_at(ls, i, words(ls[i], 11, lambda w: 'other'))),
    ('a request has another key', each(REQUEST), lambda ls, i: sub_at(ls, i, words(ls[i], 6, lambda w: w + 'x' if not w.endswith('-') else w[:-1] + '/x'))),
    ('a request has another target mode', each(REQUEST), lambda ls, i: sub_at(ls, i, words(ls[i], 7, lambda w: 'best' if w == 'all' else 'all'))),
    ('a request has another timeout', each(REQUEST), lambda ls, i: sub_at(ls, i, words(ls[i], 8, lambda w: '7'))),
    ('a request has another quality byte', each(REQUEST), lambda ls, i: sub_at(ls, i, words(ls[i], 10, lambda w: '77'))),
    ('a request has another node', each(REQUEST), lambda ls, i: sub_at(ls, i, words(ls[i], 9, plus))),
    ('a request has another number', each(REQUEST), lambda ls, i: sub_at(ls, i, words(ls[i], 2, plus))),
    ('a request goes to no one, and its final comes at once', each(REQUEST), lambda ls, i: sub_at(ls, i, '> %s %s - final 0 0' % tuple(ls[i].split(' ')[1:3]))),
    ('a reply is not handed', each(RESPONSE), lambda ls, i: sub_at(ls, i, [])),
    ('a reply is handed to another face too', each(RESPONSE), lambda ls, i: sub_at(ls, i, [ls[i], words(ls[i], 1, plus)])),
    ('a reply is handed to another face', each(RESPONSE), lambda ls, i: sub_at(ls, i, words(ls[i], 1, plus))),
    ('a reply is under another id', each(RESPONSE), lambda ls, i: sub_at(ls, i, words(ls[i], 5, plus))),
    ('a reply has another number', each(RESPONSE), lambda ls, i: sub_at(ls, i, words(ls[i], 3, plus))),
    ('a reply has another body', each(RESPONSE), lambda ls, i: sub_at(ls, i, words(ls[i], 9, lambda w: 'other'))),
    ('an error is handed as a reply', each(RESPONSE + r'.* err '), lambda ls, i: sub_at(ls, i, words(ls[i], 8, lambda w: 'ok'))),
    ('a reply has another responder', each(RESPONSE), lambda ls, i: sub_at(ls, i, words(ls[i], 10, lambda w: '77'))),
    ('a timeout error has another payload', each(RESPONSE + '.* Timeout '), lambda ls, i: sub_at(ls, i, words(ls[i], 9, lambda w: 'Late'))),
    ('a reply that is accepted is answered no number', each(r'= replied \d'), lambda ls, i: sub_at(ls, i, '= replied -')),
    ('a final does not come', each(FINAL), lambda ls, i: sub_at(ls, i, [])),
    ('a final comes twice', each(FINAL), lambda ls, i: sub_at(ls, i, [ls[i], ls[i]])),
    ('a final goes to another face', each(FINAL), lambda ls, i: sub_at(ls, i, words(ls[i], 1, plus))),
    ('a final is under another id', each(FINAL), lambda ls, i: sub_at(ls, i, words(ls[i], 5, plus))),
    ('a final comes a call late', each(FINAL), lambda ls, i: late(ls, i)),
    ('a final comes a call early', each(FINAL), lambda ls, i: early(ls, i)),
    ('finals change places', each(FINAL + '.*'), lambda ls, i: sub_at(sub_at(ls, i, ls[i + 1]), i + 1, ls[i]) if i + 1 < len(ls) and re.match(FINAL, ls[i + 1]) else None),
    ('requests change places', each(REQUEST), lambda ls, i: sub_at(sub_at(ls, i, ls[i + 1]), i + 1, ls[i]) if i + 1 < len(ls) and re.match(REQUEST, ls[i + 1]) else None),
    ('a declaration has the number of a request', each(r'> \d+ - - '), lambda ls, i: sub_at(ls, i, words(ls[i], 2, lambda w: '0'))),
    ('an accepted call is refused', each(r'= (done|replied)'), lambda ls, i: sub_at(ls, i, '= refused QueryNotFound')),
    ('a refused call is accepted', each(r'= refused'), lambda ls, i: sub_at(ls, i, '= done')),
    ('a call is refused by another cause', each(r'= refused (?!NoFreeId)'), lambda ls, i: sub_at(ls, i, '= refused NoFreeId')),
    ('a request is answered another number', each(r'= asked'), lambda ls, i: sub_at(ls, i, words(ls[i], 2, plus))),
    ('a face is opened under another number', each(r'= opened'), lambda ls, i: sub_at(ls, i, words(ls[i], 2, plus))),
]

DECLARED, WITHDRAWN, NUMBERED = r'> \d+ - - queryable ', r'> \d+ - - unqueryable ', r'> \d+ - - key '
other_key = lambda w: w + 'x' if not w.endswith('-') else w[:-1] + '/x'
said = lambda ls, i: [w.split(' ')[:6] for w in ls[:i] if re.match(DECLARED, w) and w.split(' ')[1] == ls[i].split(' ')[1]]
said_before = lambda ls, i: ls[i].split(' ')[:6] in said(ls, i)
gone_before = lambda ls, i: [w.split(' ')[5] for w in ls[:i] if re.match(WITHDRAWN, w) and w.split(' ')[1] == ls[i].split(' ')[1]]
id_before = lambda ls, i: next((w[5] for w in reversed(said(ls, i)) if w[5] not in [*gone_before(ls, i), ls[i].split(' ')[5]]), None)
swap = lambda ls, i, what: sub_at(sub_at(ls, i, ls[i + 1]), i + 1, ls[i]) if i + 1 < len(ls) and re.match(what, ls[i + 1]) else None

TOLD = [
    ('a declaration is not handed', each(DECLARED), lambda ls, i: sub_at(ls, i, [])),
    ('a declaration is handed twice', each(DECLARED), lambda ls, i: sub_at(ls, i, [ls[i], ls[i]])),
    ('a declaration is handed to another face', each(DECLARED), lambda ls, i: sub_at(ls, i, words(ls[i], 1, plus))),
    ('a key that is kept is under another id', lambda ls: [i for i in each(DECLARED)(ls) if said_before(ls, i)], lambda ls, i: sub_at(ls, i, words(ls[i], 5, plus))),
    ('a key is under the id of another', each(DECLARED), lambda ls, i: sub_at(ls, i, words(ls[i], 5, lambda w: id_before(ls, i))) if id_before(ls, i) else None),
    ('a declaration has another key', each(DECLARED), lambda ls, i: sub_at(ls, i, words(ls[i], 6, other_key))),
    ('a declaration is complete or not, the wrong way', each(DECLARED), lambda ls, i: sub_at(ls, i, words(ls[i], 7, lambda w: 'p' if w == 'c' else 'c'))),
    ('a declaration has another distance', each(DECLARED), lambda ls, i: sub_at(ls, i, words(ls[i], 8, plus))),
    ('an answer does not name its interest', each(DECLARED + r'.* \d+$'), lambda ls, i: sub_at(ls, i, words(ls[i], 10, lambda w: '-'))),
    ('what is no answer names an interest', each(DECLARED + '.* -$'), lambda ls, i: sub_at(ls, i, words(ls[i], 10, lambda w: '1'))),
    ('a declaration comes a call late', each(DECLARED), lambda ls, i: late(ls, i)),
    ('a declaration comes a call early', each(DECLARED), lambda ls, i: early(ls, i)),
    ('declarations change places', each(DECLARED), lambda ls, i: swap(ls, i, DECLARED + '.*')),
    ('a declaration is said again a call later', each(DECLARED), lambda ls, i: (lambda new: new and sub_at(new, i, [ls[i], new[i]]))(late(ls, i))),
    ('a withdrawal in place of a declaration', each(DECLARED), lambda ls, i: sub_at(ls, i, '> %s - - unqueryable %s - 0' % tuple(ls[i].split(' ')[1:6:4]))),
    ('a withdrawal is not handed', each(WITHDRAWN), lambda ls, i: sub_at(ls, i, [])),
    ('a withdrawal is handed twice', each(WITHDRAWN), lambda ls, i: sub_at(ls, i, [ls[i], ls[i]])),
    ('a withdrawal is under another id', each(WITHDRAWN), lambda ls, i: sub_at(ls, i, words(ls[i], 5, plus))),
    ('a withdrawal comes a call late', each(WITHDRAWN), lambda ls, i: late(ls, i)),
    ('a number is given to another text', each(NUMBERED), lambda ls, i: sub_at(ls, i, words(ls[i], 6, other_key))),
    ('an answer does not end', each(r'> \d+ - - declfinal '), lambda ls, i: sub_at(ls, i, [])),
    ('the end of an answer names another interest', each(r'> \d+ - - declfinal '), lambda ls, i: sub_at(ls, i, words(ls[i], 5, lambda w: '77'))),
]


def next_answer(ls, i):
    return next((j for j in range(i + 1, len(ls)) if ls[j].startswith('= ')), None)


def late(ls, i):
    j = next_answer(ls, i)
    return None if j is None else ls[:i] + ls[i + 1:j + 1] + [ls[i]] + ls[j + 1:]


def early(ls, i):
    j = next((k for k in range(i - 1, -1, -1) if ls[k].startswith('= ')), None)
    return None if not j else ls[:j] + [ls[i]] + ls[j:i] + ls[i + 1:]


def right_prints(kind, count, check):
    """Scripts of a kind without routers where that is `told`, and their prints, which hold."""
    seed = 0
    while count:
        script = generate.generate(kind, seed)
        seed += 1
        if kind == 'told' and b'router' in script.split(b'\n')[0]:
            continue
        count -= 1
        right = model.replay(script)
        if right.status == 0:
            assert check(script, right.print) is None, f'a right print is refused: {kind} {seed - 1}'
            yield seed - 1, script, right.print


def missed(cases, check, name, find, change):
    """At how many places a changed print was taken for a right one."""
    tried, by, taken = 0, {}, []
    for seed, script, text in cases:
        lines = lines_of(text)
        for i in find(lines)[:4]:
            new = change(lines, i)
            if new is None or new == lines or tried >= 60:
                continue
            tried += 1
            found = refused(check, script, '\n'.join(new).encode('latin-1'))
            if found:
                by[found] = by.get(found, 0) + 1
            else:
                taken.append((seed, i + 1))
    print(f'{name}: {tried - len(taken)} of {tried} refused', by, f'TAKEN {taken[:6]}' if taken else '')
    return len(taken)


def refused(check, script, text):
    """The sentence that refuses the print, if one does."""
    try:
        found = check(script, text)
    except (BadLine, ValueError, IndexError, KeyError, TypeError) as fault:
        return f'unreadable {type(fault).__name__}'
    return found and found[-1].split(':')[0]


def main():
    count = int(sys.argv[1]) if len(sys.argv) > 1 else 40
    total = 0
    for kind, check, ways in (('mixed', headline.check, MUTATIONS), ('told', told.check, TOLD)):
        cases = list(right_prints(kind, count, check))
        total += sum(missed(cases, check, *way) for way in ways)
    print('missed', total)
    return total > 0


sys.exit(main())

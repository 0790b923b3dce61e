"""The administration view: who declared which key and who asks for it, after a script's calls."""

from collections import defaultdict

from keys import intersects, is_key
from model import Gateway, lines_of
from words import MODES, NORTH, BadLine, head_of, read_script, region_order, shown

SHOWN = [(f'{mode}s', mode) for mode in MODES]


def run(script):
    """The gateway after the calls, and the mode that each face was opened with, which nothing else depends on."""
    lines = lines_of(script)
    config, calls = read_script(lines)
    gateway, modes = Gateway(config), {}
    for line, (kind, values) in zip(lines[head_of(lines):], calls):
        answer = gateway.call(kind, values)[0].split(' ')
        if answer[1] == 'opened':
            modes[int(answer[2])] = line.split(b' ')[3].decode()
    return gateway, modes


def counted_as(config, where, face, modes):
    """The mode under which a face counts: a client with a broker, a peer among peers, and itself towards an upstream."""
    if where == NORTH and config.north_mode == 'client':
        return modes[face.number]
    return 'peer' if config.mode(where) == 'peer' else 'client'


def declared_in(gateway, where, modes):
    """Who declared which key in a region: the mode, the id and the key of each, in order."""
    if where in gateway.routed:
        return [('router', router, key) for key, router in sorted(gateway.entries[where])]
    return [(counted_as(gateway.config, where, face, modes), face.id, key)
            for face in gateway.faces_of(where) for _, (key, _) in sorted(face.queryables.items())]


def asked_in(gateway, where, modes):
    """Who asks for which key in a region, where that is known: not of an upstream, and not of routers."""
    if where in gateway.routed or where == NORTH and gateway.config.north_mode == 'client':
        return []
    return [(counted_as(gateway.config, where, face, modes), face.id, interest.key)
            for face in gateway.faces_of(where) for _, interest in sorted(face.interests.items())
            if interest.key is not None]


def gathered(regions):
    """The ids on each key, by mode."""
    found = defaultdict(lambda: defaultdict(list))
    for mode, node, key in (one for region in regions for one in region):
        found[key][mode].append(node)
    return found


def entries(gateway, modes):
    """The ids on each administration key. Behind each region below that has a key, the gateway has it."""
    config = gateway.config
    regions = sorted(config.regions, key=region_order)
    declared = [declared_in(gateway, where, modes) for where in regions]
    for where, found in zip(regions, declared):
        if where != NORTH:
            found += [(config.north_mode, config.id, key) for key in {key for *_, key in found}]
    kinds = [('querier', [asked_in(gateway, where, modes) for where in regions]), ('queryable', declared)]
    return {f'@/{config.id}/{config.north_mode}/{kind}/'.encode() + key: ids
            for kind, found in kinds for key, ids in gathered(found).items()}


def line(key, ids):
    return ' '.join([shown(key), *(f'{name} {",".join(map(str, ids[mode])) or "-"}' for name, mode in SHOWN)])


def listing(script, key):
    """The status and the print for a script and a key."""
    if not is_key(key):
        return 1, ''
    try:
        found = entries(*run(script))
    except BadLine as at:
        return 2, f'bad line {at}\n'
    return 0, ''.join(f'{line(name, ids)}\n' for name, ids in sorted(found.items()) if intersects(key, name))

"""Which texts are keys, and which keys intersect or include one another."""

import re
from functools import lru_cache

# `*`, `**`, or characters other than `#?*$`, with single `$*` before, between and behind them.
CHUNK = rb'(\*\*?|(\$\*)?[^/#?*$]+(\$\*[^/#?*$]+)*(\$\*)?)'
CHUNKS = re.compile(CHUNK + b'(/' + CHUNK + b')*')


def is_key(text):
    """Chunks between slashes, with neither `**` nor `*` right behind a `**`."""
    return CHUNKS.fullmatch(text) is not None and b'**/*' not in text


def is_verbatim(chunk):
    """A chunk that begins with `@` is matched by itself alone."""
    return chunk[:1] == b'@'


def characters(chunk):
    """The characters of a chunk, of which `$*` is one."""
    return tuple(re.findall(rb'\$\*|.', chunk, re.DOTALL))


@lru_cache(maxsize=2**18)
def fits(left, right, wild, every):
    """Whether the left list stands for something that the right one stands for, or for every such thing."""
    if left[:1] == (wild,):
        longer = may_take(wild, right) and fits(left, right[1:], wild, every)
        return longer or fits(left[1:], right, wild, every)
    if right[:1] == (wild,) and not every:
        return fits(right, left, wild, every)
    if not left or not right:
        return left == right
    same = left[0] == right[0] if wild == b'$*' else chunk_fits(left[0], right[0], every)
    return same and fits(left[1:], right[1:], wild, every)


def may_take(wild, parts):
    """`$*` stands for any characters, `**` for any chunks that are not verbatim."""
    return parts != () and (wild == b'$*' or not is_verbatim(parts[0]))


def chunk_fits(left, right, every):
    """`*` stands for any chunk that is not verbatim, but not for a `**`."""
    if is_verbatim(left) or is_verbatim(right) or right == b'**':
        return left == right
    if left == b'*' or right == b'*' and not every:
        return True
    return fits(characters(left), characters(right), b'$*', every)


def intersects(left, right):
    """Whether two keys have a text in common."""
    return fits(tuple(left.split(b'/')), tuple(right.split(b'/')), b'**', False)


def includes(left, right):
    """Whether the left key has all texts of the right one."""
    return fits(tuple(left.split(b'/')), tuple(right.split(b'/')), b'**', True)

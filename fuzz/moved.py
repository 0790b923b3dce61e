"""The calls of a script inside a namespace, and what each face receives of a run. docs/SESSION.md says what that is."""

from model import Gateway
from words import NOTHING, expression, shown

# At which place a call has its expression, if it has one.
EXPRESSION = {'key': 2, 'queryable': 2, 'unqueryable': 2, 'interest': 2, 'ask': 2, 'reply': 2}


def can_move(kind, values):
    """No face is opened in a namespace; expressions have a text or a number of the sender; no other text is empty."""
    if kind == 'open':
        return values[3] is None and all([*values[4], *values[5]])
    if kind == 'finalize':
        return values[1] != 'key' or values[2] != b''
    written = values[EXPRESSION[kind]] if kind in EXPRESSION else None
    if written is None:
        return True
    if written.number:
        return written.side == 's'
    return written.suffix != b'' or kind == 'reply' and values[3] == 'err'


def moved(space, kind, values):
    """The call as it is made inside the namespace."""
    def behind(text):
        return space + b'/' + text
    if kind == 'open':
        where, face_id, bound, _, barred, denied = values
        return kind, (where, face_id, bound, space, [*map(behind, barred)], [*map(behind, denied)])
    if kind == 'finalize' and values[1] == 'key':
        face, what, mark, on = values
        return kind, (face, what, behind(mark), on)
    return kind, values


class Reader:
    """A face that reads what leaves to it, by the numbers that it gave itself and those that it was given."""

    def __init__(self):
        self.own, self.given, self.messages = {}, {}, []

    def writes(self, kind, values):
        """An accepted call of the face: its numbers stand for what it wrote."""
        if kind == 'key':
            _, number, written = values
            self.own[number] = (self.own[written.number] if written.number else b'') + written.suffix
        elif kind == 'unkey':
            del self.own[values[1]]

    def full(self, word):
        """The whole text of an expression. No message has a number that the face cannot read; one would end the run."""
        written = expression(word.encode())
        if not written.number:
            return written.suffix
        texts = self.given if written.side == 's' else self.own
        return texts[written.number] + written.suffix

    def reads(self, line):
        """A message that left to the face."""
        words = line.split(' ')
        if words[0] == 'key':
            self.given[int(words[1])] = self.full(words[2])
            return
        if words[0] not in ('final', 'declfinal') and words[2] != '-':
            words[2] = f'0:s:{shown(self.full(words[2]))}'
        self.messages.append(' '.join(words))


def left(lines):
    """To whom each message left, and what left."""
    for at, line in enumerate(lines):
        if line[0] == '>':
            face, message = int(line.split(' ')[1]), line.split(' ', 4)[4]
            behind = lines[at + 1] if at + 1 < len(lines) else ''
            if behind[:1] == '<':
                message = behind[2:]
            if message != '-':
                yield face, message


def run(config, calls):
    """What each call is answered, and by number what each face that was opened has received."""
    gateway, faces, answers = Gateway(config), {}, []
    for kind, values in calls:
        lines = gateway.call(kind, values)
        answers.append(lines[0])
        if lines[0].startswith('= opened '):
            faces[int(lines[0].split(' ')[2])] = Reader()
        elif kind in ('key', 'unkey') and lines[0] == '= done':
            faces[values[0]].writes(kind, values)
        for face, message in left(lines):
            faces[face].reads(message)
    return answers, {number: reader.messages for number, reader in faces.items()}


def shown_faces(faces):
    """The print of what faces received."""
    return ''.join(f'{line}\n' for number in sorted(faces) for line in [f'face {number}', *faces[number]])

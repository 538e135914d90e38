"""D-Bus messages in python, for the examples and the checks: they are written and read here, and sent over the socket of a daemon.

The form of messages is that of `docs/formats.md`. A variant is written from a pair, as ('u', 7), and read as its value alone."""
import collections, socket, struct

NAME = 'org.freedesktop.PolicyKit1.'
OBJECT = '/org/freedesktop/PolicyKit1/Authority'
AUTHORITY, PROFILE = NAME + 'Authority', NAME + 'Profile'
KINDS = {1: 'call', 2: 'return', 3: 'error', 4: 'signal'}
FIELDS = {1: 'path', 2: 'interface', 3: 'member', 4: 'error', 5: 'answers', 6: 'destination', 7: 'sender', 8: 'signature'}
ORDERS = {108: '<', 66: '>'}
FIELD_TYPES = {'path': 'o', 'interface': 's', 'member': 's', 'error': 's', 'answers': 'u', 'destination': 's', 'sender': 's', 'signature': 'g'}
NUMBERS = {'y': (1, 'B'), 'b': (4, 'I'), 'n': (2, 'h'), 'q': (2, 'H'), 'i': (4, 'i'), 'u': (4, 'I'), 'x': (8, 'q'), 't': (8, 'Q'), 'd': (8, 'd')}

# One message: its kind as in KINDS, its serial, its fields by their names, and its values.
Message = collections.namedtuple('Message', 'kind serial fields values')


def alignment(types):
    """What the place of a value of the first type is a multiple of."""
    return 8 if types[0] in '({xtd' else 4 if types[0] in 'buisoah' else 2 if types[0] in 'nq' else 1


def split(types):
    """The first type, and the types behind it."""
    place, depth = 0, 0
    while True:
        letter = types[place]
        depth += {'(': 1, '{': 1, ')': -1, '}': -1}.get(letter, 0)
        place += 1
        if depth == 0 and letter != 'a':
            return types[:place], types[place:]


def each(types):
    """All types, one after another."""
    while types:
        first, types = split(types)
        yield first


class Writer:
    """The bytes of values, little-endian."""

    def __init__(self):
        self.data = bytearray()

    def pad(self, size):
        self.data += bytes(-len(self.data) % size)

    def number(self, letter, value):
        size, code = NUMBERS[letter]
        self.pad(size)
        try:
            self.data += struct.pack('<' + code, value)
        except struct.error as fault:
            raise ValueError(f'{value} is out of range') from fault

    def text(self, value, length='u'):
        text = value.encode()
        self.number(length, len(text))
        self.data += text + b'\0'

    def value(self, kind, value):
        letter = kind[0]
        if letter in NUMBERS:
            self.number(letter, value)
        elif letter in 'so':
            self.text(value)
        elif letter == 'g':
            self.text(value, 'y')
        elif letter == 'v':
            self.text(value[0], 'y')
            self.value(*value)
        elif letter == 'a':
            self.array(kind[1:], value)
        else:
            self.pad(8)
            for part, one in zip(each(kind[1:-1]), value):
                self.value(part, one)

    def array(self, item, values):
        self.number('u', 0)
        length = len(self.data)
        self.pad(alignment(item))
        begin = len(self.data)
        for one in values.items() if item[0] == '{' else values:
            self.value(item, one)
        struct.pack_into('<I', self.data, length - 4, len(self.data) - begin)


class Reader:
    """The values of bytes whose numbers are little-endian or big-endian."""

    def __init__(self, data, order, at=0):
        self.data, self.order, self.at = data, order, at

    def pad(self, size):
        self.at += -self.at % size

    def number(self, letter):
        size, code = NUMBERS[letter]
        self.pad(size)
        value, = struct.unpack_from(self.order + code, self.data, self.at)
        self.at += size
        return bool(value) if letter == 'b' else value

    def text(self, length='u'):
        size = self.number(length)
        value = self.data[self.at:self.at + size].decode()
        self.at += size + 1
        return value

    def value(self, kind):
        letter = kind[0]
        if letter in NUMBERS:
            return self.number(letter)
        if letter in 'so':
            return self.text()
        if letter == 'g':
            return self.text('y')
        if letter == 'v':
            return self.value(self.text('y'))
        if letter == 'a':
            return self.array(kind[1:])
        self.pad(8)
        return tuple(self.value(part) for part in each(kind[1:-1]))

    def array(self, item):
        length = self.number('u')
        self.pad(alignment(item))
        end, values = self.at + length, []
        while self.at < end:
            values.append(self.value(item))
        return dict(values) if item[0] == '{' else values


def written(kind, serial, types='', values=(), flags=0, **fields):
    """The bytes of a message of a kind as in KINDS, with these fields."""
    body, header = Writer(), Writer()
    for part, value in zip(each(types), values):
        body.value(part, value)
    if types:
        fields['signature'] = types
    rows = [(code, (FIELD_TYPES[name], fields[name])) for code, name in FIELDS.items() if name in fields]
    number = {name: code for code, name in KINDS.items()}[kind]
    for letter, value in (('y', ord('l')), ('y', number), ('y', flags), ('y', 1), ('u', len(body.data)), ('u', serial)):
        header.number(letter, value)
    header.array('(yv)', rows)
    header.pad(8)
    return bytes(header.data + body.data)


def call(serial, member, types='', *values, interface=AUTHORITY):
    """The bytes of a call of the authority."""
    return written('call', serial, types, values, path=OBJECT, interface=interface, member=member)


def process(pid, start):
    """The subject that is a process."""
    return 'unix-process', {'pid': ('u', pid), 'start-time': ('t', start)}


def user(uid):
    """The identity that is a user."""
    return 'unix-user', {'uid': ('u', uid)}


def answer(message, serial, error=None):
    """The bytes of an answer to a call: an empty return, or an error of this name."""
    fields = {} if error is None else {'error': error}
    return written('return' if error is None else 'error', serial, answers=message.serial, **fields)


def check(serial, subject, action, ask=False, cancel=''):
    """The bytes of a call of CheckAuthorization. With `ask` the user may be asked."""
    return call(serial, 'CheckAuthorization', '(sa{sv})sa{ss}us', subject, action, {}, int(ask), cancel)


def length(data):
    """How many bytes the message has that begins so, or None where that does not show yet."""
    if len(data) < 16:
        return None
    if data[0] not in ORDERS:
        raise ValueError('what came is not a message')
    body, _, fields = struct.unpack_from(ORDERS[data[0]] + 'III', data, 4)
    return 16 + fields + -fields % 8 + body


def read(data):
    """The message that these bytes are."""
    order = ORDERS[data[0]]
    body, serial, _ = struct.unpack_from(order + 'III', data, 4)
    rows = Reader(data, order, 12).array('(yv)')
    fields = {FIELDS.get(code, code): value for code, value in rows}
    reader = Reader(data[len(data) - body:], order)
    return Message(KINDS.get(data[1], 'unknown'), serial, fields, tuple(reader.value(part) for part in each(fields.pop('signature', ''))))


def shown(message):
    """A line for a message, and one for each of its values."""
    words = [message.kind, f'serial {message.serial}'] + [f'{name} {value}' for name, value in message.fields.items()]
    return ', '.join(words) + ''.join(f'\n  {value!r}' for value in message.values)


class Link:
    """A connection to a daemon's socket, as a client of this user. Without a user there is no handshake."""

    def __init__(self, path, uid=None, seconds=None):
        self.socket = socket.socket(socket.AF_UNIX)
        self.socket.settimeout(seconds)
        try:
            self.socket.connect(path)
        except OSError as fault:
            raise OSError(fault.errno, fault.strerror or str(fault), path) from None
        self.data = b''
        if uid is not None:
            self.shake(uid)

    def shake(self, uid):
        self.send(b'\0AUTH EXTERNAL ' + str(uid).encode().hex().encode() + b'\r\n')
        self.line = self.until(b'\r\n')
        if self.line.startswith(b'OK '):
            self.send(b'BEGIN\r\n')

    def is_accepted(self):
        """Whether the daemon accepted the user. Else `line` has what it said."""
        return self.line.startswith(b'OK ')

    def send(self, data):
        self.socket.sendall(data)

    def no_more(self):
        """Says that nothing more is sent. What comes can still be read."""
        self.socket.shutdown(socket.SHUT_WR)

    def more(self):
        """Whether more bytes came, before the end."""
        data = self.socket.recv(65536)
        self.data += data
        return bool(data)

    def until(self, end):
        """The bytes before these, or all where the connection ends first."""
        while end not in self.data and self.more():
            pass
        front, _, self.data = self.data.partition(end)
        return front

    def has_message(self):
        """Whether a whole message has come."""
        size = length(self.data)
        return size is not None and len(self.data) >= size

    def next(self):
        """The next message, or None where the connection ends first."""
        while not self.has_message():
            if not self.more():
                return None
        size = length(self.data)
        front, self.data = self.data[:size], self.data[size:]
        return read(front)

    def ask(self, member, types, *values, interface=AUTHORITY):
        """Makes one call with the serial 1, and passes over what comes before its answer. Answers that, where it is not an error."""
        if not self.is_accepted():
            raise ValueError('the daemon does not accept the user')
        self.send(call(1, member, types, *values, interface=interface))
        while (message := self.next()) is not None:
            if message.fields.get('answers') == 1:
                if message.kind == 'error':
                    raise ValueError(' '.join([message.fields['error'], *map(str, message.values)]))
                return message
        raise ValueError('the daemon closed the connection')

    def close(self):
        self.socket.close()


class Agent(Link):
    """A connection that is the agent of a session. `waiting` has, by their cookies, the questions that are not answered or cancelled yet."""

    def __init__(self, path, uid, session, object_path='/examples/agent'):
        super().__init__(path, uid)
        self.waiting = {}
        self.ask('RegisterAuthenticationAgent', '(sa{sv})ss', ('unix-session', {'session-id': ('s', session)}), 'C', object_path)

    def take(self):
        """Takes the next message, and answers it, or None where the connection ends first. Then no question waits."""
        message = self.next()
        if message is None:
            self.waiting.clear()
        elif message.fields.get('member') == 'BeginAuthentication':
            self.waiting[message.values[4]] = message
        elif message.fields.get('member') == 'CancelAuthentication':
            self.waiting.pop(message.values[0], None)
        return message

    def questions(self):
        """Each question with its cookie, once the one before it does not wait any more, to the end of the connection."""
        while self.waiting or self.take():
            yield from [*self.waiting.items()][:1]

    def reply(self, cookie, error=None):
        """Answers a question that still waits: empty, or with an error of polkit by the last part of its name."""
        question = self.waiting.pop(cookie, None)
        if question is not None:
            self.send(answer(question, question.serial + 1, error and f'{NAME}Error.{error}'))

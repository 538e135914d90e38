"""Messages that are handed on between a bus and a daemon, over asyncio, for contrib/bus_bridge. Nothing here is proved.

They are read and written as in examples/dbus_messages.py. But a variant is read as the pair from which it is written, and a dictionary
as its pairs in their order, so that what was read can be written again."""
import asyncio, collections, os, re, struct, sys, urllib.parse

sys.path.insert(0, os.path.join(os.path.dirname(os.path.realpath(__file__)), '../examples'))
import dbus_messages

NO_REPLY = 1


class Pairs(list):
    """The pairs of a dictionary, which may have a key twice."""

    def items(self):
        return self


class Reader(dbus_messages.Reader):
    def value(self, kind):
        if kind[0] == 'v':
            inner = self.text('y')
            return inner, self.value(inner)
        return super().value(kind)

    def array(self, item):
        if item[0] != '{':
            return super().array(item)
        length = self.number('u')
        self.pad(8)
        end, pairs = self.at + length, Pairs()
        while self.at < end:
            pairs.append(self.value(item))
        return pairs


class Message(collections.namedtuple('Message', 'kind flags serial fields types order body')):
    """One message, whose values are read only where somebody asks for them."""

    def values(self):
        """A body that has what is not read here, as a descriptor, is a KeyError."""
        reader = Reader(self.body, self.order)
        return [reader.value(part) for part in dbus_messages.each(self.types)]

    def wants_reply(self):
        return self.kind == 'call' and not self.flags & NO_REPLY


def read(data):
    """The message that these bytes are."""
    order = dbus_messages.ORDERS[data[0]]
    body, serial, _ = struct.unpack_from(order + 'III', data, 4)
    rows = dbus_messages.Reader(data, order, 12).array('(yv)')
    fields = {dbus_messages.FIELDS[code]: value for code, value in rows if code in dbus_messages.FIELDS}
    return Message(dbus_messages.KINDS.get(data[1], 'unknown'), data[2], serial, fields, fields.pop('signature', ''), order, data[len(data) - body:])


def path_of(address):
    """The path of the first Unix socket in an address of a bus. An abstract one begins with byte 0."""
    for one in address.split(';'):
        keys = dict(re.findall(r'(\w+)=([^,]*)', one[5:])) if one.startswith('unix:') else {}
        if 'path' in keys:
            return urllib.parse.unquote(keys['path'])
        if 'abstract' in keys:
            return '\0' + urllib.parse.unquote(keys['abstract'])
    raise ValueError(f'{address!r} names no Unix socket')


class Wire:
    """A connection behind its handshake."""

    def __init__(self, reader, writer):
        self.reader, self.writer, self.serial = reader, writer, 0

    @classmethod
    async def opened(cls, path, uid):
        """Connects, and says that it is this user."""
        try:
            reader, writer = await asyncio.open_unix_connection(path)
        except OSError as fault:
            raise OSError(fault.errno, fault.strerror or str(fault), path) from None
        try:
            writer.write(b'\0AUTH EXTERNAL ' + str(uid).encode().hex().encode() + b'\r\n')
            line = await reader.readuntil(b'\r\n')
            if not line.startswith(b'OK '):
                raise ValueError(f'{path} does not accept the user {uid}')
            writer.write(b'BEGIN\r\n')
        except asyncio.IncompleteReadError:
            writer.close()
            raise ValueError(f'{path} closed the connection') from None
        except BaseException:
            writer.close()
            raise
        return cls(reader, writer)

    def send(self, kind, types='', values=(), flags=0, **fields):
        """Sends a message, and answers its serial."""
        self.serial = self.serial % 0xffffffff + 1
        self.writer.write(dbus_messages.written(kind, self.serial, types, values, flags, **fields))
        return self.serial

    async def drained(self):
        """Waits where the other side reads slowly. Whether it is still there shows in `next`."""
        try:
            await self.writer.drain()
        except OSError:
            pass

    async def next(self):
        """The next message, or None where the connection ends first."""
        try:
            front = await self.reader.readexactly(16)
            return read(front + await self.reader.readexactly(dbus_messages.length(front) - 16))
        except (asyncio.IncompleteReadError, OSError):
            return None

    def close(self):
        self.writer.close()

"""Bytes of D-Bus messages from a line of words, by the D-Bus Specification, "Message Format".

A line is: KIND SERIAL FIELD.. : SIGNATURE VALUE..

KIND is call, return, error, signal or a number. A FIELD is path=, interface=, member=, error=, reply=, flags= with its value, the word big
for the big-endian order, or authority.MEMBER, profile.MEMBER or agent.MEMBER for the member of one of polkit's interfaces (the object
of agent.MEMBER is named by path=). A message without a body ends before the colon. Words with blanks stand in ' ', and '' is the empty
text. A value is a number or a text as its type says; the values of an array stand between [ and ]; a variant is its signature and its
value; the members of a struct and of an entry follow one another."""
import shlex

KINDS = {"call": 1, "return": 2, "error": 3, "signal": 4}
CODES = {"path": (1, "o"), "interface": (2, "s"), "member": (3, "s"), "error": (4, "s"), "reply": (5, "u"), "signature": (8, "g")}
INTERFACES = {"authority": "Authority", "profile": "Profile", "agent": "AuthenticationAgent"}
SIZES = {"y": 1, "b": 4, "n": 2, "q": 2, "i": 4, "u": 4, "h": 4, "x": 8, "t": 8, "d": 8}


def pad(out, size):
    """Fills up to a multiple of a size."""
    out.extend(bytes(-len(out) % size))


def alignment(kind):
    """What the place of a value of a type is a multiple of."""
    return SIZES.get(kind, {"g": 1, "v": 1, "(": 8, "{": 8}.get(kind, 4))


def first_type(signature):
    """The first complete type of a signature, and the rest."""
    if signature[0] == "a":
        item, rest = first_type(signature[1:])
        return "a" + item, rest
    if signature[0] not in "({":
        return signature[0], signature[1:]
    depth = 0
    for at, letter in enumerate(signature):
        depth += (letter in "({") - (letter in ")}")
        if depth == 0:
            return signature[: at + 1], signature[at + 1 :]


class Writer:
    """Bytes of values in one byte order."""

    def __init__(self, order):
        self.order, self.out = order, bytearray()

    def number(self, size, value):
        pad(self.out, size)
        self.out.extend((int(value) % (1 << 8 * size)).to_bytes(size, self.order))

    def text(self, size, value):
        self.number(size, len(value.encode()))
        self.out.extend(value.encode() + b"\0")

    def values(self, signature, words):
        """Writes a value for each type of a signature; the words are taken from the list."""
        while signature:
            kind, signature = first_type(signature)
            self.value(kind, words)

    def value(self, kind, words):
        if kind[0] in SIZES:
            self.number(SIZES[kind], words.pop(0))
        elif kind in "so":
            self.text(4, words.pop(0))
        elif kind == "g":
            self.text(1, words.pop(0))
        elif kind == "v":
            inner = words.pop(0)
            self.text(1, inner)
            self.value(inner, words)
        elif kind[0] in "({":
            pad(self.out, 8)
            self.values(kind[1:-1], words)
        else:
            self.array(kind[1:], words)

    def array(self, item, words):
        """An array, whose length does not count the padding before its first item."""
        self.number(4, 0)
        place = len(self.out)
        pad(self.out, alignment(item[0]))
        begin = len(self.out)
        assert words.pop(0) == "[", "an array begins with ["
        while words[0] != "]":
            self.value(item, words)
        words.pop(0)
        self.out[place - 4 : place] = (len(self.out) - begin).to_bytes(4, self.order)


def fields_of(words):
    """The header fields and the flags that the words of a header say."""
    fields, flags = {}, 0
    for word in words:
        name, _, value = word.partition("=")
        interface, _, member = word.partition(".")
        if name == "flags":
            flags = int(value)
        elif name in CODES:
            fields[name] = value
        else:
            fields.update(interface="org.freedesktop.PolicyKit1." + INTERFACES[interface], member=member)
            if interface != "agent":
                fields.setdefault("path", "/org/freedesktop/PolicyKit1/Authority")
    return fields, flags


def message(line):
    """The bytes of the message that a line says."""
    words = shlex.split(line)
    at = words.index(":") if ":" in words else len(words)
    head, values = words[:at], words[at + 1 :]
    order = "big" if "big" in head else "little"
    fields, flags = fields_of(word for word in head[2:] if word != "big")
    body = Writer(order)
    if values:
        fields["signature"] = values.pop(0)
        body.values(fields["signature"], values)
        assert not values, f"words are left over: {values}"
    header = Writer(order)
    for name in sorted(fields, key=lambda name: CODES[name]):
        code, kind = CODES[name]
        pad(header.out, 8)
        header.out.append(code)
        header.value("v", [kind, fields[name]])
    begin = Writer(order)
    begin.out.extend(order[:1].encode() + bytes([KINDS[head[0]] if head[0] in KINDS else int(head[0]), flags, 1]))
    begin.out[:1] = b"B" if order == "big" else b"l"
    for number in (len(body.out), head[1], len(header.out)):
        begin.number(4, number)
    begin.out.extend(header.out)
    pad(begin.out, 8)
    return bytes(begin.out + body.out)

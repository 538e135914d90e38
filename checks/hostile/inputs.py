"""The inputs of checks/hostile/run, made from a few that are well formed.

Each class of inputs has a name, what takes it, and a way in which its inputs are made: `fronts` are what is left where an input is cut
off, at each place; `bits` has each bit turned; `bytes` has each byte set to each of 20 values that mean something in a form of that kind."""
import os
import sys

TOP = os.path.dirname(os.path.dirname(os.path.dirname(os.path.abspath(__file__))))
sys.dont_write_bytecode = True
sys.path.insert(0, os.path.join(TOP, "checks", "rows"))
from dbus_message import message

IN_XML = bytes.fromhex("00 09 0a 0d 20 21 22 26 27 2d 2f 3b 3c 3d 3e 3f 5b 61 80 ff")
IN_LINES = bytes.fromhex("00 09 0a 0d 20 23 2a 2d 2f 30 39 3a 3b 3d 5b 5c 5d 61 80 ff")
IN_HANDSHAKE = bytes.fromhex("00 09 0a 0d 20 2d 30 31 39 41 46 47 5a 61 66 67 7a 7f 80 ff")
WORKED = "call 1 authority.CheckAuthorization : (sa{sv})sa{ss}us unix-process [ pid u 51 start-time t 8 ] a.yes [ ] 0 ''"
# The worked message in both orders, and a message of each other kind.
MESSAGES = [
    WORKED,
    WORKED.replace("call 1 ", "call 1 big "),
    "call 4 authority.RegisterAuthenticationAgent : (sa{sv})ss unix-session [ session-id s s1 ] C /agent",
    "return 13 reply=7",
    "error 14 reply=7 error=org.freedesktop.PolicyKit1.Error.Failed : s no",
    "signal 15 path=/ interface=a.b member=C",
]
HANDSHAKE = b"\0AUTH EXTERNAL 31303030\r\nNEGOTIATE_UNIX_FD\r\nBEGIN\r\n"
HANDSHAKE_BY_STEPS = b"\0AUTH\r\nAUTH EXTERNAL\r\nDATA 31303030\r\nCANCEL\r\nAUTH EXTERNAL 31303030\r\nBEGIN\r\n"

def file(path):
    """What a file of examples/root holds."""
    with open(os.path.join(TOP, "examples", "root", path), "rb") as it:
        return it.read()


def fronts(data):
    """What is left where the input is cut off."""
    for n in range(len(data)):
        yield f"[..{n}]", data[:n]


def bits(data):
    """The input with one bit turned."""
    for n in range(8 * len(data)):
        yield f"[{n // 8}^{1 << n % 8:02x}]", data[: n // 8] + bytes([data[n // 8] ^ 1 << n % 8]) + data[n // 8 + 1 :]


def bytes_of(values):
    """The input with one byte set to one of these values."""
    def changed(data):
        for n, old in enumerate(data):
            for value in values:
                if value != old:
                    yield f"[{n}={value:02x}]", data[:n] + bytes([value]) + data[n + 1 :]
    return changed


class Inputs:
    """A class of inputs: its name, what takes them, and the inputs with their labels. They are taken by a pipe, by a handshake, by a load as
    its table of this path, or by a load as files of this folder with this ending."""

    def __init__(self, name, taken_by, made, path=""):
        self.name, self.taken_by, self.made, self.path = name, taken_by, made, path


def all_inputs():
    """All classes of inputs."""
    yield Inputs("messages, fronts", "pipe", [(f"{n}{label}", it) for n, words in enumerate(MESSAGES) for label, it in fronts(message(words))])
    yield Inputs("worked message, bits", "pipe", list(bits(message(WORKED))))
    for name, data in (("handshake", HANDSHAKE), ("handshake by steps", HANDSHAKE_BY_STEPS)):
        for kind, make in (("fronts", fronts), ("bits", bits), ("bytes", bytes_of(IN_HANDSHAKE))):
            yield Inputs(f"{name}, {kind}", "handshake", list(make(data)))
    for name, path, ending, values in (
        ("action file", "usr/share/polkit-1/actions/org.example.clock", ".policy", IN_XML),
        ("rules", "etc/polkit-1/localauthority/50-local.d/org.example.disks", ".pkla", IN_LINES),
        ("administrators", "etc/polkit-1/localauthority.conf.d/50-site", ".conf", IN_LINES),
    ):
        for kind, make in (("fronts", fronts), ("bits", bits), ("bytes", bytes_of(values))):
            yield Inputs(f"{name}, {kind}", "files", list(make(file(path + ending))), (os.path.dirname(path), ending))
    for name, path in (("users", "etc/passwd"), ("groups", "etc/group"), ("sessions", "tables/sessions"), ("processes", "tables/processes")):
        for kind, make in (("fronts", fronts), ("bytes", bytes_of(IN_LINES))):
            yield Inputs(f"{name}, {kind}", "table", list(make(file(path))), path)


# Inputs that are large: a name, what takes it, the bytes, and what they are answered.

MIB = 1 << 20
FILE = 4 * MIB
KEYS = MIB
TABLE = 16 * MIB
MESSAGE = 16 * MIB


def filled(size, start, item, end=b""):
    """So many bytes: the start, the item as often as it fits, blanks, and the end."""
    count = (size - len(start) - len(end)) // len(item)
    return start + item * count + b" " * (size - len(start) - len(end) - count * len(item)) + end


def numbered(size, start, item, end=b""):
    """As `filled`, each item with its number for {}."""
    parts, room, n = [start], size - len(start) - len(end), 0
    while room >= len(one := item.replace(b"{}", b"%d" % n)):
        parts.append(one)
        room, n = room - len(one), n + 1
    return b"".join(parts) + b" " * room + end


def nested(count, outer, inner):
    """The body and the signature of so many values inside each other."""
    return message(f"signal 1 path=/ interface=a.b member=C : {outer * count}{inner}" + " [" * count + " 1" + " ]" * count)


def variants(count):
    """A signal with a byte inside so many variants."""
    front = message("signal 1 path=/ interface=a.b member=C : v y 1")
    body = b"\1v\0" * (count - 1) + b"\1y\0\1"
    return front[:4] + len(body).to_bytes(4, "little") + front[8:-4] + body


def signal(size, signature, body):
    """A signal of so many bytes, whose body begins so and is filled up with zeros."""
    front = message(f"signal 1 path=/ interface=a.b member=C : {signature} " + ("''" if signature == "s" else "[ ]"))
    room = size - (len(front) - (5 if signature == "s" else 4))
    filled = (room - 5 if signature == "s" else room - 4).to_bytes(4, "little") + body * ((room - 4) // len(body))
    filled = filled[: room - 1] + b"\0" if signature == "s" else filled[:room].ljust(room, b"\0")
    return front[:4] + room.to_bytes(4, "little") + front[8 : -5 if signature == "s" else -4] + filled


def large():
    """Inputs of the greatest length that are costly, if anything is, and those that are a byte longer or a value deeper."""
    root = b"<policyconfig>"
    action = root + b"<action id=\"a\">"
    closed = b"</action></policyconfig>"
    for name, data, wanted in (
        ("an unclosed comment", b"<!--" + b"a" * (FILE - 4), f"Malformed {FILE}"),
        ("an unclosed comment of dashes", b"<!--" + b" -" * (FILE // 2 - 2), f"Malformed {FILE}"),
        ("an unclosed comment that is a byte too long", b"<!--" + b"a" * (FILE - 3), "TooLong 0"),
        ("< alone", b"<" * FILE, "Malformed 0"),
        ("< after a root", root + b"<" * (FILE - 14), "Malformed 14"),
        ("& alone", b"&" * FILE, "Malformed 0"),
        ("& in a text", root + b"<vendor>" + b"&" * (FILE - 22), "Malformed 22"),
        ("references in a text that does not end", filled(FILE, root + b"<vendor>", b"&amp;"), f"Malformed {FILE}"),
        ("attributes of one name", filled(FILE, b"<policyconfig ", b"a='' "), "Malformed 19"),
        ("attributes of many names", numbered(FILE, b"<policyconfig ", b"a{}='' ", b"/>"), ""),
        ("an attribute without an end", b"<policyconfig a='" + b"a" * (FILE - 17), f"Malformed {FILE}"),
        ("nested elements", filled(FILE, b"", b"<policyconfig>"), "Element 14"),
        ("a name", b"<" + b"a" * (FILE - 1), f"Malformed {FILE}"),
        ("an instruction without an end", b"<?a " + b"?" * (FILE - 4), f"Malformed {FILE}"),
        ("a document type without an end", b"<!DOCTYPE " + b"a" * (FILE - 10), f"Malformed {FILE}"),
        ("comments", filled(FILE, root, b"<!---->", b"</policyconfig>"), ""),
        ("blanks", filled(FILE, root, b"\n", b"</policyconfig>"), ""),
        ("annotations of many keys", numbered(FILE, action, b"<annotate key=\"k{}\"/>", closed), ""),
        ("annotations of one key", filled(FILE, action, b"<annotate key=\"k\">v</annotate>", closed), ""),
        ("descriptions of many languages", numbered(FILE, action, b"<description xml:lang=\"l{}\"/>", closed), ""),
    ):
        yield name, "usr/share/polkit-1/actions/a.policy", data, wanted
    for name, data, wanted in (
        ("a file of comments", filled(KEYS, b"", b"#" + b" " * 4094 + b"\n", b"#"), ""),
        ("one group with many keys", numbered(KEYS, b"[g]\nIdentity=*\nAction=*\nResultAny=no\n", b"k{}=\n", b"#"), ""),
        ("one key, given again and again", filled(KEYS, b"[g]\nIdentity=*\nAction=*\nResultAny=no\n", b"k=v\n", b"#"), ""),
        ("[ alone", b"[" * KEYS, "BadHeader 0"),
        ("backslashes", b"[g]\nk=" + b"\\" * (KEYS - 6), "TooLong 4"),
        ("a file that is a byte too long", b"#" * (KEYS + 1), "TooLong 0"),
        ("rules of too many groups", numbered(KEYS, b"", b"[g{}]\nIdentity=*\nAction=*\nResultAny=no\n", b"#"), "LoadRefused Limit Entries 25230"),
        ("one rule of many identities", b"[g]\nIdentity=" + b"a;" * 32767 + b"\nAction=*\nResultAny=no\n", ""),
    ):
        yield name, "etc/polkit-1/localauthority/50-local.d/a.pkla", data, wanted
    for name, data, wanted in (
        ("a table of comments", filled(TABLE, b"", b"#" + b" " * 4094 + b"\n"), ""),
        ("a table of empty lines", b"\n" * TABLE, ""),
        ("a table that is a byte too long", b"\n" * (TABLE + 1), "TooLong"),
        ("a row that fills its table", b"a" * TABLE, "Fields 1"),
    ):
        yield name, "etc/passwd", data, wanted
    for name, data, wanted in (
        ("32 arrays", nested(32, "a", "y"), ""),
        ("33 arrays", nested(33, "a", "y"), "BadBytes Text 68"),
        ("64 variants", variants(64), ""),
        ("65 variants", variants(65), "BadBytes Depth"),
        ("a text of 16 MiB", signal(MESSAGE, "s", b"a"), ""),
        ("numbers of two bytes, 16 MiB of them", signal(MESSAGE, "an", b"\7\0"), ""),
        ("empty arrays, 16 MiB of them", signal(MESSAGE, "aay", b"\0\0\0\0"), ""),
        ("a message that is a byte too long", signal(MESSAGE + 1, "ay", b"\0"), "BadBytes Length 12"),
    ):
        yield name, "pipe", data, wanted

"""What contrib/bus_bridge answers itself: introspection, properties and pings. Nothing here is proved."""
import functools, os
from xml.etree import ElementTree

from bus_messages import dbus_messages
from dbus_messages import AUTHORITY, NAME, OBJECT

DOCS = os.path.join(os.path.dirname(os.path.realpath(__file__)), '../docs')
BUS = 'org.freedesktop.DBus'
PEER, INTROSPECTABLE, PROPERTIES = BUS + '.Peer', BUS + '.Introspectable', BUS + '.Properties'
FAILED = NAME + 'Error.Failed'
# Two methods that came after 0.105, with their signatures, and those that they are handed on as.
RESPONSE, REGISTER = 'AuthenticationAgentResponse', 'RegisterAuthenticationAgent'
LATER_RESPONSE, LATER_REGISTER = (RESPONSE + '2', 'us(sa{sv})'), (REGISTER + 'WithOptions', '(sa{sv})ssa{sv}')
UNKNOWN_METHOD, UNKNOWN_OBJECT, INVALID_ARGS = (BUS + '.Error.' + name for name in ('UnknownMethod', 'UnknownObject', 'InvalidArgs'))
# What polkit 0.105 says of its local authority: 1 says that there are temporary authorizations.
BACKEND = {'BackendName': ('s', 'local'), 'BackendVersion': ('s', '0.105'), 'BackendFeatures': ('u', 1)}
STANDARD = f"""<node>
<interface name="{PEER}"><method name="Ping"/><method name="GetMachineId"><arg name="machine_uuid" type="s" direction="out"/></method></interface>
<interface name="{INTROSPECTABLE}"><method name="Introspect"><arg name="xml_data" type="s" direction="out"/></method></interface>
<interface name="{PROPERTIES}">
<method name="Get"><arg name="interface" type="s" direction="in"/><arg name="name" type="s" direction="in"/><arg name="value" type="v" direction="out"/></method>
<method name="GetAll"><arg name="interface" type="s" direction="in"/><arg name="values" type="a{{sv}}" direction="out"/></method>
</interface></node>"""


class Refused(Exception):
    """A call that is answered with an error of this name."""

    def __init__(self, name, text):
        super().__init__(text)
        self.name = name


def arguments(message):
    """The values of a call."""
    try:
        return message.values()
    except KeyError:
        raise Refused(INVALID_ARGS, 'A type of the arguments is not of this interface') from None


@functools.lru_cache
def authority_xml():
    """The XML of the authority: that of docs/, without Announce, and with what is answered here."""
    node = ElementTree.parse(os.path.join(DOCS, 'org.freedesktop.PolicyKit1.Authority.xml')).getroot()
    for interface in node.findall('interface'):
        for method in interface.findall("method[@name='Announce']"):
            interface.remove(method)
        if interface.get('name') == AUTHORITY:
            for name, (kind, _) in BACKEND.items():
                ElementTree.SubElement(interface, 'property', name=name, type=kind, access='read')
            for name, types in (LATER_RESPONSE, LATER_REGISTER):
                method = ElementTree.SubElement(interface, 'method', name=name)
                for kind in dbus_messages.each(types):
                    ElementTree.SubElement(method, 'arg', type=kind, direction='in')
    node.extend(ElementTree.fromstring(STANDARD))
    return ElementTree.tostring(node, encoding='unicode')


def introspected(path):
    """The XML of an object: of the authority, or of one on the way to it."""
    if path == OBJECT:
        return authority_xml()
    front = path.rstrip('/') + '/'
    child = OBJECT[len(front):].partition('/')[0] if OBJECT.startswith(front) else ''
    return f'<node><node name="{child}"/></node>' if child else '<node/>'


def machine_id():
    for path in ('/etc/machine-id', '/var/lib/dbus/machine-id'):
        if os.path.exists(path):
            with open(path, encoding='ascii') as file:
                return file.read().strip()
    raise Refused(BUS + '.Error.FileNotFound', 'This machine has no id')


def backend(path, interface):
    """The properties of an interface."""
    if path != OBJECT:
        raise Refused(UNKNOWN_OBJECT, 'No such object')
    return BACKEND if interface == AUTHORITY else {}


def one_property(path, interface, name):
    found = backend(path, interface).get(name)
    if found is None:
        raise Refused(INVALID_ARGS, 'No such property')
    return found


def read_only(path, interface, name, _value):
    one_property(path, interface, name)
    raise Refused(BUS + '.Error.PropertyReadOnly', 'The property is read only')


# What is answered here: for an interface and a member the signature, that of the answer, and the answer as a function of the object
# and the arguments.
OWN = {
    (PEER, 'Ping'): ('', '', lambda _: None),
    (PEER, 'GetMachineId'): ('', 's', lambda _: machine_id()),
    (INTROSPECTABLE, 'Introspect'): ('', 's', introspected),
    (PROPERTIES, 'Get'): ('ss', 'v', one_property),
    (PROPERTIES, 'GetAll'): ('s', 'a{sv}', backend),
    (PROPERTIES, 'Set'): ('ssv', '', read_only),
}

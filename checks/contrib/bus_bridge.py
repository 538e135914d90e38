"""contrib/bus_bridge between a private bus and a daemon: the programs of polkit, gdbus and busctl, and clients and agents of our own."""
import os, pty, pwd, queue, re, select, shutil, signal, subprocess, time

import dbus_messages
from dbus_messages import AUTHORITY, NAME, OBJECT, PROFILE, process
from over_daemon import PATIENCE, TOP, Daemon, start_of, waited

BRIDGE = os.path.join(TOP, 'contrib/bus_bridge')
BUS, OWN = 'org.freedesktop.DBus', 'org.freedesktop.PolicyKit1'
SHOW, SET, MOUNT = 'org.example.clock.show', 'org.example.clock.set', 'org.example.disks.mount'
# Who runs this has a door and is bob. Where that is root, bob is another user of this system, since a bus knows no others, and has a door
# too, and a third one has none.
ME = os.getuid()
OTHERS = [row.pw_uid for row in pwd.getpwall() if row.pw_uid not in (0, 1000)]
USER, NOBODY = ME or OTHERS[0], OTHERS[-1]
CONFIGURATION = """<!DOCTYPE busconfig PUBLIC "-//freedesktop//DTD D-Bus Bus Configuration 1.0//EN" "http://www.freedesktop.org/standards/dbus/1.0/busconfig.dtd">
<busconfig><listen>unix:path={}</listen><auth>EXTERNAL</auth><policy context="default"><allow user="*"/><allow own="*"/><allow send_destination="*"/>
<allow send_type="method_call"/><allow receive_type="method_call"/><allow send_requested_reply="true"/><allow receive_requested_reply="true"/><allow receive_type="signal"/></policy></busconfig>
"""


class Bus:
    """A private bus in the folder, which every user can reach, and the bridges on it."""

    def __init__(self, folder):
        os.chmod(folder, 0o755)
        self.path = os.path.join(folder, 'bus')
        self.address = 'unix:path=' + self.path
        with open(os.path.join(folder, 'bus.conf'), 'w', encoding='utf-8') as file:
            file.write(CONFIGURATION.format(self.path))
        self.programs = [subprocess.Popen(['dbus-daemon', '--config-file=' + file.name, '--nofork', '--nopidfile'], stdout=subprocess.DEVNULL, stderr=subprocess.DEVNULL)]

    def bridge(self, daemon, *words):
        """A bridge over all doors of a daemon, once it stands or has ended."""
        doors = [word for door in daemon.doors for word in ('--door', door)]
        bridge = subprocess.Popen([BRIDGE, '--bus', self.address, *doors, *words], stdout=subprocess.PIPE, stderr=subprocess.PIPE, text=True)
        self.programs.append(bridge)
        bridge.first = bridge.stdout.readline()
        return bridge

    def run(self, *words, **options):
        """What a program that knows the system bus says: its status and both outputs."""
        env = {**os.environ, 'DBUS_SYSTEM_BUS_ADDRESS': self.address, 'LC_ALL': 'C.UTF-8'}
        ran = subprocess.run(words, env=env, stdin=subprocess.DEVNULL, stdout=subprocess.PIPE, stderr=subprocess.PIPE, text=True, timeout=PATIENCE, cwd='/', **options)
        return ran.returncode, ran.stdout, ran.stderr

    def __enter__(self):
        return self

    def __exit__(self, *_):
        for program in self.programs:
            if program.poll() is None:
                program.kill()
            program.wait()


class Peer:
    """A client on the bus."""

    def __init__(self, bus):
        self.link, self.serial = dbus_messages.Link(bus.path, ME, PATIENCE), 0
        self.questions, self.signals, self.answers = queue.Queue(), [], {}
        self.name = self.ask('Hello', path='/org/freedesktop/DBus', interface=BUS, destination=BUS)[0]

    def send(self, member, types='', *values, path=OBJECT, interface=AUTHORITY, destination=OWN):
        """Makes a call, and answers its serial."""
        self.serial += 1
        self.link.send(dbus_messages.written('call', self.serial, types, values, path=path, interface=interface, member=member, destination=destination))
        return self.serial

    def take(self):
        message = self.link.next()
        if message.kind == 'call':
            self.questions.put(message)
        elif message.kind == 'signal':
            self.signals.append(message.fields['member'])
        else:
            self.answers[message.fields['answers']] = message

    def answer(self, serial):
        """What a call is answered: its values, or the name of the error."""
        while serial not in self.answers:
            self.take()
        message = self.answers.pop(serial)
        return message.fields.get('error') or message.values

    def ask(self, *words, **fields):
        return self.answer(self.send(*words, **fields))

    def question(self):
        while self.questions.empty():
            self.take()
        return self.questions.get()

    def reply(self, question, error=None):
        """Answers a question, as an agent."""
        self.serial += 1
        fields = {'error': NAME + 'Error.' + error} if error else {}
        self.link.send(dbus_messages.written('error' if error else 'return', self.serial, answers=question.serial, destination=question.fields['sender'], **fields))

    def checking(self, subject, action, ask=False, cancel=''):
        return self.send('CheckAuthorization', '(sa{sv})sa{ss}us', subject, action, {}, int(ask), cancel)


def decided(answer):
    """What decided a check, or the error."""
    return answer if isinstance(answer, str) else (answer[0][0], answer[0][2]['polkit.decided-by'])


def named(name):
    return 'system-bus-name', {'name': ('s', name)}


def without(told, *names):
    """Whether one of these programs is not installed, which a line says."""
    missing = [name for name in names if not shutil.which(name)]
    for name in missing:
        print(f'contrib/bus_bridge: {name} is not installed, and not tried')
    return bool(missing)


def by_polkit(told, bus, daemon, pid):
    """pkcheck and pkaction of an installed polkit, beside polkitctl."""
    tool = [os.path.join(TOP, 'contrib/polkitctl'), '--door', daemon.doors[0]]
    if not without(told, 'pkaction'):
        for theirs, ours in [((), ()), (('-v',), ('-v',)), (('-v', '-a', SET), ('-v', SET)), (('-a', 'org.example.none'), ('org.example.none',))]:
            told.same(f'pkaction {theirs} as polkitctl', bus.run('pkaction', *theirs), bus.run(*tool, 'actions', *ours))
    if without(told, 'pkcheck'):
        return
    subject = ('-p', f'{pid},{start_of(pid)}')
    for action, status in [(MOUNT, 0), (SHOW, 2), (SET, 2)]:
        words = ('-a', action, *subject)
        found = bus.run('pkcheck', *words)
        told.same(f'pkcheck of {action}', found[0], status)
        told.same(f'pkcheck of {action} as polkitctl', found, bus.run(*tool, 'check', *words))
    status, _, fault = bus.run('pkcheck', '-a', 'org.example.none', *subject)
    told.same('pkcheck of no action', (status, NAME + 'Error.Failed' in fault), (127, True))
    told.same('pkcheck of the pid alone', bus.run('pkcheck', '-a', MOUNT, '-p', str(pid))[0], 0)


def by_user(told, bus, pid):
    """pkcheck as other users, where root runs this: of bob, who has a door, and of one who has none."""
    if ME or len(OTHERS) < 2 or without(told, 'pkcheck'):
        return
    told.same('pkcheck by bob', bus.run('pkcheck', '-a', MOUNT, '-p', str(pid), user=USER)[0], 0)
    for user, subject, error in [(USER, '50,7', 'Error.NotAuthorized'), (NOBODY, str(pid), 'Error.NotAuthorized')]:
        status, _, fault = bus.run('pkcheck', '-a', SHOW, '-p', subject, user=user)
        told.same(f'pkcheck by {user} of {subject}', (status, NAME + error in fault), (127, True))
    told.same('the reason', f'The user {NOBODY} has no door' in fault, True)


def by_glib(told, bus):
    """gdbus and busctl."""
    place = ('--dest', OWN, '--object-path', OBJECT)
    if not without(told, 'gdbus'):
        status, said, _ = bus.run('gdbus', 'introspect', '--system', *place)
        told.same('gdbus introspect', (status, re.findall(r'Backend\w+ = .*;', said), 'CheckAuthorization(' in said, 'Announce' in said),
                  (0, ["BackendName = 'local';", "BackendVersion = '0.105';", 'BackendFeatures = 1;'], True, False))
        status, said, _ = bus.run('gdbus', 'call', '--system', *place, '--method', AUTHORITY + '.EnumerateActions', 'de')
        told.same('gdbus call', (status, 'Zum Stellen der Uhr ist Authentifizierung nötig' in said), (0, True))
    if not without(told, 'busctl'):
        status, said, _ = bus.run('busctl', 'call', OWN, OBJECT, AUTHORITY, 'EnumerateActions', 's', 'de')
        told.same('busctl call', (status, said.startswith('a(ssssssuuua{ss}) 3 ')), (0, True))
        told.same('busctl tree', OBJECT in bus.run('busctl', '--list', 'tree', OWN)[1].splitlines(), True)


def by_peer(told, bus, pid):
    """Calls that the bridge answers, and subjects that it translates."""
    peer, unknown = Peer(bus), f'{BUS}.Error.UnknownMethod'
    for words, fields, wanted in [
            (('Ping',), {'interface': BUS + '.Peer', 'path': '/'}, ()),
            (('Get', 'ss', AUTHORITY, 'BackendName'), {'interface': BUS + '.Properties'}, ('local',)),
            (('Get', 'ss', AUTHORITY, 'Other'), {'interface': BUS + '.Properties'}, f'{BUS}.Error.InvalidArgs'),
            (('Get', 'ss', AUTHORITY, 'BackendName'), {'interface': BUS + '.Properties', 'path': '/'}, f'{BUS}.Error.UnknownObject'),
            (('GetAll', 's', AUTHORITY), {'interface': BUS + '.Properties'}, ({'BackendName': 'local', 'BackendVersion': '0.105', 'BackendFeatures': 1},)),
            (('Set', 'ssv', AUTHORITY, 'BackendName', ('s', 'x')), {'interface': BUS + '.Properties'}, f'{BUS}.Error.PropertyReadOnly'),
            (('Introspect',), {'interface': BUS + '.Introspectable', 'path': '/org/freedesktop'}, ('<node><node name="PolicyKit1" /></node>',)),
            (('EnumerateActions', 's', ''), {'path': '/other'}, f'{BUS}.Error.UnknownObject'),
            (('Announce', 'ut', 1, 1), {'interface': PROFILE}, unknown), (('Other',), {}, unknown), (('Get',), {}, unknown),
            (('EnumerateActions', 'u', 1), {}, f'{BUS}.Error.InvalidArgs')]:
        found = peer.ask(*words, **fields)
        told.same(f'bus_bridge {words}', tuple(value.replace('"/>', '" />') if isinstance(value, str) else value for value in found) if isinstance(found, tuple) else found, wanted)
    me = process(os.getpid(), start_of(os.getpid()))
    for subject, action, wanted in [
            (process(pid, start_of(pid)), MOUNT, (True, 'entry:2')), (process(pid, 0), MOUNT, (True, 'entry:2')), (me, MOUNT, (True, 'entry:2')), (named(peer.name), MOUNT, (True, 'entry:2')),
            (process(pid, 1), MOUNT, NAME + 'Error.Failed'), (process(4194305, 0), MOUNT, NAME + 'Error.Failed'), (named(':1.4711'), MOUNT, NAME + 'Error.Failed'),
            (named(BUS), MOUNT, NAME + 'Error.Failed'), (('system-bus-name', {'other': ('s', ':1.1')}), MOUNT, f'{BUS}.Error.InvalidArgs'),
            (('unix-session', {'session-id': ('s', 's2')}), MOUNT, (True, 'entry:2'))]:
        told.same(f'bus_bridge: a check of {subject}', decided(peer.answer(peer.checking(subject, action))), wanted)


def responded(told, peer, question):
    """The response of a later polkit: for the agent's user alone, and, as any, by uid 0 alone."""
    identity, respond = ('unix-user', {'uid': ('u', question.values[5][0][1]['uid'])}), 'AuthenticationAgentResponse2'
    for uid, cookie, wanted in [(ME + 1, question.values[4], NAME + 'Error.Failed'), (ME, 'no cookie', NAME + 'Error.Failed'), (ME, question.values[4], NAME + 'Error.NotAuthorized' if ME else ())]:
        told.same(f'a response for {uid}', peer.ask(respond, 'us(sa{sv})', uid, cookie, identity), wanted)


def dialogues(told, bus, daemon, pid):
    """An agent on the bus, whose questions come and whose answers go over it."""
    agent, asker, subject = Peer(bus), Peer(bus), process(pid, start_of(pid))
    session = ('unix-session', {'session-id': ('s', 's2')})
    told.same('an agent registers', agent.ask('RegisterAuthenticationAgentWithOptions', '(sa{sv})ssa{sv}', session, 'C', '/agent', {'fallback': ('b', True)}), ())
    told.same('it unregisters', agent.ask('UnregisterAuthenticationAgent', '(sa{sv})s', session, '/agent'), ())
    told.same('it registers again', agent.ask('RegisterAuthenticationAgent', '(sa{sv})ss', session, 'C', '/agent'), ())
    told.same('no second one', asker.ask('RegisterAuthenticationAgent', '(sa{sv})ss', session, 'C', '/agent'), NAME + 'Error.Failed')
    helper = dbus_messages.Link(next(door for door in daemon.doors if door.startswith('0:')).split(':')[1], 0, PATIENCE)
    for error, wanted in [('Cancelled', (False, 'dismissed')), ('Failed', (False, 'challenge')), (None, (True, 'challenge'))]:
        serial = asker.checking(subject, SET, ask=True)
        question = agent.question()
        told.same('the question', (question.fields['path'], question.fields['member'], question.values[0]), ('/agent', 'BeginAuthentication', SET))
        if error is None:
            responded(told, asker, question)
            helper.ask('AuthenticationAgentResponse', 's(sa{sv})', question.values[4], dbus_messages.user(question.values[5][0][1]['uid']))
        agent.reply(question, error)
        told.same(f'an agent that answers {error}', decided(asker.answer(serial)), wanted)
    (grant,), = asker.ask('EnumerateTemporaryAuthorizations', '(sa{sv})', subject)
    told.same('what is kept', (grant[1], asker.ask('RevokeTemporaryAuthorizationById', 's', grant[0])), (SET, ()))
    serial = asker.checking(subject, SET, ask=True, cancel='one')
    question = agent.question()
    told.same('a check is cancelled', (asker.ask('CancelCheckAuthorization', 's', 'one'), asker.answer(serial)), ((), NAME + 'Error.Cancelled'))
    end = agent.question()
    told.same('the agent is told', (end.fields['member'], end.values), ('CancelAuthentication', (question.values[4],)))
    serial = asker.checking(subject, SET, ask=True)
    agent.question()
    agent.link.close()
    told.same('an agent that leaves', decided(asker.answer(serial)), (False, 'agent-gone'))


def by_terminal(told, bus, pid):
    """The agent of an installed polkit at a terminal, which shows the question and then is killed."""
    if without(told, 'pkttyagent', 'pkcheck'):
        return
    registered, tells = os.pipe()
    subject, asking = f'{pid},{start_of(pid)}', f'==== AUTHENTICATING FOR {SET} ==='.encode()
    agent, terminal = pty.fork()
    if not agent:
        os.set_inheritable(tells, True)
        os.execvpe('pkttyagent', ['pkttyagent', '--process', subject, '--notify-fd', str(tells)], {**os.environ, 'DBUS_SYSTEM_BUS_ADDRESS': bus.address})
    os.close(tells)
    told.same('pkttyagent registers', os.read(registered, 1), b'')
    words = ['pkcheck', '-a', SET, '-p', subject, '-u']
    asker = subprocess.Popen(words, env={**os.environ, 'DBUS_SYSTEM_BUS_ADDRESS': bus.address}, stdin=subprocess.DEVNULL, stdout=subprocess.PIPE, stderr=subprocess.PIPE, text=True)
    shown = b''
    while asking not in shown and select.select([terminal], [], [], PATIENCE)[0]:
        shown += os.read(terminal, 4096)
    told.same('pkttyagent shows the question', asking in shown, True)
    os.kill(agent, signal.SIGKILL)
    os.waitpid(agent, 0)
    said, fault = asker.communicate(timeout=PATIENCE)
    told.same('pkcheck by an agent that is killed', (asker.returncode, said, fault), (1, 'polkit\\56decided\\55by=agent\\55gone\n', 'Not authorized.\n'))
    for end in (registered, terminal):
        os.close(end)


def changed(told, bus, daemon):
    """The signal after a reload comes to whoever wants it."""
    peer = Peer(bus)
    peer.ask('AddMatch', 's', f"interface='{AUTHORITY}'", path='/org/freedesktop/DBus', interface=BUS, destination=BUS)
    if ME:
        dbus_messages.Link(daemon.doors[-1].split(':')[1], 0, PATIENCE).ask('Reload', '', interface=PROFILE)
    else:
        told.same('Reload over the bus', peer.ask('Reload', interface=PROFILE), ())
    while 'Changed' not in peer.signals:
        peer.take()
    told.same('Changed comes once', peer.signals.count('Changed'), 1)


def slots(told, bus, daemon, pid):
    """Senders that stay connected while they ask nothing. The daemon has eight slots at the door, of which the bridge has one."""
    peers, subject = [Peer(bus) for _ in range(12)], process(pid, start_of(pid))
    for peer in peers:
        found = decided(peer.answer(peer.checking(subject, MOUNT)))
        if found != (True, 'entry:2'):
            break
    told.same('twelve senders that stay', found, (True, 'entry:2'))
    serials = [peers[0].checking(subject, MOUNT) for _ in range(100)]
    told.same('a hundred calls at once', {decided(peers[0].answer(serial)) for serial in serials}, {(True, 'entry:2')})
    serials = [peers[0].checking(process(pid, 0), MOUNT) for _ in range(600)]
    found = {decided(peers[0].answer(serial)) for serial in serials}
    told.same('six hundred calls at once', (found - {(True, 'entry:2'), f'{BUS}.Error.LimitsExceeded'}, (True, 'entry:2') in found), (set(), True))


def ends(told, bus, daemon, bridge):
    """How it ends, and faults at its start."""
    told.same('a second one', (second := bus.bridge(daemon)) and (second.wait(PATIENCE), second.stderr.read()), (1, f'bus_bridge: {OWN} has another owner on this bus\n'))
    bridge.send_signal(signal.SIGTERM)
    told.same('SIGTERM', (bridge.wait(PATIENCE), bridge.stderr.read()), (0, ''))
    third = bus.bridge(daemon)
    daemon.process.kill()
    told.same('a daemon that is gone', (third.first != '', third.wait(PATIENCE), third.stderr.read()), (True, 1, 'bus_bridge: the daemon closed the connection\n'))
    for words, wanted in [(('--bus', 'x'), (2, 'bus_bridge: the following arguments are required: --door (bus_bridge --help says more)\n')),
                          (('--bus', 'x', '--door', '0:/absent'), (1, "bus_bridge: [Errno 2] No such file or directory: '/absent'\n")), (('--door', '0'), (2, None))]:
        ran = subprocess.run([BRIDGE, *words], stdout=subprocess.PIPE, stderr=subprocess.PIPE, text=True, timeout=PATIENCE)
        told.same(f'bus_bridge {words}', (ran.returncode, wanted[1] and ran.stderr), wanted)


def full(told, bus, programs, folder):
    """A daemon whose journal is full ends, and the bridge with it: who asks is refused, and nobody waits without an end."""
    with Daemon(programs.polkitd, folder, f'{ME}:mine', words=('--entries', '60')) as daemon:
        told.same('full: the daemon listens', daemon.listens(), True)
        bridge, found, begin = bus.bridge(daemon, '--idle', '0.5'), [], time.monotonic()
        peers = [Peer(bus) for _ in range(3)]
        for peer in peers * 20:
            found.append(peer.ask('EnumerateActions', 's', ''))
            if time.monotonic() > begin + 8:
                break
        refused = {answer for answer in found if isinstance(answer, str)}
        told.same('full: the first are answered', all(isinstance(answer, tuple) for answer in found[:10]), True)
        told.same('full: then they are refused', (found[-1] in refused, refused - {NAME + 'Error.Failed', *(f'{BUS}.Error.{name}' for name in ('LimitsExceeded', 'NoReply', 'ServiceUnknown'))}), (True, set()))
        told.same('full: the bridge ends', (bridge.wait(PATIENCE), bridge.stderr.read()), (1, 'bus_bridge: the daemon closed the connection\n'))


def check(told, programs, folder):
    if without(told, 'dbus-daemon'):
        return
    os.mkdir(os.path.join(folder, 'full'))
    sleeper = subprocess.Popen(['sleep', '600'])
    pid, doors = sleeper.pid, ['0:system', f'{USER}:bob'] if ME == 0 else [f'{ME}:mine', '0:system']
    rows = [f'{one} {start_of(one)} {USER} s2' for one in (pid, os.getpid())]
    try:
        with Daemon(programs.polkitd, folder, *doors, processes=rows, user=USER) as daemon, Bus(folder) as bus:
            told.same('bus_bridge: the daemon and the bus', (daemon.listens(), waited(lambda: os.path.exists(bus.path))), (True, True))
            bridge = bus.bridge(daemon, '--idle', '0.2')
            told.same('bus_bridge stands', bridge.first, f'bus_bridge: stands for {OWN}\n')
            by_polkit(told, bus, daemon, pid)
            by_user(told, bus, pid)
            by_glib(told, bus)
            by_peer(told, bus, pid)
            dialogues(told, bus, daemon, pid)
            by_terminal(told, bus, pid)
            changed(told, bus, daemon)
            slots(told, bus, daemon, pid)
            ends(told, bus, daemon, bridge)
            full(told, bus, programs, os.path.join(folder, 'full'))
    finally:
        sleeper.kill()
        sleeper.wait()

"""contrib/polkitctl over a daemon: its commands, with their statuses and what they say."""
import os, re, subprocess

import dbus_messages
from over_daemon import PATIENCE, TOP, Daemon, start_of

SHOW, SET, MOUNT = 'org.example.clock.show', 'org.example.clock.set', 'org.example.disks.mount'
SKIPPED = ['usr/share/polkit-1/actions/org.example.disks.policy Again 1', 'usr/share/polkit-1/actions/org.example.network.policy DefaultWord 75',
           'etc/polkit-1/localauthority/50-local.d/org.example.old.pkla MissingKey 0']


def runner(folder, door):
    """How the tool is run at this door: a function from its words to the status and both outputs."""
    def run(*words):
        ran = subprocess.run([os.path.join(TOP, 'contrib/polkitctl'), *words], cwd=folder, env={**os.environ, 'POLKIT_DOOR': door, 'TZ': 'UTC'}, stdout=subprocess.PIPE,
                             stderr=subprocess.PIPE, text=True, timeout=PATIENCE)
        return ran.returncode, ran.stdout, ran.stderr
    return run


def words_of(told, run):
    """Wrong words, and doors where nobody is."""
    for words, text in [((), 'are required: COMMAND'), (('check', '-a', SHOW), 'are required: -p/--process'), (('check', '-a', SHOW, '-p', 'x'), "'x' is not PID or PID,START"),
                        (('grants',), 'one of the arguments -p/--process -s/--session is required'), (('actions', '--door', 'x'), "'x' is not UID:PATH"), (('other',), 'invalid choice')]:
        status, said, fault = run(*words)
        told.same(f'polkitctl {words}', (status, said, text in fault, fault.count('\n')), (126, '', True, 1))
    status, said, fault = run('actions', '--door', '0:absent')
    told.same('polkitctl at no door', (status, said, fault), (127, '', "polkitctl: [Errno 2] No such file or directory: 'absent'\n"))
    status, said, fault = run('actions', '--door', '7:system')
    told.same('polkitctl at the door of another', (status, said, fault), (127, '', 'polkitctl: the door system is not that of the user 7, or nobody serves there\n'))
    status, said, _ = run('--help')
    told.same('polkitctl --help', (status, 'is not proved' in said), (0, True))


def asked(told, run):
    """Actions and checks."""
    told.same('polkitctl actions', run('actions'), (0, 'org.example.clock.set\norg.example.clock.show\norg.example.disks.mount\n', ''))
    status, said, _ = run('actions', '-v', SET)
    told.same('polkitctl actions -v', (status, said.splitlines()[0], re.findall('  implicit active: +(.*)', said)), (0, SET + ':', ['auth_admin_keep']))
    told.same('polkitctl actions of no action', run('actions', 'org.example.none'), (1, '', 'No action with action id org.example.none\n'))
    decided = 'polkit\\56decided\\55by='
    for words, wanted in [(('-a', MOUNT, '-p', '51,8'), (0, decided + 'entry\\722\n', '')),
                          (('-a', SET, '-p', f'{os.getpid()}'), (0, decided + 'root\n', '')),
                          (('-a', 'org.example.none', '-p', '51,8'), (127, '', 'polkitctl: Error checking for authorization org.example.none: org.freedesktop.PolicyKit1.Error.Failed The action is not registered\n')),
                          (('-a', MOUNT, '-p', '1'), (127, '', None)), (('-a', MOUNT, '-p', '4194305'), (127, '', 'polkitctl: there is no process 4194305\n'))]:
        found = run('check', *words)
        told.same(f'polkitctl check {words}', found[:2] + (wanted[2] and found[2],), wanted)


def kept(told, run, daemon):
    """A challenge that an agent answers, and what is kept of it."""
    status, said, fault = run('check', '-a', SET, '-p', '51,8')
    told.same('polkitctl check without asking', (status, 'retains' in said, fault), (2, True, "Authorization requires authentication and -u wasn't passed.\n"))
    status, _, fault = run('check', '-a', SET, '-p', '51,8', '-u')
    told.same('polkitctl check without an agent', (status, fault), (2, 'Authorization requires authentication but no agent is available.\n'))
    agent, helper = (dbus_messages.Link(daemon.doors[0].split(':')[1], 0, PATIENCE) for _ in range(2))
    agent.ask('RegisterAuthenticationAgent', '(sa{sv})ss', ('unix-session', {'session-id': ('s', 's2')}), 'C', '/agent')
    env = {**os.environ, 'POLKIT_DOOR': daemon.doors[0]}
    for serial, error, wanted in [(2, 'Cancelled', (3, 'Authentication request was dismissed.\n')), (3, 'Failed', (1, 'Not authorized.\n')), (4, None, (0, ''))]:
        asking = subprocess.Popen([os.path.join(TOP, 'contrib/polkitctl'), 'check', '-a', SET, '-p', '51,8', '-u'], env=env, stdout=subprocess.PIPE, stderr=subprocess.PIPE, text=True)
        while (question := agent.next()).fields.get('member') != 'BeginAuthentication':
            pass
        if error is None:
            helper.ask('AuthenticationAgentResponse', 's(sa{sv})', question.values[4], dbus_messages.user(1000))
        agent.send(dbus_messages.answer(question, serial, error and f'{dbus_messages.NAME}Error.{error}'))
        _, fault = asking.communicate(timeout=PATIENCE)
        told.same(f'polkitctl check with an agent that answers {error}', (asking.returncode, fault), wanted)
    status, said, _ = run('grants', '-p', '51,8')
    told.same('polkitctl grants', (status, said.splitlines()[:3]), (0, ['authorization id: tmpauthz0', f'action:           {SET}', 'subject:          unix-process:51:8']))
    told.same('polkitctl revoke', run('revoke', 'tmpauthz0'), (0, '', ''))
    told.same('polkitctl revoke again', run('revoke', 'tmpauthz0')[::2], (127, 'polkitctl: org.freedesktop.PolicyKit1.Error.Failed No such temporary authorization\n'))
    told.same('polkitctl grants when there are none', run('grants', '-s', 's2'), (0, '', ''))


def costs(run, words):
    """The bytes that a load costs, as the tool says it."""
    return int(re.match(r'a load costs (\d+) bytes of 536870912, ', run('cost', *words)[1])[1])


def reloaded(told, run, daemon, program):
    """Reloads: what is newly skipped, a load that is refused, and what the daemon answers then."""
    words = ('--root', daemon.root, '--polkitd', program)
    new = ''.join(f'new: skipped {daemon.root}/{line}\n' for line in SKIPPED)
    before, after = costs(run, words), daemon.add('tables/processes', '78 9 1001 s2') or costs(run, words)
    told.same('polkitctl cost: of a process that is added', after - before, 64 + len('s2'))
    status, said, fault = run('reload', *words)
    told.same('polkitctl reload, not accepted', (status, said, fault.startswith(new + 'not reloaded: ')), (1, '', True))
    told.same('polkitctl reload --force', run('reload', *words, '--force'), (0, 'reloaded, 3 skipped\n', new))
    daemon.add('tables/processes', '77 9 1001 s2')
    told.same('polkitctl check of a new process', run('check', '-a', MOUNT, '-p', '77,9')[0], 127)
    told.same('polkitctl reload, accepted before', run('reload', *words), (0, 'reloaded, 3 skipped\n', ''))
    told.same('polkitctl check of it after a reload', run('check', '-a', MOUNT, '-p', '77,9')[0], 0)
    daemon.add('etc/polkit-1/localauthority/90-mandatory.d/50-show.pkla', '[no result]', 'Identity=unix-user:*', 'Action=*')
    status, said, fault = run('reload', *words)
    told.same('polkitctl reload, a rule that is skipped now', (status, said, fault.count('new: '), '90-mandatory.d/50-show.pkla' in fault), (1, '', 1, True))
    daemon.add('tables/processes', '77 9 1001 s2')
    status, said, fault = run('reload', *words, '--force')
    told.same('polkitctl reload, a load that would be refused', (status, said, fault.splitlines()), (1, '', ['not reloaded: the load would be refused: LoadRefused BadTable tables/processes Repeated 7']))
    told.same('polkitctl reload of no root', run('reload', '--root', '', '--polkitd', program)[0], 1)
    told.same('polkitctl reload without a program', run('reload', '--root', daemon.root, '--polkitd', '/absent')[::2], (127, "polkitctl: [Errno 2] No such file or directory: '/absent'\n"))


def refused(told, run, daemon, program):
    """A load that only the daemon refuses: another root is looked at than the one that it reads."""
    other = os.path.join(TOP, 'examples/root')
    try:
        os.symlink(other, os.path.join(daemon.folder, 'other'))
        status, said, fault = run('reload', '--root', 'other', '--polkitd', program, '--force', '--seconds', '3')
        told.same('polkitctl reload that the daemon refuses', (status, said, fault.splitlines()[3:]), (1, '', ['no Changed came within 3 seconds: the load was refused, or is not made yet']))
        told.same('nothing is kept of it', os.path.exists(os.path.join(other, 'tables/skipped')), False)
        status, said, fault = run('cost', '--root', daemon.root, '--polkitd', program)
        told.same('polkitctl cost of a root that is refused', (status, said, fault), (127, '', 'polkitctl: the load would be refused: LoadRefused BadTable tables/processes Repeated 7\n'))
    finally:
        os.unlink(os.path.join(daemon.folder, 'other'))


def check(told, programs, folder):
    me = f'{os.getpid()} {start_of(os.getpid())} 0 -'
    with Daemon(programs.polkitd, folder, '0:system', processes=[me]) as daemon:
        told.same('polkitctl: the daemon listens', daemon.listens(), True)
        run = runner(folder, daemon.doors[0])
        words_of(told, run)
        asked(told, run)
        kept(told, run, daemon)
        reloaded(told, run, daemon, programs.polkitd)
        refused(told, run, daemon, programs.polkitd)

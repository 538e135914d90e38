"""./install with the tools and the files of systemd: the units are verified where systemd is installed, and the health of a daemon is asked."""
import os, re, shutil, subprocess, time

TOP = os.path.join(os.path.dirname(os.path.abspath(__file__)), '../..')
PATIENCE = 20
INSTALLED = ['bin/pkaudit-proved', 'bin/pkcheck-proved', 'bin/pkexplain-proved', 'bin/polkit_agent-proved', 'bin/polkitd-proved',
             'lib/polkit-proved/pkaudit', 'lib/polkit-proved/pkcheck', 'lib/polkit-proved/pkexplain', 'lib/polkit-proved/polkit_agent', 'lib/polkit-proved/polkitd',
             'share/man/man1/pkaudit-proved.1', 'share/man/man1/pkcheck-proved.1', 'share/man/man1/pkexplain-proved.1', 'share/man/man1/polkit_agent-proved.1', 'share/man/man5/polkitd-root.5', 'share/man/man5/polkitd-scenario.5',
             'share/man/man8/polkitd-proved.8']
CLASHES = {'pkcheck', 'polkitd', 'polkit_agent', 'pkcheck.1', 'polkitd.8', 'polkit.service', 'pkaction', 'pkexec', 'pkttyagent'}


def ran(*words, **options):
    """The status, the output and the faults of a command."""
    done = subprocess.run(words, stdin=subprocess.DEVNULL, stdout=subprocess.PIPE, stderr=subprocess.PIPE, text=True, timeout=PATIENCE * 3, **options)
    return done.returncode, done.stdout, done.stderr


def files_below(folder):
    return sorted(os.path.relpath(os.path.join(place, name), folder) for place, _, names in os.walk(folder) for name in names)


def programs_in(folder, programs):
    """A folder with the programs; one that was not given is stood in for by a file."""
    os.makedirs(folder)
    for name in ('polkitd', 'pkcheck', 'polkit_agent', 'pkexplain', 'pkaudit'):
        path = getattr(programs, name, None) or os.path.join(os.path.dirname(programs.polkitd), name)
        if os.path.isfile(path):
            shutil.copy(path, f'{folder}/{name}')
        else:
            with open(f'{folder}/{name}', 'w', encoding='ascii') as file:
                file.write('#!/bin/sh\n')
            os.chmod(f'{folder}/{name}', 0o755)


def install(told, programs, folder, prefix):
    tool, given = os.path.join(TOP, 'install'), ('--programs', f'{folder}/programs')
    programs_in(f'{folder}/programs', programs)
    status, said, _ = ran(tool, '--dry-run', *given, prefix)
    told.same('install: a dry run makes nothing', (status, len(said.splitlines()), os.path.exists(prefix)), (0, len(INSTALLED), False))
    told.same('install: the status', ran(tool, *given, prefix)[0], 0)
    told.same('install: what is installed', files_below(prefix), INSTALLED)
    with open(f'{prefix}/share/man/man8/polkitd-proved.8', encoding='utf-8') as page:
        text = page.read()
    told.same('install: the names in a page', (re.findall(r'^\.(?:Dt|Xr) (?:POLKITD|pkcheck|polkit_agent)\S*', text, re.MULTILINE), re.findall(r'(\S+) (?:serve|replay) --root', text)),
              (['.Dt POLKITD-PROVED', '.Xr pkcheck-proved', '.Xr polkit_agent-proved'], ['polkitd-proved'] * 2))
    told.same('install: a link to a program', ran(f'{prefix}/bin/polkitd-proved', '--version'), ran(programs.polkitd, '--version'))
    told.same('install: with the tools', ran(tool, '--contrib', *given, prefix)[0], 0)
    found = files_below(prefix)
    told.same('install: no name of the distribution\'s', [path for path in found if os.path.basename(path) in CLASHES and not path.startswith('lib/polkit-proved/')], [])
    told.same('install: nothing stands beside', [path for path in found if '.new' in path], [])
    told.same('install: a tool that was installed', ran(f'{prefix}/lib/polkit-proved/contrib/polkit_tables', '--help')[0], 0)
    for words, text in [((), 'usage: ./install'), (('--other', prefix), '--other is not an option'), (('--programs', f'{folder}/none', prefix), 'there is no program'), ((*given, '/dev/null'), 'Not a directory')]:
        status, _, fault = ran(tool, *words)
        told.same(f'install: {words}', (status, text in fault, fault.count('\n')), (1, True, 1))
    told.same('install: the help', ran(tool, '--help')[0], 0)


def verified(told, prefix):
    """What systemd says of the units, and what it makes of the folders and of the user."""
    if not shutil.which('systemd-analyze'):
        print('contrib/systemd: systemd-analyze is not installed, and verifies nothing')
        return
    units = sorted(os.path.join(prefix, 'lib/systemd/system', name) for name in os.listdir(f'{prefix}/lib/systemd/system'))
    told.same('systemd: the units', [os.path.basename(unit) for unit in units], ['polkitd-bus.service', 'polkitd-health.service', 'polkitd-health.timer', 'polkitd-tables.service', 'polkitd.service'])
    pages = {**os.environ, 'MANPATH': f'{prefix}/share/man'} if shutil.which('man') else None
    told.same('systemd: it verifies them', ran('systemd-analyze', 'verify', *(() if pages else ('--man=no',)), *units, env=pages), (0, '', ''))


def folders(told, folder, prefix):
    """The user, the folders of the doors and the root, made below another root."""
    if not shutil.which('systemd-tmpfiles') or not shutil.which('systemd-sysusers') or os.getuid() != 0:
        print('contrib/systemd: systemd-tmpfiles or systemd-sysusers is not installed, or this is not root: no folders are made')
        return
    other = f'{folder}/other'
    os.makedirs(f'{other}/etc')
    told.same('systemd: the user', ran('systemd-sysusers', f'--root={other}', f'{prefix}/lib/sysusers.d/polkitd.conf')[0], 0)
    with open(f'{other}/etc/passwd', encoding='ascii') as users:
        told.same('systemd: its row', [row.split(':')[0] for row in users], ['polkit-proved'])
    told.same('systemd: the folders', ran('systemd-tmpfiles', '--create', f'--root={other}', f'{prefix}/lib/tmpfiles.d/polkitd.conf')[0], 0)
    modes = {name: oct(os.stat(f'{other}/{name}').st_mode & 0o7777) for name in ('run/polkitd', 'run/polkitd/root', 'srv/policy/tables')}
    told.same('systemd: their modes', modes, {'run/polkitd': '0o755', 'run/polkitd/root': '0o700', 'srv/policy/tables': '0o755'})
    told.same('systemd: the root', {name: os.readlink(f'{other}/srv/policy/{name}') for name in ('usr', 'var', 'etc/polkit-1')}, {'usr': '/usr', 'var': '/var', 'etc/polkit-1': '/etc/polkit-1'})


def health(told, programs, folder):
    """A daemon that answers is left alone, and one whose journal is full is started anew: `systemctl` here writes down its words."""
    if programs.pkcheck is None:
        print('contrib/systemd: there is no pkcheck, and the health is not asked')
        return
    os.makedirs(f'{folder}/bin')
    with open(f'{folder}/bin/systemctl', 'w', encoding='ascii') as file:
        file.write(f'#!/bin/sh\necho "$@" > {folder}/asked\n')
    os.chmod(f'{folder}/bin/systemctl', 0o755)
    # The load, and a connection with one call.
    words = ['serve', '--root', os.path.join(TOP, 'examples/root'), '--door', f'0:{folder}/door', '--slots', '2', '--entries', '6']
    daemon = subprocess.Popen([programs.polkitd, *words], stdout=subprocess.DEVNULL, stderr=subprocess.DEVNULL)
    try:
        end = time.monotonic() + PATIENCE
        while not os.path.exists(f'{folder}/door') and time.monotonic() < end:
            time.sleep(0.05)
        tool = os.path.join(TOP, 'contrib/systemd/polkitd-health')
        asking = lambda tries='1': ran(tool, programs.pkcheck, f'{folder}/door', 'polkitd.service', tries, env={**os.environ, 'PATH': f'{folder}/bin:{os.environ["PATH"]}'})
        told.same('health: a daemon that answers', (asking(), os.path.exists(f'{folder}/asked')), ((0, '', ''), False))
        told.same('health: one that does not', asking('2')[1].split(' (')[0], f'polkitd-health: {folder}/door did not answer')
        with open(f'{folder}/asked', encoding='ascii') as asked:
            told.same('health: what systemd is told', asked.read(), 'try-restart polkitd.service\n')
        told.same('health: other words', (ran(tool)[0], ran(tool, '--help')[0]), (2, 0))
    finally:
        daemon.kill()
        daemon.wait()


def check(told, programs, folder):
    prefix = f'{folder}/prefix'
    install(told, programs, folder, prefix)
    verified(told, prefix)
    folders(told, folder, prefix)
    health(told, programs, folder)

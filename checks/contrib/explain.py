"""contrib/polkitctl explain, over the program pkexplain and no daemon."""
import os, subprocess

from over_daemon import PATIENCE, TOP

EXAMPLES = os.path.join(TOP, 'examples')
ALL = """\
USER          ACTION                  ANY           INACTIVE      ACTIVE
root (0)      org.example.clock.set   yes (root)    yes (root)    yes (root)
root (0)      org.example.clock.show  yes (root)    yes (root)    yes (root)
alice (1000)  org.example.clock.set   no (default)  no (default)  auth_admin (entry:1)
alice (1000)  org.example.clock.show  no (entry:2)  no (default)  yes (entry:2)
rules that decide nothing: 0
"""
ALICE = """\
USER          ACTION                  ANY           INACTIVE      ACTIVE
alice (1000)  org.example.clock.show  no (entry:2)  no (default)  yes (entry:2)
"""
SKIPPED = 'skipped vendor_and_site/etc/polkit-1/localauthority/50-local.d/bad.pkla MissingKey 0\n'


def explainer(polkitd):
    """The pkexplain beside a polkitd, or None."""
    beside = (os.path.join(os.path.dirname(polkitd), path) for path in ('../../pkexplain/out/pkexplain', 'pkexplain'))
    return next((os.path.abspath(path) for path in beside if os.access(path, os.X_OK)), None)


def check(told, programs, folder):
    def run(*words):
        ran = subprocess.run([os.path.join(TOP, 'contrib/polkitctl'), 'explain', *words], cwd=EXAMPLES, stdout=subprocess.PIPE, stderr=subprocess.PIPE, text=True, timeout=PATIENCE)
        return ran.returncode, ran.stdout, ran.stderr

    status, said, fault = run()
    told.same('polkitctl explain without a root', (status, said, 'are required: --root' in fault), (126, '', True))
    program = explainer(programs.polkitd)
    if program is None:
        print('contrib: pkexplain is not built, and polkitctl explain is not tried')
        return
    root = ('--pkexplain', program, '--root', 'vendor_and_site')
    told.same('polkitctl explain', run(*root), (0, ALL, SKIPPED))
    told.same('polkitctl explain of a user and an action', run(*root, '--user', 'alice', '--action', 'org.example.clock.show'), (0, ALICE, SKIPPED))
    told.same('polkitctl explain of a uid', run(*root, '--user', '1000', '--action', 'org.example.clock.show'), (0, ALICE, SKIPPED))
    told.same('polkitctl explain of no user', run(*root, '--user', 'bob'), (1, '', SKIPPED + 'no such user or action: bob\n'))
    told.same('polkitctl explain of no action', run(*root, '--action', 'a.b'), (1, '', SKIPPED + 'no such user or action: a.b\n'))
    told.same('polkitctl explain of a root that is refused', run('--pkexplain', program, '--root', 'dangling_session'),
              (127, '', 'polkitctl: pkexplain: LoadRefused BadTable tables/processes Dangling 1\n'))
    os.mkdir(os.path.join(folder, 'empty'))
    told.same('polkitctl explain of an empty root', run('--pkexplain', program, '--root', os.path.join(folder, 'empty')), (0, '', ''))

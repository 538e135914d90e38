"""A daemon over a root of its own in a temporary folder, for the parts of checks/contrib."""
import os, shutil, subprocess, time

TOP = os.path.join(os.path.dirname(os.path.abspath(__file__)), '../..')
# So long is waited for a program to start or to end, in seconds.
PATIENCE = 30


def waited(until):
    """Waits until this function says yes, and answers whether it did."""
    end = time.monotonic() + PATIENCE
    while not until():
        if time.monotonic() > end:
            return False
        time.sleep(0.02)
    return True


def start_of(pid):
    """When a process of this system began."""
    with open(f'/proc/{pid}/stat', encoding='utf-8', errors='replace') as stat:
        return int(stat.read().rpartition(')')[2].split()[19])


class Daemon:
    """polkitd serve over a copy of examples/root, in which bob is this user. Its doors are given as UID:NAME of a socket in the folder.
    It is killed at the end of `with`."""

    def __init__(self, program, folder, *doors, processes=(), user=1001, words=()):
        self.folder, self.root = folder, os.path.join(folder, 'root')
        self.doors = [f'{uid}:{os.path.join(folder, name)}' for uid, name in (door.split(':') for door in doors)]
        shutil.copytree(os.path.join(TOP, 'examples/root'), self.root)
        for name in ('etc/passwd', 'tables/sessions', 'tables/processes'):
            self.replace(name, '1001', str(user))
        self.add('tables/processes', *processes)
        options = [word for door in self.doors for word in ('--door', door)]
        self.process = subprocess.Popen([program, 'serve', '--root', self.root, *options, '--slots', '8', *words], stdin=subprocess.DEVNULL, stdout=subprocess.DEVNULL,
                                        stderr=subprocess.DEVNULL)

    def add(self, name, *lines):
        """Writes more lines at the end of a file of the root."""
        with open(os.path.join(self.root, name), 'a', encoding='utf-8') as file:
            file.write(''.join(line + '\n' for line in lines))

    def replace(self, name, old, new):
        """Writes a file of the root with another text in place of one."""
        path = os.path.join(self.root, name)
        with open(path, encoding='utf-8') as file:
            text = file.read()
        with open(path, 'w', encoding='utf-8') as file:
            file.write(text.replace(old, new))

    def listens(self):
        return waited(lambda: all(os.path.exists(door.split(':')[1]) for door in self.doors))

    def __enter__(self):
        return self

    def __exit__(self, *_):
        self.process.kill()
        self.process.wait()

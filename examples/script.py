"""What the scripts in python share: their help, their faults in one line, and the path of a built program."""
import os, re, subprocess, sys

BUILD = os.path.join(os.path.dirname(os.path.abspath(__file__)), '../bench/build')


class Usage(Exception):
    """The words are not those of the script."""


def run(doc, counts, main):
    """Runs `main` over the words of the command line, of which there are so many, and ends with its status. --help shows the doc, and
    other words are answered with the usage, which the doc has, and status 2. A fault is one line, with status 1."""
    words = sys.argv[1:]
    if words in (['-h'], ['--help']):
        sys.stdout.write(doc + '\n')
        sys.exit()
    name = os.path.relpath(sys.argv[0], os.path.dirname(BUILD) + '/..')
    try:
        if len(words) not in counts:
            raise Usage
        sys.exit(main(*words))
    except Usage:
        print('usage:', re.search(r'(?:examples|checks)/\S+.*', doc)[0], file=sys.stderr)
        sys.exit(2)
    except (OSError, ValueError, subprocess.SubprocessError) as fault:
        sys.exit(f'{name}: {fault}')
    except KeyboardInterrupt:
        sys.exit(130)


def program(path=None):
    """The whole path of a program: the one at the path, or polkitd as bench/build proves and builds it."""
    if path is None:
        built = subprocess.run([BUILD], stdout=subprocess.PIPE, text=True)
        if built.returncode:
            sys.exit(built.returncode)
        path = built.stdout.strip()
    if not os.access(path, os.X_OK) or os.path.isdir(path):
        raise ValueError(f'there is no program {path}')
    return os.path.abspath(path)

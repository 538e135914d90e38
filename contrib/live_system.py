"""Unproved. The rows of tables of a live system: users and groups by getent, sessions by the files of logind, processes by proc(5).

The forms of the rows are those of docs/formats.md, "Tables". A row that the daemon would refuse is left out, and `omit` is called with
its table, the row or what names it, and the cause."""
import os, re, subprocess, time

NUMBER = re.compile(rb'0|[1-9][0-9]*')
NAME_LIMIT = 4096
# The flag of a thread of the kernel, in field 9 of /proc/PID/stat.
KERNEL_THREAD = 0x00200000


def is_number(word, bits=32):
    return NUMBER.fullmatch(word) is not None and int(word) < 2 ** bits


def is_name(word):
    """Whether it may stand as a name or as the id of a session."""
    try:
        word.decode()
    except UnicodeDecodeError:
        return False
    return len(word) <= NAME_LIMIT and not set(word) & set(b'\0\n')


def content(path):
    """What a file holds, or None where it is not there or may not be read."""
    try:
        with open(path, 'rb') as file:
            return file.read()
    except OSError:
        return None


def getent(words):
    """The lines of `getent`. Status 2 says that a key is not there."""
    ran = subprocess.run(['getent', *words], stdin=subprocess.DEVNULL, stdout=subprocess.PIPE, stderr=subprocess.PIPE)
    if ran.returncode not in (0, 2):
        raise ValueError(f'getent {words[0]}: status {ran.returncode} {ran.stderr.decode(errors="replace").strip()}'.rstrip())
    return ran.stdout.split(b'\n')[:-1]


def user_rows(lines, omit):
    """Rows of users out of lines of passwd(5): the name and the two numbers. The other fields are not read, and stay empty."""
    rows = []
    for line in lines:
        fields = line.split(b':')
        if len(fields) != 7 or not is_name(fields[0]) or line.startswith(b'#'):
            omit('users', line, 'it has not seven fields, or its name is not one')
        elif not is_number(fields[2]) or not is_number(fields[3]):
            omit('users', line, 'its uid or its gid is not a number of 32 bits')
        else:
            rows.append(b'%s:x:%s:%s:::' % (fields[0], fields[2], fields[3]))
    return rows


def group_rows(lines, omit):
    """Rows of groups out of lines of group(5)."""
    rows = []
    for line in lines:
        fields = line.split(b':')
        if len(fields) != 4 or not is_name(fields[0]) or line.startswith(b'#'):
            omit('groups', line, 'it has not four fields, or its name is not one')
        elif not is_number(fields[2]):
            omit('groups', line, 'its gid is not a number of 32 bits')
        else:
            rows.append(b'%s:x:%s:%s' % (fields[0], fields[2], fields[3]))
    return rows


class Session:
    """A session: its row, and the process that leads it, as digits."""

    def __init__(self, row, leader):
        self.row, self.leader = row, leader


def sessions(folder, omit):
    """The sessions by their ids. A session is local where it has a seat and is not remote."""
    found = {}
    try:
        names = sorted(os.listdir(os.fsencode(folder)), key=lambda name: (len(name), name))
    except FileNotFoundError:
        return found
    for name in names:
        path = os.path.join(os.fsencode(folder), name)
        text = content(path) if os.path.isfile(path) else None
        if text is None:
            continue
        keys = dict(line.split(b'=', 1) for line in text.split(b'\n') if b'=' in line and not line.startswith(b'#'))
        if not is_name(name) or b' ' in name or name.startswith(b'#'):
            omit('sessions', name, 'its id has a space, begins with # or is not a name')
        elif not is_number(keys.get(b'UID', b'')):
            omit('sessions', name, 'its UID is not a number of 32 bits')
        else:
            place = b'local' if keys.get(b'SEAT') and keys.get(b'REMOTE') != b'1' else b'remote'
            state = b'active' if keys.get(b'ACTIVE') == b'1' else b'idle'
            found[name] = Session(b' '.join((name, keys[b'UID'], place, state)), keys.get(b'LEADER'))
    return found


def stat_of(folder, pid):
    """The fields of /proc/PID/stat from the third on, as words, or None. The second one, in parentheses, may hold spaces."""
    text = content(os.path.join(folder, pid, 'stat'))
    fields = text.rpartition(b')')[2].split() if text else []
    return fields if len(fields) >= 20 else None


def real_uid(folder, pid):
    """The real uid of a process. That is the one that polkit takes: the owner of /proc/PID is the effective one, which a user chooses by
    starting a setuid program."""
    text = content(os.path.join(folder, pid, 'status')) or b''
    found = re.search(rb'^Uid:\s*(\S+)', text, re.MULTILINE)
    return found[1] if found else None


def session_of(folder, pid):
    """The id of the session whose scope the control group of a process is, or None. The first part that is not a slice decides, since
    below it users make groups with names of their own."""
    for line in (content(os.path.join(folder, pid, 'cgroup')) or b'').split(b'\n'):
        parts = line.split(b':', 2)
        if len(parts) == 3 and parts[1] in (b'', b'name=systemd'):
            unit = next((part for part in parts[2].split(b'/') if part and not part.endswith(b'.slice')), b'')
            found = re.fullmatch(rb'session-(.+)\.scope', unit)
            if found:
                return found[1]
    return None


def processes(folder, age, known, omit):
    """Rows of processes, by their pids, and their uids. `known` has the sessions; a process of another session has none. Threads of the
    kernel, which come and go and ask nothing, are left out, as are this program itself, what ends while it is looked at, and what began
    less than `age` seconds ago."""
    leaders, rows, uids = {session.leader: name for name, session in known.items()}, [], {}
    latest = (time.clock_gettime(time.CLOCK_BOOTTIME) - age) * os.sysconf('SC_CLK_TCK') if age else 2 ** 64
    for pid in sorted((name for name in os.listdir(folder) if name.isascii() and name.isdigit() and name != str(os.getpid())), key=int):
        fields = stat_of(folder, pid)
        if fields is None or fields[6].isdigit() and int(fields[6]) & KERNEL_THREAD:
            continue
        uid, session = real_uid(folder, pid), session_of(folder, pid) or leaders.get(pid.encode())
        again = stat_of(folder, pid)
        if again is None or again[19] != fields[19] or fields[19].isdigit() and int(fields[19]) > latest:
            continue
        if uid is None or not is_number(uid) or not is_number(fields[19], 64) or not is_number(pid.encode()):
            omit('processes', pid.encode(), 'its uid, its pid or its start is not a number in its range, or may not be read')
            continue
        rows.append(b' '.join((pid.encode(), fields[19], uid, session if session in known else b'-')))
        uids[uid] = None
    return rows, list(uids)


def tables(proc, age, folder, with_users, omit):
    """All tables, each by its path below a root: the rows of its file. Processes are looked for below `proc`, and sessions in `folder`."""
    known = sessions(folder, omit)
    found = {'tables/sessions': [session.row for session in known.values()]}
    found['tables/processes'], uids = processes(proc, age, known, omit)
    if with_users:
        rows = user_rows(getent(['passwd']), omit)
        listed = {row.split(b':')[2] for row in rows}
        others = [uid.decode() for uid in uids if uid not in listed]
        # Some sources of users answer for one uid and do not list all.
        rows += user_rows(getent(['passwd', *others]), omit) if others else []
        found['etc/passwd'], found['etc/group'] = rows, group_rows(getent(['group']), omit)
    return found

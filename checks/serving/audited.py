"""Which messages an audit text addresses to each connection: read word by word, by a table of the form in docs/formats.md ("Audit texts")."""
import re

WORD = ['word']
SUBJECT = {'Process': ['word', 'word'], 'Session': WORD, 'BusName': WORD}
IDENTITY = {'User': WORD, 'Group': WORD}
KEY = {'Process': ['word'] * 3, 'Session': ['word'] * 2}
REASON = {'Root': [], 'Default': WORD, 'Entry': WORD, 'Grant': WORD, 'Imply': WORD, 'Challenge': [], 'Dismissed': [], 'AgentGone': [], 'SubjectGone': [], 'ActionGone': [], 'IdentityGone': []}
PAIR = ['word', 'word']
CALL = {'Announce': ['word', 'word'], 'Check': [SUBJECT, 'word', ('list', PAIR), 'word', 'word'], 'Cancel': WORD, 'Register': [SUBJECT, 'word', 'word'], 'Unregister': [SUBJECT, 'word'],
        'Respond': ['word', IDENTITY], 'EnumerateActions': WORD, 'EnumerateGrants': [SUBJECT], 'RevokeAll': [SUBJECT], 'RevokeOne': WORD, 'Reload': [], 'Wrong': WORD}
EVENT = {'Connect': WORD, 'Call': ['word', 'word', CALL], 'Returned': WORD, 'AgentError': ['word', 'word'], 'Passed': [], 'Depart': [], 'Load': WORD, 'LoadFailed': WORD, 'Stop': [], 'Collect': WORD}
VERDICT = ['word', 'word', REASON, 'word', ('option', WORD), ('list', PAIR)]
ANSWER = {'Verdict': VERDICT, 'Done': [], 'Name': WORD, 'Actions': ['word', 'word'], 'Grants': [('list', ['word', 'word', KEY, 'word', 'word'])], 'Refused': WORD}
MESSAGE = {'Reply': ['word', ANSWER], 'Begin': ['word'] * 4 + [('list', PAIR), 'word', ('list', [IDENTITY])], 'CancelBegin': ['word', 'word'], 'Changed': [], 'LoadWanted': [], 'StopWanted': []}
ENTRY = ['word', 'word', 'word', EVENT, ('list', ['word', MESSAGE])]


def taken(shape, words):
    """What stands at the front of the words, which are taken from it: a list for a list of shapes, (name, fields) for a table of variants."""
    if shape == 'word':
        return words.pop(0)
    if isinstance(shape, dict):
        name = words.pop(0)
        return name, taken(shape[name], words)
    if isinstance(shape, list):
        return [taken(part, words) for part in shape]
    kind, item = shape
    if kind == 'option':
        return taken(item, words) if words.pop(0) == '+' else None
    return [taken(item, words) for _ in range(int(words.pop(0)))]


def entries_of(lines):
    """The entries of a text, and the counts of its first line."""
    words = lines[0].split(' ')
    entries = []
    for line in lines:
        word, _, rest = line.partition(' ')
        if word == 'entry':
            left = rest.split(' ')
            entries.append(taken(ENTRY, left))
            if left:
                raise ValueError(f'words are left over: {line}')
    if words[:2] != ['audit', '1'] or len(entries) != int(words[3]):
        raise ValueError(f'the first line: {lines[0]}')
    return entries


def plain(word):
    """A text without its escapes."""
    return '' if word == '%' else re.sub('%(..)', lambda found: chr(int(found[1], 16)), word)


def reason_of(reason):
    """A reason as a reply tells it."""
    name, fields = reason
    return {'Default': 'default:', 'Entry': 'entry:', 'Grant': 'grant:tmpauthz', 'Imply': 'imply:'}[name] + plain(fields[0]).lower() if fields else re.sub('(?<=.)([A-Z])', r'-\1', name).lower()


def message_of(message):
    """A message as its receiver knows it: its kind, the serial that it answers, and what it says."""
    name, fields = message
    if name == 'Reply':
        answer, said = fields[1]
        told = (said[0] == '1', said[1] == '1', reason_of(said[2])) if answer == 'Verdict' else None
        return ('error' if answer == 'Refused' else 'return'), int(fields[0]), told
    if name in ('Begin', 'CancelBegin'):
        return 'call', None, plain(fields[5] if name == 'Begin' else fields[1])
    return 'signal', None, None


def seen(message):
    """The same of a message that came over a link."""
    values = message.values
    if message.kind == 'call':
        return 'call', None, values[4] if message.fields['member'] == 'BeginAuthentication' else values[0]
    is_verdict = message.kind == 'return' and len(values) == 1 and isinstance(values[0], tuple) and len(values[0]) == 3 and isinstance(values[0][2], dict)
    told = (values[0][0], values[0][1], values[0][2]['polkit.decided-by']) if is_verdict else None
    return message.kind, message.fields.get('answers'), told


def addressed(entries):
    """By connection its user and the messages that are addressed to it, in order."""
    told = {}
    for caller, _, _, event, outputs in entries:
        if event[0] == 'Connect':
            told.setdefault(caller, (int(event[1][0]), []))
        for to, message in outputs:
            if to in told:
                told[to][1].append(message_of(message))
    return told

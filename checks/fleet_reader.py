"""A reader of the stores of pull servers, written from their format (nimchout-store(5)) and from the messages of nodes, and what is to be printed
of their reports, of their rows as a table and as gauges, and where agents are forgotten; for checks/fleet."""
import json

BANK = 335544320  # the bytes of each half of a store
PLACES = 512
CLASSES = ('Compliant', 'Failed', 'Silent', 'Other')

def uuid(number):
    it = '%032x' % number
    return '-'.join((it[:8], it[8:12], it[12:16], it[16:20], it[20:]))

# The rows of a store, by agent: the texts of its registration, and job and body of its reports, the newest last.
def rows_of(path):
    with open(path, 'rb') as file:
        head = file.read(8)
        assert head[:7] == b'DSCSTOR', head
        file.seek(8 + BANK if head[7:] == b'2' else 8)
        rows = {}
        while (gate := file.read(1)) == b'\xa5':
            body = file.read(int.from_bytes(file.read(4), 'big'))
            agent = int.from_bytes(body[1:17], 'big')
            if body[0] == 1:
                rows.setdefault(agent, {'reports': []})['texts'] = texts_of(body[17:])
            else:
                reports, job = rows[agent]['reports'], int.from_bytes(body[17:33], 'big')
                at = [it for it, report in enumerate(reports) if report[0] == job]
                if at:
                    reports[at[0]] = (job, body[33:])
                else:
                    reports.append((job, body[33:]))
                    del reports[:-4]
        assert gate == b'\0', gate
        return rows

def texts_of(left):
    texts = []
    def text():
        nonlocal left
        size = int.from_bytes(left[:2], 'big')
        texts.append(left[2:2 + size].decode())
        left = left[2 + size:]
    for _ in range(3):
        text()
    count, left = left[0], left[1:]
    for _ in range(count):
        text()
    assert not left
    return texts

# A report that was sent as a message; none where it is none.
def message_in(body):
    try:
        said = json.loads(body)
        return said if isinstance(said, dict) and 'JobId' in said else None
    except ValueError:
        return None

# The last report of a row as a message.
def message_of(row):
    return message_in(row['reports'][-1][1]) if row['reports'] else None

# The class that a message gives.
def class_said(said):
    return {'success': 'Compliant', 'failure': 'Failed'}.get((said or {}).get('Status', '').lower(), 'Other')

def class_of(row):
    return class_said(message_of(row)) if row['reports'] else 'Silent'

# The moment at which its last report says that it ended, in seconds; none where it says none. `moment` reads a text.
def ended(row, moment):
    return moment((message_of(row) or {}).get('EndTime', ''))

def is_stale(row, since, moment):
    return since is not None and not (ended(row, moment) or -1) >= since

def count_of(said):
    try:
        return int(json.loads(said['StatusData'][0])['NumberNotInDesiredState'])
    except (KeyError, IndexError, ValueError):
        return len(said.get('Errors', ()))

HIDDEN = {
    0xAD, 0x34F, 0x61C, 0x115F, 0x1160, 0x17B4, 0x17B5, *range(0x180B, 0x1810), *range(0x200B, 0x2010), *range(0x2028, 0x202F),
    *range(0x2060, 0x2070), 0x3164, *range(0xFE00, 0xFE10), 0xFEFF, 0xFFA0, *range(0xFFF0, 0xFFFC), *range(0x1BCA0, 0x1BCA4),
    *range(0x1D173, 0x1D17B), *range(0xE0000, 0xE1000),
}

def harmless(text):
    return ''.join('\ufffd' if ord(it) < 32 or 127 <= ord(it) < 160 or ord(it) in HIDDEN else it for it in text)

# ---- what is printed

def in_json(value):
    return json.dumps(value, separators=(',', ':'), ensure_ascii=False)

def last_line(path, agents):
    return '{"store":%s,"agents":%d,"places":%d}\n' % (in_json(path), agents, PLACES)

# An error of a report: what stands before its last colon that a space follows, and what stands after that.
def unmet(error):
    before, mark, after = error.rpartition(': ')
    return {'id': before, 'reason': after} if mark else {'id': error, 'reason': ''}

# A line for each report that is kept of the agents of these classes, the oldest of an agent first.
def reports(path, classes=()):
    rows, text = rows_of(path), ''
    for agent, row in rows.items():
        for job, sent in row['reports'] if not classes or class_of(row) in classes else ():
            said = message_in(sent) or {}
            times = {name: said.get(member) or None for name, member in (('operation', 'OperationType'), ('start', 'StartTime'), ('end', 'EndTime'))}
            text += in_json({'store': path, 'agent': uuid(agent), 'node_name': row['texts'][1] or None, 'class': class_said(said), 'job': uuid(job), **times,
                             'not_in_desired_state': [unmet(error) for error in said.get('Errors', ())], 'count': count_of(said)}) + '\n'
    return (text + last_line(path, len(rows))).encode()

def table(path, classes=(), since=None, moment=None):
    rows = rows_of(path)
    lines = [('MACHINE', 'CLASS', 'ENDED', 'COUNT', 'NOT IN THE DESIRED STATE')]
    for agent, row in rows.items():
        if classes and class_of(row) not in classes:
            continue
        said = message_of(row)
        errors = (said or {}).get('Errors', ())
        lines.append((harmless(row['texts'][1]) or uuid(agent), class_of(row) + (' (stale)' if is_stale(row, since, moment) else ''),
                      harmless((said or {}).get('EndTime', '')) or '-', str(count_of(said)) if said else '-',
                      harmless(', '.join(it.rpartition(': ')[0] if ': ' in it else it for it in errors)) or '-'))
    widths = [max(len(line[at]) for line in lines) for at in range(4)]
    text = ''.join(''.join('%-*s  ' % (width, cell) for width, cell in zip(widths, line)) + line[4] + '\n' for line in lines)
    return (text + '%s: %d of %d places are taken\n' % (harmless(path), len(rows), PLACES)).encode()

# Of these stores, each with whether it can be read.
def gauges(stores, classes=(), since=None, moment=None):
    stores = [(path, rows_of(path) if readable else None) for path, readable in stores]
    label = lambda path: path.replace('\\', '\\\\').replace('"', '\\"').replace('\n', '\\n')
    text = ''
    def family(name, help_, values):
        nonlocal text
        text += '# HELP nimchout_fleet_%s %s\n# TYPE nimchout_fleet_%s gauge\n' % (name, help_, name)
        for labels, value in values:
            text += 'nimchout_fleet_%s{%s} %d\n' % (name, labels, value)
    read = [('store="%s"' % label(path), rows) for path, rows in stores if rows is not None]
    family('agents', 'Agents of a store by the class of their last report.',
           [('%s,class="%s"' % (labels, said), sum(class_of(row) == said for row in rows.values()))
            for said in CLASSES if not classes or said in classes for labels, rows in read])
    if since is not None:
        family('stale_agents', 'Agents of a store whose last report does not say that it ended within the hours given.',
               [(labels, sum(is_stale(row, since, moment) for row in rows.values())) for labels, rows in read])
    family('places_taken', 'Agents that a store has.', [(labels, len(rows)) for labels, rows in read])
    family('places_free', 'Further agents that a store takes.', [(labels, PLACES - len(rows)) for labels, rows in read])
    family('store_read', '1 where the store was read, 0 where it was not.',
           [('store="%s"' % label(path), rows is not None) for path, rows in stores])
    return text.encode()

# What is printed where these agents of the rows of a store are forgotten.
def forgotten(path, rows, agents):
    text = ''.join('{"store":%s,"forgotten":"%s","node_name":%s}\n' % (in_json(path), uuid(agent), in_json(row['texts'][1] or None))
                   for agent, row in rows.items() if agent in agents)
    return (text + last_line(path, len(rows) - len(agents))).encode()

"""The program that reads the stores of servers, for checks/fleet, which says what is run. The arguments are the program and the server."""
import datetime, fcntl, json, os, random, shutil, socket, subprocess, sys, tempfile, threading, time

from fleet_reader import BANK, forgotten, gauges, reports, rows_of, table, uuid
from protocol import agent, free_port, query, register, report_body, request, node

program, server = sys.argv[1:]
passed = failed = 0
scratch = tempfile.mkdtemp()
HEAD = b'DSCSTOR'

def check(name, got, wanted):
    global passed, failed
    if got == wanted:
        passed += 1
    else:
        failed += 1
        print('FAILED', name, 'got', repr(got)[:900], 'wanted', repr(wanted)[:900], flush=True)

def run(*words):
    ended = subprocess.run([program, *words], stdin=subprocess.DEVNULL, capture_output=True)
    return ended.returncode, ended.stdout, ended.stderr

# ---- stores, by their format

def text(it):
    it = it.encode()
    return len(it).to_bytes(2, 'big') + it

def registered(number, name='n', names=('Web',)):
    return b'\1' + number.to_bytes(16, 'big') + text('2.0') + text(name) + text('::1') + bytes([len(names)]) + b''.join(text(it) for it in names)

def reported(number, job, body):
    return b'\2' + number.to_bytes(16, 'big') + job.to_bytes(16, 'big') + body

def cells(*bodies):
    return b''.join(b'\xa5' + len(it).to_bytes(4, 'big') + it for it in bodies)

def store(name, *bodies, second=False, behind=b''):
    path = os.path.join(scratch, name)
    with open(path, 'wb') as file:
        file.write(HEAD + (b'2' if second else b'1'))
        file.seek(8 + BANK if second else 8)
        file.write(cells(*bodies) + b'\0' + behind)
    return path

# ---- lines, by what they are to say

def line(path, number, name='n', names=('Web',), said='Silent', stale=False, job=None, operation=None, start=None, end=None, unmet=(), count=0):
    return (json.dumps({'store': path, 'agent': agent(number), 'node_name': name, 'configurations': list(names), 'class': said, 'stale': stale,
                        'job': None if job is None else agent(job), 'operation': operation, 'start': start, 'end': end,
                        'not_in_desired_state': [{'id': it, 'reason': why} for it, why in unmet], 'count': count},
                       separators=(',', ':'), ensure_ascii=False) + '\n').encode()

def last(path, agents):
    return ('{"store":%s,"agents":%d,"places":512}\n' % (json.dumps(path, ensure_ascii=False), agents)).encode()

def moment(hours):
    return (datetime.datetime.now(datetime.timezone.utc) - datetime.timedelta(hours=hours)).strftime('%Y-%m-%dT%H:%M:%SZ')

def body(job, **members):
    return json.dumps({'JobId': agent(job), **members}, ensure_ascii=False).encode()

def one_store():
    end = moment(1)
    counts = json.dumps({'NumberNotInDesiredState': 70, 'NumberOfResources': 90, 'Parts': []})
    path = store('one "store"\t\u00e9', registered(1, 'web1', ('Web', 'Base')), registered(2, ''), registered(3, 'a"\\\n\u00fc\U0001f600', ()),
        registered(4), registered(5), registered(6), registered(7),
        reported(1, 11, body(11, OperationType='Consistency', Status='Failure', StartTime=moment(9))),
        reported(1, 12, body(12, OperationType='Initial', Status='success', StartTime=end, EndTime=end, Errors=[])),
        reported(3, 31, body(31, OperationType='Consistency', Status='FAILURE', StartTime='x', EndTime='',
                             Errors=['[File]a: b: NotInDesiredState', '[Log]\u00e9: Skipped', 'no mark', ': ', 'a:b'], StatusData=[counts])),
        reported(4, 41, b'no json'), reported(5, 51, body(51, Status='InProgress')),
        reported(6, 61, body(61, Status='Failure', StatusData=['{"NumberNotInDesiredState":-1}'], Errors=['[File]x: InTheWay'])),
        reported(7, 71, body(72, Status='Success', StatusData=['[1'], EndTime='2026-01-02T03:04:05.25+02:00')), behind=b'garbage')
    lines = [line(path, 1, 'web1', ('Web', 'Base'), 'Compliant', False, 12, 'Initial', end, end),
             line(path, 2, None),
             line(path, 3, 'a"\\\n\u00fc\U0001f600', (), 'Failed', False, 31, 'Consistency', 'x', None,
                  [('[File]a: b', 'NotInDesiredState'), ('[Log]\u00e9', 'Skipped'), ('no mark', ''), ('', ''), ('a:b', '')], 70),
             line(path, 4, said='Other', job=41), line(path, 5, said='Other', job=51),
             line(path, 6, said='Failed', job=61, unmet=[('[File]x', 'InTheWay')], count=1),
             line(path, 7, said='Compliant', job=71, end='2026-01-02T03:04:05.25+02:00')]
    before = os.stat(path), open(path, 'rb').read()
    check('a store', run(path), (1, b''.join(lines) + last(path, 7), b''))
    check('a store, Failed', run('--class', 'Failed', path), (1, lines[2] + lines[5] + last(path, 7), b''))
    check('a store, two classes', run(path, '--class=Silent', '--class', 'Compliant'), (1, lines[0] + lines[1] + lines[6] + last(path, 7), b''))
    stale = [it if at == 0 else it.replace(b'"stale":false', b'"stale":true') for at, it in enumerate(lines)]
    check('a store, older than 2 hours', run('--older', '2', path), (1, b''.join(stale) + last(path, 7), b''))
    with open(path, 'rb+') as held:
        fcntl.flock(held, fcntl.LOCK_EX)
        check('a store that is locked', run(path), (1, b''.join(lines) + last(path, 7), b''))
    after = os.stat(path), open(path, 'rb').read()
    check('a store stays as it was', (before[0].st_mtime_ns, before[0].st_ctime_ns, before[1]), (after[0].st_mtime_ns, after[0].st_ctime_ns, after[1]))
    os.chmod(path, 0o400)
    check('a store that may only be read', run(path)[0], 1)
    return path, b''.join(lines) + last(path, 7)

def statuses():
    good = reported(1, 1, body(1, Status='Success', EndTime=moment(3)))
    fine = store('fine', registered(1), good)
    said = line(fine, 1, said='Compliant', job=1, end=json.loads(good[33:])['EndTime'])
    check('all is well', run(fine), (0, said + last(fine, 1), b''))
    check('all is well within 4 hours', run('--older', '4', fine), (0, said + last(fine, 1), b''))
    check('stale after 2 hours', run('--older', '2', fine), (1, said.replace(b'"stale":false', b'"stale":true') + last(fine, 1), b''))
    silent = store('silent', registered(2))
    check('a silent machine', run(silent, '--class', 'Compliant'), (1, last(silent, 1), b''))
    other = store('other', registered(3), reported(3, 3, b'{}'))
    check('a machine of another status', run(other), (0, line(other, 3, said='Other', job=3) + last(other, 1), b''))
    empty = store('empty')
    check('no agents', run(empty), (0, last(empty, 0), b''))
    new = os.path.join(scratch, 'new')
    open(new, 'wb').close()
    check('a file of no bytes', run(new), (0, last(new, 0), b''))
    check('a file of no bytes stays so', os.path.getsize(new), 0)
    check('two stores', run(fine, silent), (1, said + last(fine, 1) + line(silent, 2) + last(silent, 1), b''))
    second = store('second', registered(1), good, second=True, behind=b'dead')
    check('a second bank', run(second), (0, said.replace(b'fine', b'second') + last(second, 1), b''))
    for words in ((), ('--class', 'Good', fine), ('--class', 'failed', fine), ('--older', 'x', fine), ('--older', '', fine), ('--older', '-1', fine),
                  ('--older', '4294967296', fine), ('--older', '1', '--older', '2', fine), ('--older', fine), ('--what', fine)):
        check('words %r' % (words,), run(*words)[:2], (2, b''))
    return fine, said + last(fine, 1)

# ---- the other forms, compared with what the reader computes of the same stores

def seconds(text):
    try:
        return int(datetime.datetime.fromisoformat(text.replace('Z', '+00:00')).timestamp()) if text else None
    except ValueError:
        return None

def since(hours):
    return int(time.time()) - hours * 3600

def many_kinds(name):
    end, old = moment(1), moment(30)
    counts = json.dumps({'NumberNotInDesiredState': 70})
    return store(name, registered(1, 'web1', ('Web', 'Base')), registered(2, ''), registered(3, 'a"\\\n\u00fc\U0001f600', ()),
        registered(4, '\x1b[31mred\x07\x9b2J'), registered(5, 'a\u202eb\u200bc\u2066d\ufeffe\u061cf\u00adg\u3164h\ufe0fi\U000e0041j'), registered(6, 'x' * 60), registered(7, 'late'),
        registered(0xfedcba9876543210fedcba9876543210, ''),
        reported(1, 11, body(11, Status='Failure', EndTime=end)), reported(1, 12, body(12, Status='success', EndTime=end, Errors=[])),
        reported(3, 31, body(31, Status='FAILURE', EndTime='', Errors=['[File]a: b: NotInDesiredState', '[Log]\u00e9\x1b]0;: Skipped', 'none', ': '],
                             StatusData=[counts])),
        reported(4, 41, b'no json'), reported(5, 51, body(51, Status='InProgress', EndTime='\u2028soon\n')),
        reported(6, 61, body(61, Status='Failure', EndTime=end, Errors=['[File]' + 'y' * 300 + ': InTheWay'])),
        reported(7, 71, body(71, Status='Failure', EndTime=end)), reported(7, 72, body(72, Status='Success', EndTime=old, Errors=[])))

def forms(fine):
    path, other = many_kinds('kinds'), store('odd "name"\\ of\na store\x1b[1m', registered(1), reported(1, 1, body(1, Status='Success', EndTime=moment(3))))
    missing, empty = os.path.join(scratch, 'missing'), store('nobody')
    check('a table', run('--table', path), (1, table(path), b''))
    check('a table of all that is well', run('--table', fine), (0, table(fine), b''))
    check('a table of nobody', run(empty, '--table'), (0, table(empty), b''))
    check('a table, Failed', run('--table', '--class', 'Failed', path), (1, table(path, ('Failed',)), b''))
    check('a table of two classes', run('--class', 'Silent', path, '--class=Compliant', '--table'), (1, table(path, ('Silent', 'Compliant')), b''))
    check('a table, older', run('--older', '2', '--table', path), (1, table(path, (), since(2), seconds), b''))
    check('tables', run('--table', fine, path, other), (1, table(fine) + table(path) + table(other), b''))
    status, out, err = run('--table', path, missing, fine)
    check('tables beside a store that is missing', (status, out), (4, table(path) + table(fine)))
    drawn = out.decode().replace('\n', '')
    check('no control character', [it for it in drawn if ord(it) < 32 or 127 <= ord(it) < 160], [])
    check('gauges', run('--prometheus', path), (1, gauges([(path, True)]), b''))
    check('gauges of all that is well', run(fine, '--prometheus'), (0, gauges([(fine, True)]), b''))
    check('gauges, older', run('--prometheus', '--older', '2', path, fine), (1, gauges([(path, True), (fine, True)], (), since(2), seconds), b''))
    check('gauges, older than 4 hours', run('--prometheus', '--older', '4', fine), (0, gauges([(fine, True)], (), since(4), seconds), b''))
    check('gauges of two classes', run('--prometheus', path, '--class', 'Failed', other, '--class', 'Other'),
          (1, gauges([(path, True), (other, True)], ('Failed', 'Other')), b''))
    check('gauges of odd names', run('--prometheus', other, empty), (0, gauges([(other, True), (empty, True)]), b''))
    status, out, err = run('--prometheus', path, missing, fine)
    check('gauges beside a store that is missing', (status, out), (4, gauges([(path, True), (missing, False), (fine, True)])))
    full = store('full', *(registered(number) for number in range(1, 513)))
    check('a store without a free place', run('--prometheus', full), (1, gauges([(full, True)]), b''))
    with open('/dev/full', 'wb') as out:
        for form in ('--table', '--prometheus'):
            check('an output that is full, ' + form, subprocess.run([program, form, fine], stdin=subprocess.DEVNULL, stdout=out, stderr=subprocess.PIPE).returncode, 4)
    for words in (('--table', '--prometheus', fine), ('--table', '--table', fine), ('--prometheus', '--prometheus', fine), ('--table=x', fine), ('--table',),
                  ('--prometheus',), ('--prometheus', fine, path, fine), ('--table', '--class', 'Good', fine), ('--prometheus', '--older', 'x', fine)):
        check('words %r' % (words,), run(*words)[:2], (2, b''))

# ---- the reports that are kept

# Agents with none, one, two and more reports than are kept; of one a report came again under its job, and another is none.
def many_reports(name):
    end = moment(1)
    return store(name, registered(1, 'web1', ('Web', 'Base')), registered(2, ''), registered(3, 'a"\\\n\u00fc\U0001f600', ()), registered(4, 'late'), registered(5),
        reported(1, 11, body(11, Status='Success', EndTime=end)), reported(1, 12, body(12, OperationType='Initial', Status='Failure', StartTime=moment(9),
                                                                                    Errors=['[File]a: b: NotInDesiredState', 'none', ': '])),
        reported(4, 41, body(41, Status='Failure', EndTime=end)), reported(1, 13, body(13, Status='InProgress')),
        reported(3, 31, body(31, Status='FAILURE', EndTime='', Errors=['[Log]\u00e9\x1b: Skipped'], StatusData=[json.dumps({'NumberNotInDesiredState': 70})])),
        reported(1, 14, b'no json'), reported(4, 42, body(42, Status='Success', EndTime=moment(30))), reported(5, 51, body(52, Status='InProgress')),
        reported(1, 13, body(13, Status='success', StartTime='x', EndTime=end, Errors=[])), reported(1, 15, body(15, Status='Success', EndTime=end)))

def kept_reports(fine):
    path, other, missing = many_reports('reports'), store('others', registered(1), registered(2)), os.path.join(scratch, 'missing')
    check('the reports', run('--reports', path), (1, reports(path), b''))
    told = [json.loads(it) for it in run(path, '--reports')[1].splitlines()]
    check('which they are', [(it['agent'], it['job'], it['class']) for it in told[:-1]],
          [(agent(number), agent(job), said) for number, job, said in ((1, 12, 'Failed'), (1, 13, 'Compliant'), (1, 14, 'Other'), (1, 15, 'Compliant'), (3, 31, 'Failed'),
                                                                      (4, 41, 'Failed'), (4, 42, 'Compliant'), (5, 51, 'Other'))])
    last_ones = {it['agent']: {name: it[name] for name in it if name not in ('configurations', 'stale')} for it in map(json.loads, run(path)[1].splitlines()[:-1])}
    check('the last of an agent is that of its line', {it['agent']: it for it in told[:-1]}, {it: row for it, row in last_ones.items() if row['job']})
    check('the reports of all that is well', run('--reports', fine), (0, reports(fine), b''))
    check('the reports of agents that sent none', run('--reports', other), (1, last(other, 2), b''))
    check('the reports of a class', run('--reports', '--class', 'Compliant', path), (1, reports(path, ('Compliant',)), b''))
    check('the reports of two classes', run('--class=Failed', path, '--class', 'Silent', '--reports'), (1, reports(path, ('Failed', 'Silent')), b''))
    check('the reports, older', run('--reports', '--older', '2', path, '--class', 'Other'), (1, reports(path, ('Other',)), b''))
    check('the reports of one that is stale', run('--reports', '--older', '2', fine), (1, reports(fine), b''))
    check('the reports of stores', run('--reports', fine, path, fine), (1, reports(fine) + reports(path) + reports(fine), b''))
    status, out, err = run('--reports', path, missing, fine)
    check('the reports beside a store that is missing', (status, out), (4, reports(path) + reports(fine)))
    second = store('reports, second', registered(1), reported(1, 1, body(1)), reported(1, 2, body(2)), second=True, behind=b'dead')
    check('the reports of a second bank', run('--reports', second), (0, reports(second), b''))
    with open('/dev/full', 'wb') as out:
        check('an output that is full, --reports', subprocess.run([program, '--reports', fine], stdin=subprocess.DEVNULL, stdout=out, stderr=subprocess.PIPE).returncode, 4)
    for words in (('--reports', '--table', fine), ('--prometheus', '--reports', fine), ('--reports', '--table', '--prometheus', fine), ('--reports', '--reports', fine),
                  ('--reports=x', fine), ('--reports',), ('--reports', '--class', 'Good', fine), ('--reports', '--older', 'x', fine)):
        check('words %r' % (words,), run(*words)[:2], (2, b''))

# ---- agents that are forgotten

def contents(path):
    with open(path, 'rb') as file:
        return file.read()

def refused(name, words, status, err, path):
    before = contents(path)
    check(name, run(*words, path), (status, b'', err and ('nimchout-fleet: %s: %s\n' % (path, err)).encode()))
    check(name + ': the store stays', contents(path) == before, True)

# A store that forgets as it is asked has the rows without these agents, which the program printed.
def leave(name, words, agents, path=None):
    path = path or many_kinds('leaving')
    os.chmod(path, 0o640)
    rows, before = rows_of(path), os.stat(path)
    check(name, run(*words, path), (0, forgotten(path, rows, agents), b''))
    check(name + ': the rows', list(rows_of(path).items()), [(number, row) for number, row in rows.items() if number not in agents])
    after = os.stat(path)
    check(name + ': mode and owner', (before.st_mode, before.st_uid, before.st_gid, before.st_ino), (after.st_mode, after.st_uid, after.st_gid, after.st_ino))
    return path

def forgetting(fine):
    big = 0xfedcba9876543210fedcba9876543210
    leave('one is forgotten', ('--forget', agent(3)), {3})
    leave('an id in upper case', ('--forget', uuid(big).upper()), {big})
    leave('three are forgotten', ('--forget', agent(7), '--forget=' + agent(1), '--forget', agent(2)), {1, 2, 7})
    leave('one that is named twice', ('--forget', agent(4), '--forget', agent(4)), {4})
    leave('those that never reported', ('--forget-never-reported',), {2, big})
    leave('those that were silent for a day', ('--forget-silent', '1'), {7})
    leave('all that ever ended', ('--forget-silent', '0'), {1, 6, 7})
    leave('those that were silent or never reported, and one more', ('--forget-never-reported', '--forget-silent=1', '--forget', agent(5)), {2, 5, 7, big})
    leave('all', [word for number in (1, 2, 3, 4, 5, 6, 7, big) for word in ('--forget', uuid(number))], {1, 2, 3, 4, 5, 6, 7, big})
    second = store('second bank', registered(1), registered(2), reported(2, 1, body(1)), registered(3), second=True)
    leave('of a second bank', ('--forget', agent(1)), {1}, second)
    leave('and once more', ('--forget', agent(3)), {3}, second)
    path = many_kinds('staying')
    before = contents(path)
    leave('nobody was silent for two days', ('--forget-silent', '2'), set(), path)
    leave('nobody was silent for years', ('--forget-silent', '4294967295'), set(), path)
    leave('nobody never reported', ('--forget-never-reported',), set(), fine)
    check('where nobody is forgotten the store stays', contents(path) == before, True)
    refused('an agent without a row', ('--forget', agent(99)), 3, 'no such agent: ' + agent(99), path)
    refused('one that has a row, and one that has none', ('--forget', agent(1), '--forget', agent(0xabc)), 3, 'no such agent: ' + agent(0xabc), path)
    with open(path, 'rb+') as held:
        fcntl.flock(held, fcntl.LOCK_EX)
        refused('a store that is locked', ('--forget', agent(1)), 6, 'its server runs', path)
    text = os.path.join(scratch, 'no store')
    with open(text, 'wb') as file:
        file.write(b'no store at all')
    refused('no store', ('--forget', agent(1)), 5, 'no store: byte 0 is wrong or missing', text)
    missing, link = os.path.join(scratch, 'missing'), os.path.join(scratch, 'a link')
    os.symlink(path, link)
    refused('a link', ('--forget', agent(1)), 4, 'the disk failed', link)
    check('a store that is missing', run('--forget', agent(1), missing), (4, b'', ('nimchout-fleet: %s: the disk failed\n' % missing).encode()))
    check('a store that is missing is not made', os.path.exists(missing), False)
    with open('/dev/full', 'wb') as full:
        ended = subprocess.run([program, '--forget', agent(1), path], stdin=subprocess.DEVNULL, stdout=full, stderr=subprocess.PIPE)
    check('an output that is full', (ended.returncode, 1 in rows_of(path)), (4, False))
    for words in (('--forget', fine), ('--forget', 'x', fine), ('--forget', agent(1)[:-1], fine), ('--forget', agent(1).replace('-', ''), fine),
                  ('--forget', '{%s}' % agent(1), fine), ('--forget', agent(1)), ('--forget', agent(1), fine, path), ('--forget', agent(1), '--table', fine),
                  ('--forget', agent(1), '--prometheus', fine), ('--forget', agent(1), '--reports', fine), ('--forget-never-reported', '--reports', fine),
                  ('--forget', agent(1), '--class', 'Failed', fine), ('--forget', agent(1), '--older', '1', fine),
                  ('--forget-silent', fine), ('--forget-silent', 'x', fine), ('--forget-silent', '-1', fine), ('--forget-silent', '4294967296', fine),
                  ('--forget-silent', '1', '--forget-silent', '2', fine), ('--forget-silent', '1', fine, path), ('--forget-silent', '1', '--table', fine),
                  ('--forget-never-reported',), ('--forget-never-reported', fine, path), ('--forget-never-reported', '--class', 'Silent', fine),
                  ('--forget-never-reported', '--forget-never-reported', fine), ('--forget-never-reported=yes', fine)):
        before = contents(fine)
        check('words %r' % (words,), run(*words)[:2] + (contents(fine) == before,), (2, b'', True))

def no_stores(fine, said):
    text = os.path.join(scratch, 'text')
    open(text, 'wb').write(b'no store at all')
    link, folder, pipe = (os.path.join(scratch, it) for it in ('link', 'folder', 'pipe'))
    os.symlink(fine, link)
    os.mkdir(folder)
    os.mkfifo(pipe)
    cut = store('cut', registered(1), registered(2))
    os.truncate(cut, os.path.getsize(cut) - 9)
    unknown = store('unknown', registered(1), b'\3')
    for path, status, why in ((text, 5, 'no store: byte 0 is wrong or missing'), (cut, 5, 'no store: byte %d is wrong or missing' % os.path.getsize(cut)),
                              (unknown, 5, 'no store: byte %d is wrong or missing' % (8 + 5 + len(registered(1)) + 5)), (link, 4, 'the disk failed'),
                              (folder, 4, 'the disk failed'), (pipe, 4, 'the disk failed'), (os.path.join(scratch, 'missing'), 4, 'the disk failed')):
        check('no store: ' + path, run(path), (status, b'', ('nimchout-fleet: %s: %s\n' % (path, why)).encode()))
    check('a missing file is not made', os.path.exists(os.path.join(scratch, 'missing')), False)
    check('another store beside one that is none', run(text, fine)[:2], (5, said))
    with open('/dev/full', 'wb') as full:
        check('an output that is full', subprocess.run([program, fine], stdin=subprocess.DEVNULL, stdout=full, stderr=subprocess.PIPE).returncode, 4)

# ---- beside a real server: reports 0, 1, 2 .. come in turn from each of the agents, so of one image the last ones of all agents are known, and
# the last four

AGENTS = 40

def ask(port, sent):
    with socket.create_connection(('127.0.0.1', port), timeout=120) as conn:
        conn.sendall(sent)
        answer = b''
        while piece := conn.recv(65536):
            answer += piece
        return answer

# A server of the store of this folder, once it listens, and its port.
def serve(folder, path):
    shelf, port = os.path.join(folder, 'shelf'), free_port()
    os.makedirs(os.path.join(shelf, 'configurations'), exist_ok=True)
    with open(os.path.join(shelf, 'keys'), 'wb') as keys:
        keys.write(b'k0\n')
    running = subprocess.Popen([server, '--store', path, '--shelf', shelf, '--listen', '127.0.0.1:%d' % port, '--connections', '1000000'],
                               stdin=subprocess.DEVNULL, stdout=subprocess.DEVNULL)
    for _ in range(1200):
        try:
            socket.create_connection(('127.0.0.1', port), timeout=1).close()
            break
        except OSError:
            time.sleep(0.1)
    return running, port

def beside_a_server():
    folder = tempfile.mkdtemp(dir=scratch)
    path = os.path.join(folder, 'store')
    running, port = serve(folder, path)
    try:
        for number in range(AGENTS):
            if b' 204 ' not in ask(port, register(number + 1))[:20]:
                return check('registered', 'refused', 'taken')
        sent, taken, ending = [0], [0], threading.Event()
        def send():
            while not ending.is_set():
                number = sent[0]
                sent[0] += 1
                told = report_body(1000 + number, 'Success', random.randrange(3000))
                if b' 200 ' in ask(port, request('POST', node(number % AGENTS + 1, '/SendReport'), told))[:20]:
                    taken[0] += 1
        client = threading.Thread(target=send)
        client.start()
        wrong = 0
        for turn in range(60):
            words, kept = (('--reports',), 4) if turn % 2 else ((), 1)
            least = taken[0]
            status, out, err = run(*words, path)
            most = sent[0]
            jobs = [[] for _ in range(AGENTS)]
            for it in map(json.loads, out.splitlines()[:-1]):
                if it['job'] is not None:
                    jobs[int(it['agent'].replace('-', ''), 16) - 1].append(int(it['job'].replace('-', ''), 16) - 1000)
            count = max((job for each in jobs for job in each), default=-1) + 1
            wanted = [[*range(number, count, AGENTS)][-kept:] for number in range(AGENTS)]
            if jobs != wanted or not least <= count <= most or err or status not in (0, 1):
                wrong += 1
                print('not one image:', status, err, least, count, most, jobs[:50], flush=True)
        ending.set()
        client.join()
        check('beside a server that takes reports each output is one image', wrong, 0)
        check('reports were taken meanwhile', taken[0] > 0, True)
        check('every report was taken', taken[0], sent[0])
    finally:
        running.kill()
        running.wait()

# ---- a store forgets while its server is stopped: it is refused beside a server that runs, and the server opens it again, answers those that
# stayed, refuses those that left, and takes new ones

def code(port, sent):
    return ask(port, sent)[9:12]

def served_again():
    folder = tempfile.mkdtemp(dir=scratch)
    path = os.path.join(folder, 'store')
    running, port = serve(folder, path)
    try:
        for number in range(1, 513):
            if code(port, register(number)) != b'204':
                return check('registered', number, 'taken')
        check('a 513th agent has no place', code(port, register(513)), b'503')
        for number in (1, 2, 3):
            told = json.dumps({'JobId': agent(number), 'Status': 'Success', 'EndTime': moment(40 * number)}).encode()
            check('a report of %d' % number, code(port, request('POST', node(number, '/SendReport'), told)), b'200')
        before = contents(path)
        for words in (('--forget', agent(1)), ('--forget-silent', '1'), ('--forget-never-reported',)):
            check('beside its server %r' % (words,), run(*words, path), (6, b'', ('nimchout-fleet: %s: its server runs\n' % path).encode()))
        check('beside its server the store stays', contents(path) == before, True)
    finally:
        running.kill()
        running.wait()
    rows = rows_of(path)
    check('all but two leave', run('--forget-never-reported', '--forget', agent(2), path), (0, forgotten(path, rows, set(rows) - {1, 3}), b''))
    running, port = serve(folder, path)
    try:
        check('one that stayed', code(port, query(1, ('Web', ''))), b'200')
        for number, wanted in ((1, b'200'), (2, b'404'), (3, b'200'), (4, b'404')):
            check('a report of %d then' % number, code(port, request('POST', node(number, '/SendReport'), report_body(7000 + number))), wanted)
        for number in (513, 2):
            check('%d is taken' % number, code(port, register(number)), b'204')
        check('the rows then', [(number, len(row['reports'])) for number, row in rows_of(path).items()], [(1, 2), (3, 2), (513, 0), (2, 0)])
    finally:
        running.kill()
        running.wait()

# ---- killed at the system calls by which it writes the store anew: the rows are those before or those after, and it can be asked again. Each call
# where the second bank is live; where the first one is, whose rewrite begins with zeros up to the second, the first calls and the last ones.

def laid(path, bank, second):
    with open(path, 'wb') as file:
        file.write(HEAD + (b'2' if second else b'1'))
        file.seek(8 + BANK if second else 8)
        file.write(bank)

def killed():
    if not shutil.which('strace'):
        return print('skipped: a program that is killed while it forgets: strace is not there')
    path, words = many_kinds('killed'), ('--forget', agent(3), '--forget-silent', '1')
    old, bank = rows_of(path), contents(path)[8:]
    new = {number: row for number, row in old.items() if number not in (3, 7)}
    trace, states = os.path.join(scratch, 'trace'), set()
    for second in (True, False):
        for call in ('pwrite64', 'ftruncate', 'fsync'):
            def run_traced(*more):
                laid(path, bank, second)
                return subprocess.run(['strace', '-f', '-qq', '-o', trace, '-e', 'trace=' + call, *more, program, *words, path], stdin=subprocess.DEVNULL,
                                      capture_output=True)
            check('it ends %s' % call, run_traced().returncode, 0)
            with open(trace, encoding='utf-8') as file:
                count = len(file.readlines())
            for at in sorted({*range(1, count + 1)} if count < 20 else {1, count // 2, *range(count - 2, count + 1)}):
                run_traced('-e', 'inject=%s:signal=SIGKILL:when=%d' % (call, at))
                rows = rows_of(path)
                states.add('before' if rows == old else 'after' if rows == new else 'else at %s %d' % (call, at))
                gone = {3, 7} & set(rows)
                check('asked again after %s %d' % (call, at), run('--forget-silent', '1', *(('--forget', agent(3)) if gone else ()), path),
                      (0, forgotten(path, rows, gone), b''))
                check('the rows then', rows_of(path), new)
    check('it was killed before and after', states, {'before', 'after'})

# ---- beside a writer that rewrites the store into its other bank again and again, as a server does where its bank is full: each image is of
# one generation. By strace the program is made so slow that the store is rewritten more than once while it is read.

def beside_rewrites():
    path = os.path.join(scratch, 'rewritten')
    def bank(generation):
        pad = ' ' * random.randrange(4000)
        both = ((registered(number, 'n' + pad), reported(number, generation, body(generation, Status='Success') + pad.encode())) for number in range(1, 101))
        return cells(*(it for pair in both for it in pair)) + b'\0'
    with open(path, 'wb') as file:
        file.write(HEAD + b'1' + bank(1))
    made, ending = [1], threading.Event()
    def rewrites():
        with open(path, 'rb+', buffering=0) as file:
            while not ending.is_set():
                second = made[0] % 2 == 1
                os.pwrite(file.fileno(), bank(made[0] + 1), 8 + BANK if second else 8)
                os.pwrite(file.fileno(), b'2' if second else b'1', 7)
                made[0] += 1
                time.sleep(random.choice((0.3, 0.4, 1, 3)))
    writer = threading.Thread(target=rewrites)
    writer.start()
    def reads(name, times, *before):
        wrong = told = 0
        for _ in range(times):
            ended = subprocess.run([*before, program, path], stdin=subprocess.DEVNULL, capture_output=True)
            if ended.returncode == 4:  # it was rewritten each time that it was read
                continue
            rows = [json.loads(it) for it in ended.stdout.splitlines()]
            jobs = {it['job'] for it in rows[:-1]}
            told += 1
            if ended.returncode != 0 or len(rows) != 101 or len(jobs) != 1:
                wrong += 1
                print('not one image:', ended, sorted(jobs)[:5], flush=True)
        check(name + ' each output is one image', wrong, 0)
        check(name + ' images were read', told > 0, True)
    reads('beside rewrites', 100)
    before = made[0]
    if shutil.which('strace'):
        reads('beside rewrites, slowly', 8, 'strace', '-f', '-o', '/dev/null', '-e', 'trace=pread64', '-e', 'inject=pread64:delay_enter=40000')
        check('the store was rewritten while it was read slowly', made[0] > before + 1, True)
    else:
        print('skipped: a slow reader beside rewrites: strace is not there')
    ending.set()
    writer.join()

try:
    one_store()
    fine = statuses()
    no_stores(*fine)
    forms(fine[0])
    kept_reports(fine[0])
    forgetting(fine[0])
    beside_a_server()
    served_again()
    killed()
    beside_rewrites()
finally:
    shutil.rmtree(scratch)
print('%d passed, %d failed' % (passed, failed))
sys.exit(failed > 0)

"""What the programs ask of the system for their logs, seen by strace, for checks/log, which says what is run. The arguments are `log_calls`,
the node and the server, of which the last two may be missing. The last line is how many passed and how many failed."""
import concurrent.futures, os, re, shutil, signal, socket, subprocess, sys, tempfile, threading, time

from protocol import answer, free_port, register, report

log_calls, node, server = sys.argv[1:4]
scratch = tempfile.mkdtemp()
counting = threading.Lock()
passed = failed = 0
BANK, ZEROS = 67_108_864, 65_536
AGENT = '00000000-0000-0000-0000-000000000010'
LINE = re.compile(rb'\d+ +(\w+)\((.*)\) += (\S+)(.*)', re.DOTALL)
FAULTS = ('EIO', 'ENOSPC')

def check(name, got, wanted):
    global passed, failed
    with counting:
        if got == wanted:
            passed += 1
            return
        failed += 1
        print('FAILED', name, 'got', repr(got)[:600], 'wanted', repr(wanted)[:600], flush=True)

# ---- what a trace shows of a log and its folder

def unescaped(text):
    names = {b'n': b'\n', b't': b'\t', b'r': b'\r', b'f': b'\f', b'v': b'\v'}
    return re.sub(rb'\\(?:([0-7]{1,3})|(.))', lambda m: bytes([int(m[1], 8)]) if m[1] else names.get(m[2], m[2]), text)

class Call:
    """A call of the system: what it is for the log, its name, and the how-many-eth call of that name it is."""
    def __init__(self, what, name, number, is_fault):
        self.what, self.name, self.number, self.is_fault = what, name, number, is_fault

def meaning(name, words, log):
    """What a call does with the log or its folder, or None."""
    path, folder = log.encode(), os.path.dirname(log).encode()
    held, at = b'<' + path + b'>', b'"' + path + b'"'
    if at in words and name != b'execve':
        if name != b'openat':
            return ('look',)
        return ('make', words.split(b', ')[-1].decode()) if b'O_CREAT|O_EXCL' in words else ('open',)
    if re.match(rb'\d+<' + re.escape(folder) + rb'>', words):
        return ('sync folder',) if name in (b'fsync', b'fdatasync') else None
    if b'"' + folder + b'"' in words and name == b'openat':
        return ('open folder',)
    if not re.match(rb'\d+' + re.escape(held), words):
        return None
    rest = words.split(held, 1)[1].lstrip(b', ')
    if name == b'pwrite64':
        data, size, place = re.fullmatch(rb'"((?:\\.|[^"\\])*)"(?:\.\.\.)?, (\d+), (\d+)', rest, re.DOTALL).groups()
        return 'write', int(place), int(size), unescaped(data)
    if name == b'ftruncate':
        return 'cut', int(rest)
    return {b'fsync': ('sync',), b'close': ('close',), b'flock': ('lock', rest.decode()), b'statx': ('length',), b'newfstatat': ('length',),
            b'fstat': ('length',), b'pread64': ('read',)}.get(name, ('another', name.decode()))

def calls_of(trace, log):
    """The calls of a log in a trace, in their order."""
    found, numbers = [], {}
    with open(trace, 'rb') as file:
        for line in file:
            match = LINE.match(line)
            if not match:
                continue
            name, words = match[1], match[2]
            numbers[name] = numbers.get(name, 0) + 1
            what = meaning(name, words, log)
            if what:
                found.append(Call(what, name.decode(), numbers[name], b'INJECTED' in match[4]))
    return found

# What may change a log, or keep it: all but the looks and the reads.
def changes(calls):
    return [call.what for call in calls if call.what[0] not in ('length', 'read')]

def traced(trace, *inject):
    return ['strace', '-f', '-y', '-s', '40', '-e', 'trace=%file,%desc', '-o', trace, *inject]

# ---- what the calls must be

OPENED = [('look',), ('open',), ('lock', 'LOCK_EX|LOCK_NB'), ('open folder',), ('sync folder',), ('sync',)]
MADE = [('look',), ('make', '0600'), ('lock', 'LOCK_EX|LOCK_NB'), ('open folder',), ('sync folder',), ('sync',)]
NEW = [('write', 0, 9, b'DSCSTOR1\0'), ('cut', 9), ('sync',)]
SYNC, CLOSE = [('sync',)], [('close',)]

def written(at, data):
    return [('write', at, len(data), data[:40])]

def cut_at(size):
    return [('cut', size), ('sync',)]

def cell(body):
    return len(body).to_bytes(4, 'big') + body

def appended(closed, bodies):
    calls = []
    for body in bodies:
        calls += written(closed + 1, cell(body) + b'\0') + SYNC + written(closed, b'\xa5') + SYNC
        closed += 5 + len(body)
    return calls

def zeros(begin, end):
    return [('write', at, min(ZEROS, end - at), bytes(40)[:end - at]) for at in range(begin, end, ZEROS)]

def rewritten(long, begin, bodies, selector):
    calls = zeros(long, begin)
    for body in bodies:
        calls += written(begin, b'\xa5' + cell(body) + b'\0')
        begin += 5 + len(body)
    return calls + written(begin, b'\0') + SYNC + written(7, selector) + SYNC

BODY = b'\7' * 8
LONG = b'\7' * 70_000  # longer than a buffer, and than a piece of zeros

def bodies_of(path):
    """The bodies of the live bank; None where the file is no log."""
    try:
        with open(path, 'rb') as file:
            head = file.read(8)
            if len(head) < 8 or head[:7] != b'DSCSTOR':
                return [] if len(head) < 9 and b'DSCSTOR1'.startswith(head) else None
            file.seek(8 + (BANK if head[7:] == b'2' else 0))
            found = []
            while True:
                gate = file.read(1)
                if gate != b'\xa5':
                    return found if gate else None
                size = int.from_bytes(file.read(4), 'big')
                found.append(file.read(size))
                if len(found[-1]) < size:
                    return None
    except FileNotFoundError:
        return []

# ---- the log by itself: what each command does on a log in a certain state

class Case:
    """A command over a log: the log before it, the calls that must come, and the bodies before and after it."""
    def __init__(self, name, words, before, wanted, old, new):
        self.name, self.words, self.before, self.wanted, self.old, self.new = name, words, before, wanted, old, new

def cases():
    two = b'DSCSTOR1' + (b'\xa5' + cell(BODY)) * 2 + b'\0'
    return [
        Case('a new log', ['open'], None, MADE + NEW + CLOSE, [], []),
        Case('a log of five bytes', ['open'], b'DSCST', OPENED + NEW + CLOSE, [], []),
        Case('an opening', ['open'], two, OPENED + cut_at(35) + CLOSE, [BODY] * 2, [BODY] * 2),
        Case('an opening of a log with a torn end', ['open'], two + b'\0\0\0\1torn', OPENED + cut_at(35) + CLOSE, [BODY] * 2, [BODY] * 2),
        Case('two appends to a new log', ['append', '2', '8'], None, MADE + NEW + appended(8, [BODY] * 2) + CLOSE, [], [BODY] * 2),
        Case('an append of 70,000 bytes', ['append', '1', '70000'], two, OPENED + cut_at(35) + appended(34, [LONG]) + CLOSE, [BODY] * 2, [BODY] * 2 + [LONG]),
        Case('a rewrite into the second bank', ['rewrite', '2', '8'], two, OPENED + cut_at(35) + rewritten(35, 8 + BANK, [BODY] * 2, b'2') + CLOSE,
             [BODY] * 2, [BODY] * 2),
        Case('a rewrite of 70,000 bytes', ['rewrite', '1', '70000'], two, OPENED + cut_at(35) + rewritten(35, 8 + BANK, [LONG], b'2') + CLOSE,
             [BODY] * 2, [LONG]),
        Case('an append to the second bank', ['append', '1', '8'], 'second', OPENED + cut_at(BANK + 22) + appended(BANK + 21, [BODY]) + CLOSE,
             [BODY], [BODY] * 2),
        Case('a rewrite back into the first bank', ['rewrite', '3', '8'], 'second',
             OPENED + cut_at(BANK + 22) + rewritten(BANK + 22, 8, [BODY] * 3, b'1') + CLOSE, [BODY], [BODY] * 3),
    ]

def put_before(case, log):
    if case.before == 'second':
        with open(log, 'wb') as file:
            file.write(b'DSCSTOR2' + b'\xa5' + cell(BODY) + b'\0')
            file.seek(8 + BANK)
            file.write(b'\xa5' + cell(BODY) + b'\0')
    elif case.before is not None:
        with open(log, 'wb') as file:
            file.write(case.before)

def run(words, **more):
    ended = subprocess.run(words, capture_output=True, timeout=120, stdin=subprocess.DEVNULL, **more)
    return ended.returncode, ended.stdout, ended.stderr

# The calls of each command, and that the same ones without one of their syncs are others.
def compared(case):
    folder = tempfile.mkdtemp(dir=scratch)
    log = folder + '/log'
    put_before(case, log)
    check(case.name, run([*traced(folder + '/trace'), log_calls, log, *case.words]), (0, b'', b''))
    calls = calls_of(folder + '/trace', log)
    check(case.name + ', its calls', changes(calls), case.wanted)
    check(case.name + ', its bodies', bodies_of(log), case.new)
    shutil.rmtree(folder)
    return calls

# A program that leaves one of its syncs out, which a library before that of the system does for it, makes other calls than those that must come.
LEAVES_OUT = b"""
#include <stdlib.h>
#include <sys/syscall.h>
#include <unistd.h>
static int count;
int fsync(int file) { return ++count == atoi(getenv("LEFT_OUT")) ? 0 : syscall(SYS_fsync, file); }
"""

def left_out(case, library, number):
    folder = tempfile.mkdtemp(dir=scratch)
    log, name = folder + '/log', '%s without its sync %d' % (case.name, number)
    put_before(case, log)
    leaving = ['-E', 'LD_PRELOAD=' + library, '-E', 'LEFT_OUT=%d' % number]
    check(name, run([*traced(folder + '/trace', *leaving), log_calls, log, *case.words]), (0, b'', b''))
    calls, wanted = changes(calls_of(folder + '/trace', log)), list(case.wanted)
    del wanted[[at for at, call in enumerate(wanted) if call[0] in ('sync', 'sync folder')][number - 1]]
    check(name + ', its calls', (calls == case.wanted, calls == wanted), (False, True))
    shutil.rmtree(folder)

def left_out_jobs():
    compiler = shutil.which('cc') or shutil.which('gcc') or shutil.which('clang')
    if not compiler:
        print('skipped: programs that leave a sync out, since there is no C compiler', flush=True)
        return []
    library = scratch + '/leaves_out.so'
    subprocess.run([compiler, '-shared', '-fPIC', '-w', '-x', 'c', '-', '-o', library], input=LEAVES_OUT, check=True)
    return [(left_out, case, library, number) for case in cases() if case.name in ('two appends to a new log', 'a rewrite back into the first bank')
            for number in range(1, 1 + sum(call[0] in ('sync', 'sync folder') for call in case.wanted))]

# Which calls are tried: all but the end, and of a long row of zeros the first, one in its middle and the last.
def tried(calls):
    rows = [at for at, call in enumerate(calls) if call.what[0] == 'write' and not any(call.what[3])  and call.what[2] > 1000]
    passed_over = set(rows) - {rows[at] for at in (0, len(rows) // 2, -1)} if rows else set()
    return [(at, call) for at, call in enumerate(calls) if at not in passed_over and call.what[0] != 'close']

# How many bodies were acknowledged before this call: each is, with the sync of its gate.
def done_before(calls, at):
    count, gate = 0, False
    for call in calls[:at]:
        count += gate and call.what == ('sync',)
        gate = call.what[0] == 'write' and call.what[3] == b'\xa5'
    return count

# The calls of the log that came after the one that failed.
def after_fault(calls):
    at = [call.is_fault for call in calls].index(True) if any(call.is_fault for call in calls) else None
    return 'no call failed' if at is None else changes(calls[at + 1:])

# One call fails: the command ends, nothing is lost, no call comes after it, and the next start goes on.
def faulted(case, calls, at, call, fault):
    folder = tempfile.mkdtemp(dir=scratch)
    log, name = folder + '/log', '%s, %s at %s' % (case.name, fault, call.what[:3])
    put_before(case, log)
    inject = ['-e', 'inject=%s:error=%s:when=%d' % (call.name, fault, call.number)]
    check(name, run([*traced(folder + '/trace', *inject), log_calls, log, *case.words]), (4, b'', b''))
    check(name + ', the calls after it', after_fault(calls_of(folder + '/trace', log)) in ([], CLOSE), True)
    if case.words[0] == 'rewrite':
        allowed = [case.old, case.new]
    else:
        done = len(case.old) + done_before(calls, at)
        allowed = [(case.old + case.new[len(case.old):])[:count] for count in (done, done + 1)]
    left = bodies_of(log)
    check(name + ', what it leaves', left in allowed, True)
    check(name + ', the next start', run([log_calls, log, 'append', '1', '3']), (0, b'', b''))
    check(name + ', what it finds', bodies_of(log), left + [b'\7' * 3] if left is not None else 'a log')
    shutil.rmtree(folder)

# ---- the node, and the server

DOCUMENT = b'instance of MSFT_EnvironmentResource{ResourceID="[E]A";Name="A";Value="1";};instance of OMI_ConfigurationDocument{Version="2.0.0";};'

class NodeCase:
    """A command of the node, those before it, and its input."""
    def __init__(self, words, before, text=b''):
        self.words, self.before, self.text = words, before, text

NODE_CASES = [NodeCase(['init', AGENT], []), NodeCase(['push'], [(['init', AGENT], b'')], DOCUMENT),
              NodeCase(['consistency'], [(['init', AGENT], b''), (['push'], DOCUMENT)])]

def node_does(folder, words, text, *front):
    ended = subprocess.run([*front, node, folder + '/store/file', folder + '/host', *words], input=text, capture_output=True, timeout=120)
    return ended.returncode, ended.stdout, ended.stderr

def new_node(case):
    folder = tempfile.mkdtemp(dir=scratch)
    os.mkdir(folder + '/store')
    os.mkdir(folder + '/host')
    for words, text in case.before:
        node_does(folder, words, text)
    return folder

def node_traced(case):
    folder = new_node(case)
    status, _, errors = node_does(folder, case.words, case.text, *traced(folder + '/trace'))
    check('the node, %s' % case.words[0], (status, errors), (0, b''))
    calls = calls_of(folder + '/trace', folder + '/store/file')
    whole = len(bodies_of(folder + '/store/file'))
    shutil.rmtree(folder)
    return calls, whole

def node_faulted(case, calls, whole, at, call, fault):
    folder, name = new_node(case), 'the node, %s, %s at %s' % (case.words[0], fault, call.what[:3])
    store = folder + '/store/file'
    old = bodies_of(store)
    inject = ['-e', 'inject=%s:error=%s:when=%d' % (call.name, fault, call.number)]
    status, out, errors = node_does(folder, case.words, case.text, *traced(folder + '/trace', *inject))
    check(name, (status, out.splitlines()[-1:], errors), (4, [b'refused DiskFault'], b''))
    check(name + ', the calls after it', after_fault(calls_of(folder + '/trace', store)) in ([], CLOSE), True)
    left, done = bodies_of(store), len(old) + done_before(calls, at)
    check(name + ', what it leaves', left is not None and left[:len(old)] == old and len(left) in (done, done + 1), True)
    again = {'init': [(0, b'ok\n', b''), (7, b'refused NotAllowed HasAgent\n', b'')]}.get(case.words[0])
    ended = node_does(folder, case.words, case.text)
    check(name + ', the next start', ended in again if again else (ended[0], ended[2]) == (0, b''), True)
    check(name + ', what it finds', bodies_of(store)[:len(left or [])], left)
    shutil.rmtree(folder)

# Asks the server one request after the other, until it is gone.
def asked(port, requests, process):
    got = []
    for sent in requests:
        until = time.monotonic() + 30
        while time.monotonic() < until and process.poll() is None:
            try:
                with socket.create_connection(('127.0.0.1', port), 30) as conn:
                    conn.sendall(sent)
                    got.append(b''.join(iter(lambda: conn.recv(65536), b'')))
                break
            except OSError:
                time.sleep(0.01)
    return got

REQUESTS = [register(1), report(1, 7)]

def server_does(folder, requests, *front):
    port = free_port()
    words = ['--store', folder + '/store/file', '--shelf', folder + '/shelf', '--listen', '127.0.0.1:%d' % port, '--connections', str(len(requests))]
    process = subprocess.Popen([*front, server, *words], stdin=subprocess.DEVNULL, stdout=subprocess.PIPE, stderr=subprocess.PIPE)
    got = asked(port, requests, process)
    try:
        out, errors = process.communicate(timeout=60)
    except subprocess.TimeoutExpired:
        process.send_signal(signal.SIGTERM)
        return 'no end', got
    return (process.returncode, out, errors), got

def new_server():
    folder = tempfile.mkdtemp(dir=scratch)
    os.makedirs(folder + '/shelf')
    os.mkdir(folder + '/store')
    with open(folder + '/shelf/keys', 'wb') as file:
        file.write(b'k0\n')
    return folder

def server_traced():
    folder = new_server()
    got = server_does(folder, REQUESTS, *traced(folder + '/trace'))
    check('the server', got, ((0, b'1 answer 204\n2 answer 200\n', b''), [answer(204), answer(200)]))
    calls = calls_of(folder + '/trace', folder + '/store/file')
    shutil.rmtree(folder)
    return calls

def server_faulted(calls, at, call, fault):
    folder, name = new_server(), 'the server, %s at %s' % (fault, call.what[:3])
    store = folder + '/store/file'
    inject = ['-e', 'inject=%s:error=%s:when=%d' % (call.name, fault, call.number)]
    ended, got = server_does(folder, REQUESTS, *traced(folder + '/trace', *inject))
    done = done_before(calls, at)
    first = [b'1 answer 204\n'][:done]
    opens = at < [it.what for it in calls].index(('cut', 9)) + 2
    line = b'' if opens else b''.join(first) + b'%d disk fault\n' % (done + 1)
    check(name, ended, (4, line + b'refused DiskFault\n', b''))
    check(name + ', its answers', [it for it in got if it in (answer(204), answer(200))], [answer(204)][:done])
    check(name + ', the calls after it', after_fault(calls_of(folder + '/trace', store)) in ([], CLOSE), True)
    left = bodies_of(store)
    check(name + ', what it leaves', left is not None and len(left) in (done, done + 1), True)
    check(name + ', the next start', server_does(folder, REQUESTS), ((0, b'1 answer 204\n2 answer 200\n', b''), [answer(204), answer(200)]))
    check(name + ', what it finds', bodies_of(store)[:len(left or [])], left)
    shutil.rmtree(folder)

# ---- all of it, several side by side

def main():
    jobs = left_out_jobs()
    for case in cases():
        calls = compared(case)
        jobs += [(faulted, case, calls, at, call, fault) for at, call in tried(calls) for fault in FAULTS]
    if os.access(node, os.X_OK):
        for case in NODE_CASES:
            calls, whole = node_traced(case)
            jobs += [(node_faulted, case, calls, whole, at, call, fault) for at, call in tried(calls) for fault in FAULTS]
    if os.access(server, os.X_OK):
        calls = server_traced()
        jobs += [(server_faulted, calls, at, call, fault) for at, call in tried(calls) for fault in FAULTS]
    with concurrent.futures.ThreadPoolExecutor(8) as pool:
        for job, done in [(job, pool.submit(job[0], *job[1:])) for job in jobs]:
            try:
                done.result()
            except Exception as error:  # a part that fails ends that part alone
                check('%s %s' % (job[0].__name__, job[-2]), '%s: %s' % (type(error).__name__, error), 'its end')
    shutil.rmtree(scratch, ignore_errors=True)
    print(passed, failed)

main()

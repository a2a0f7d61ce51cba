"""Stores of the version before that wrote documents in full, for checks/upgrade, which says what is run. The arguments are the node, and `traced`
where strace may trace here. The last line is how many passed and how many failed.

    python3 checks/upgrade.py make NODE

writes checks/upgrade.json anew: NODE is a node of that version, and makes each store by commands; the file has the stores, and what NODE then
prints to each command over a copy of them. It is run as root, since the server that the stores name is at a port that none but root may take.
"""
import base64, concurrent.futures, hashlib, json, os, re, shutil, socket, subprocess, sys, tempfile, threading

from protocol import answer, content, statuses

HELD = os.path.join(os.path.dirname(os.path.abspath(__file__)), 'upgrade.json')
BEGIN, BANK = 8, 67_108_864
FORMAT = b'\xa5\0\0\0\2\x0f\2'  # the first cell of a bank of format 2
BLOB, STAGE = 16, 17
AGENT = '00000000-0000-0000-0000-000000000010'
LONGEST = 8_388_608  # the most bytes of a document
HEADER = 'instance of OMI_ConfigurationDocument{Version="2.0.0";};'

def variable(name, value):
    return 'instance of MSFT_EnvironmentResource{ResourceID="[Environment]%s";Name="%s";Value="%s";};' % (name, name, value)

SERVER = ('127.0.0.1', 1)
MANAGERS = ('instance of MSFT_DSCMetaConfiguration{RefreshMode="Pull";ConfigurationMode="ApplyAndAutoCorrect";RebootNodeIfNeeded=True;};'
            'instance of MSFT_WebDownloadManager{ServerURL="http://127.0.0.1:1";RegistrationKey="k0";%s};'
            'instance of MSFT_WebReportManager{ServerURL="http://127.0.0.1:1";};')
PARTIAL = 'instance of MSFT_PartialConfiguration{ResourceID="[PartialConfiguration]%s";%s};'
NAMED = MANAGERS % 'ConfigurationNames={"Web"};'
DIVIDED = MANAGERS % '' + PARTIAL % ('Base', '') + PARTIAL % ('App', 'RefreshMode="Push";')

# The inputs of the commands, by their names.
INPUTS = {
    '': '',
    'named': NAMED,
    'divided': DIVIDED,
    'header': HEADER,
    'one': variable('A', 'one') + HEADER,
    'two': variable('A', 'two') + variable('B', 'two') + HEADER,
    'app': variable('App', '1') + HEADER,
    'app2': variable('App', '2') + HEADER,
    'no kind': 'instance of MSFT_ServiceResource{ResourceID="[Service]S";};' + variable('C', '1') + HEADER,
    'new': variable('A', 'new') + variable('N', 'new') + HEADER,
}

# The commands that follow over each store: what the version before prints to them must be printed.
LOOK = ['get', 'reports']
FOLLOW = [*LOOK, 'consistency', *LOOK, 'push < new', *LOOK, 'push < new', *LOOK]

# ---- the bytes of a store

def whole(path):
    with open(path, 'rb') as file:
        return file.read()

def live_bank(path):
    """The selector, and where the live bank begins."""
    with open(path, 'rb') as file:
        head = file.read(8)
    return head[7:], BEGIN + (BANK if head[7:] == b'2' else 0)

def bodies_of(path):
    """The bodies of the live bank."""
    found = []
    with open(path, 'rb') as file:
        file.seek(live_bank(path)[1])
        while file.read(1) == b'\xa5':
            found.append(file.read(int.from_bytes(file.read(4), 'big')))
    return found

def of_kind(bodies, kind):
    return [body for body in bodies if body[0] == kind]

def is_by_digests(path):
    """Whether the live bank begins as one of format 2."""
    with open(path, 'rb') as file:
        file.seek(live_bank(path)[1])
        return file.read(len(FORMAT)) == FORMAT

def put(path, store):
    """Makes the file of a store that is held: its pieces, and zeros, which take no room on the disk, everywhere else."""
    with open(path, 'wb') as file:
        for place, piece in store['pieces']:
            file.seek(place)
            file.write(base64.b64decode(piece))
        file.truncate(store['size'])

def pieces_of(path):
    """The bytes of a file with their places, without its long rows of zeros."""
    return [[match.start(), base64.b64encode(match[0]).decode()]
            for match in re.finditer(rb'[^\0](?:[^\0]|\0{1,99}(?=[^\0]))*', whole(path), re.DOTALL)]

# ---- a node

class Node:
    """A folder with a store and a host."""
    def __init__(self, program, scratch):
        self.program, self.folder = program, tempfile.mkdtemp(dir=scratch)
        self.store, self.host = self.folder + '/store', self.folder + '/host'
        os.mkdir(self.host)

    def words(self, line):
        """The words of a command, and its input: `push NAME < INPUT`."""
        words, _, name = line.partition(' < ')
        return [self.program, self.store, self.host, *words.split()], INPUTS[name].encode()

    def does(self, line):
        """The status of a command, and what it printed."""
        words, text = self.words(line)
        return self.ended(words, text)

    def ended(self, words, text):
        ended = subprocess.run(words, input=text, capture_output=True, timeout=600)
        return [ended.returncode, (ended.stdout + ended.stderr).decode(errors='replace')]

    def wants_reboot(self, *ids):
        with open(self.host + '/reboot', 'w', encoding='utf-8') as file:
            file.writelines(it.lower() + '\n' for it in ids)

    def remove(self):
        shutil.rmtree(self.folder)

# ---- the stores, made by the version before

class Peer:
    """A pull server that has one content for each name, and takes all that is sent."""
    def __init__(self, contents):
        self.contents = contents
        self.listener = socket.create_server(SERVER)
        threading.Thread(target=self.serve, daemon=True).start()

    def serve(self):
        while True:
            try:
                conn, _ = self.listener.accept()
            except OSError:
                return
            with conn:
                conn.sendall(self.answer(self.heard(conn)))

    @staticmethod
    def heard(conn):
        got, size = b'', None
        while size is None or len(got) < size:
            got += conn.recv(1 << 16)
            head, end, _ = got.partition(b'\r\n\r\n')
            if end:
                lengths = re.findall(rb'(?i)\r\nContent-Length: *(\d+)', head)
                size = len(head) + 4 + int(lengths[0] if lengths else 0)
        return got.decode()

    def answer(self, request):
        if request.startswith('PUT'):
            return answer(204)
        if 'GetDscAction' in request:
            return statuses('GetConfiguration', *((name, 'GetConfiguration') for name in self.contents))
        named = re.search(r"ConfigurationName='(\w+)'", request)
        return content(self.contents[named[1]].encode()) if named else answer(200)

    def end(self):
        self.listener.shutdown(socket.SHUT_RDWR)
        self.listener.close()

def done(node, *lines, wanted=(0,)):
    for line in lines:
        got = node.does(line)
        if got[0] not in wanted:
            raise SystemExit('%s: %r' % (line, got))

def new(node):
    """A node that has its agent and nothing else."""
    done(node, 'init ' + AGENT)

def pushed(node):
    """Documents that are pushed, removed and restored, and a reboot that was asked for."""
    new(node)
    done(node, 'push < header', 'push < one', 'consistency', 'push < one', 'push < two', 'remove current', 'restore')
    node.wants_reboot('[Environment]A', '[Environment]B')
    shutil.rmtree(node.host + '/env')
    done(node, 'push < two', wanted=(10,))
    os.remove(node.host + '/reboot')
    done(node, 'boot', 'remove previous', 'push < one')
    done(node, 'push < no kind', wanted=(1,))

def pulled(node):
    """A document that a server gave, and reports of which it has some."""
    peer = Peer({'Web': INPUTS['two']})
    new(node)
    done(node, 'meta < named', 'register n', 'pull', 'push < one', 'consistency', 'pull')
    peer.end()
    done(node, 'consistency', 'consistency')

def divided(node):
    """The parts of partial configurations, of which one is pulled and one pushed."""
    peer = Peer({'Base': INPUTS['two']})
    new(node)
    done(node, 'meta < divided', 'register n', 'pull', 'push App < app', 'consistency', 'remove pending')
    peer.end()

def waiting(node):
    """A reboot that is waited for, and no document but Pending."""
    new(node)
    node.wants_reboot('[Environment]A')
    done(node, 'push < one', wanted=(10,))

def of_stage(text):
    """The cell of a document that becomes Pending, in full."""
    body = bytes([4, 1, 0, 0]) + hashlib.sha256(text).digest() + len(text).to_bytes(4, 'big') + text
    return b'\xa5' + len(body).to_bytes(4, 'big') + body

def fill(node):
    """Fills the live bank, with the events of pushes that were killed before their runs: long documents, which are zeros in a comment, and a short
    one. Each command takes a minute to read all of them; so they are put there without one, and a single command finds them, which writes the
    other bank."""
    begin = live_bank(node.store)[1]
    short = of_stage(HEADER.encode())
    at = begin + sum(5 + len(body) for body in bodies_of(node.store))
    left = begin + BANK - at - len(short) - 20
    with open(node.store, 'r+b') as file:
        file.seek(at)
        while left:
            size = LONGEST if left > 2 * LONGEST else left // 2 if left > LONGEST else left - len(of_stage(b''))
            text = b'%s/*%s*/' % (HEADER.encode(), bytes(size - len(HEADER) - 4))
            left -= file.write(of_stage(text))
        file.write(short + b'\0')

def rewritten(node):
    """A store in its second bank, with Pending, Current and Previous, and more reports than are kept."""
    peer = Peer({})
    new(node)
    done(node, 'meta < named', 'register n', 'push < header', 'consistency')
    peer.end()
    done(node, *['consistency'] * 16, 'push < one')
    fill(node)
    done(node, 'push < two')
    done(node, 'push < no kind', 'consistency', wanted=(1,))

def rewritten_twice(node):
    """A store that is back in its first bank, and has its second one behind it."""
    new(node)
    done(node, 'push < one')
    for text in ('two', 'one'):
        fill(node)
        done(node, 'push < ' + text)

# Each store by its name, with the commands in place of `push < new`, and those that come before.
STORES = {
    'new': (new, FOLLOW),
    'pushed': (pushed, FOLLOW),
    'pulled': (pulled, FOLLOW),
    'divided': (divided, [line.replace('push < new', 'push App < app2') for line in FOLLOW]),
    'waiting': (waiting, [*LOOK, 'consistency', 'boot', *LOOK, *FOLLOW[5:]]),
    'rewritten': (rewritten, FOLLOW),
    'rewritten twice': (rewritten_twice, FOLLOW),
}

def make(program):
    held = {}
    scratch = tempfile.mkdtemp()
    for name, (made, lines) in STORES.items():
        node = Node(program, scratch)
        made(node)
        held[name] = {'size': os.path.getsize(node.store), 'pieces': pieces_of(node.store),
                      'sha256': hashlib.sha256(whole(node.store)).hexdigest()}
        node.remove()
        node = Node(program, scratch)
        put(node.store, held[name])
        held[name]['prints'] = [[line, *node.does(line)] for line in lines]
        print(name, held[name]['size'], 'kinds', sorted({body[0] for body in bodies_of(node.store)}), flush=True)
        node.remove()
    shutil.rmtree(scratch)
    with open(HELD, 'w', encoding='utf-8') as file:
        json.dump(held, file, indent=1)
        file.write('\n')

# ---- what the program does with them

counting = threading.Lock()
passed = failed = 0

def check(name, got, wanted):
    global passed, failed
    with counting:
        if got == wanted:
            passed += 1
            return
        failed += 1
        print('FAILED', name, 'got', repr(got)[:600], 'wanted', repr(wanted)[:600], flush=True)

def other(selector):
    return b'1' if selector == b'2' else b'2'

def digests_named(bodies):
    """The digests that the Stages and Slots of a bank name, in their order."""
    found = []
    for body in bodies:
        if body[0] in (17, 18):
            at = 1 if body[0] == 17 else 2
            count, at = body[at], at + 1
            for _ in range(count):
                at += 2 + int.from_bytes(body[at:at + 2], 'big')
                found.append(body[at:at + 32])
                at += 32
    return found

def migrated(name, path, selector):
    """The other bank is live, and has the bytes of each document once."""
    check(name + ', its selector', live_bank(path)[0], other(selector))
    check(name + ', its first cell', is_by_digests(path), True)
    bodies = bodies_of(path)
    blobs = of_kind(bodies, BLOB)
    check(name + ', its documents in full', len(of_kind(bodies, 4) + of_kind(bodies, 13)), 0)
    check(name + ', its blobs', [blob[1:33] for blob in blobs], [hashlib.sha256(blob[33:]).digest() for blob in blobs])
    check(name + ', each once', len({blob[1:33] for blob in blobs}), len(blobs))
    check(name + ', what is named', set(digests_named(bodies)), {blob[1:33] for blob in blobs})

def followed(name, store):
    """Every command prints what the version before printed; until a push the bank and its format stay, and the first push writes the other one."""
    node = Node(PROGRAM, scratch)
    put(node.store, store)
    check(name + ', the file', hashlib.sha256(whole(node.store)).hexdigest(), store['sha256'])
    selector, old = live_bank(node.store)[0], bodies_of(node.store)
    pushes = 0
    for line, *printed in store['prints']:
        before = bodies_of(node.store)
        check('%s: %s' % (name, line), node.does(line), printed)
        bodies = bodies_of(node.store)
        if line.startswith('push'):
            pushes += 1
            if pushes == 1:
                migrated(name + ', pushed', node.store, selector)
            else:
                added = bodies[len(before):]
                check(name + ', pushed again', (live_bank(node.store)[0], bodies[:len(before)] == before), (other(selector), True))
                check(name + ', what it adds', ([body[0] for body in added][:1], of_kind(added, BLOB)), ([STAGE], []))
        elif not pushes:
            check('%s: %s, the bank' % (name, line), (live_bank(node.store)[0], bodies[:len(old)] == old, max(body[0] for body in bodies) < 15),
                  (selector, True, True))
    check(name + ', its pushes', pushes, 2)
    node.remove()

# ---- a push that is killed at each call that writes, cuts or syncs a file

CALLS = ('pwrite64', 'write', 'fsync', 'fdatasync', 'ftruncate')
CALL = re.compile(rb'\d+ +(\w+)\((.*)', re.DOTALL)
ZEROS = re.compile(rb'\d+<[^>]*>, "(?:\\0)+"\.\.\., 65536, ')
PUSH = 'push < new'

class Migration:
    """The push that migrates a store: the store and its host before it, the calls that it makes, and what a start may find after a part of it."""
    def __init__(self, name, store):
        self.name, self.found = name, {}
        node = Node(PROGRAM, scratch)
        put(node.store, store)
        lines = [line for line, *_ in store['prints']]
        first = lines.index(PUSH)
        for line in lines[:first]:
            node.does(line)
        self.before = {'size': os.path.getsize(node.store), 'pieces': pieces_of(node.store)}
        self.host = node.host
        looks = [printed for _, _, printed in store['prints']]
        again = lines.index(PUSH, first + 1)
        before, after, twice = (tuple(looks[at:at + 2]) for at in (first - 2, first + 1, again + 1))
        current = re.search('(?m)^current( .*)$', after[0])[1]
        self.states = [before, (re.sub('(?m)^pending .*$', lambda _: 'pending' + current, before[0]), before[1]), after, twice]
        self.calls = self.calls_of_push()

    def node(self):
        node = Node(PROGRAM, scratch)
        put(node.store, self.before)
        shutil.copytree(self.host, node.host, dirs_exist_ok=True)
        return node

    def calls_of_push(self):
        """Each call with its name and the how-many-eth of that name it is; of the writes of zeros the first, one in the middle and the last."""
        node = self.node()
        trace = node.folder + '/trace'
        words, text = node.words(PUSH)
        check(self.name + ', traced', node.ended(['strace', '-f', '-y', '-s', '16', '-e', 'trace=' + ','.join(CALLS), '-o', trace, *words], text)[0], 0)
        found, self.counts, zeros = [], dict.fromkeys(CALLS, 0), []
        with open(trace, 'rb') as lines:
            for match in filter(None, map(CALL.match, lines)):
                call = match[1].decode()
                self.counts[call] += 1
                if ZEROS.match(match[2]):
                    zeros.append(len(found))
                found.append((call, self.counts[call]))
        node.remove()
        left_out = set(zeros) - {zeros[at] for at in (0, len(zeros) // 2, -1)} if zeros else set()
        return [call for at, call in enumerate(found) if at not in left_out]

    def push_at(self, node, call, number):
        """The status of a push that is killed before that call."""
        words, text = node.words(PUSH)
        kill = 'inject=%s:signal=SIGKILL:when=%d' % (call, number)
        return node.ended(['strace', '-f', '-o', '/dev/null', '-e', 'trace=' + call, '-e', kill, *words], text)[0]

    def looked(self, node):
        """The last number of the states that the node is in, or what it is."""
        got = tuple(node.does(line)[1] for line in LOOK)
        return self.states.index(got) if got in self.states else got

    def killed(self, at):
        call, number = self.calls[at]
        name, node = '%s, killed at %s %d' % (self.name, call, number), self.node()
        check(name, self.push_at(node, call, number), -9)
        state = self.found[at] = self.looked(node)
        check(name + ', what is found', state in (0, 1, 2), True)
        check(name + ', a push', node.does(PUSH)[0], 0)
        check(name + ', what it leaves', (self.looked(node), is_by_digests(node.store)), (3 if state == 2 else 2, True))
        node.remove()

    def not_killed(self, call):
        node = self.node()
        check('%s, with all its calls of %s' % (self.name, call), (self.push_at(node, call, self.counts[call] + 1), self.looked(node)), (0, 2))
        node.remove()

    def end(self):
        """What is found goes on from event to event with the calls, and each was seen."""
        found = [self.found.get(at) for at in range(len(self.calls))]
        check(self.name + ', the order of what is found', (set(found) == {0, 1, 2} and sorted(found) == found), True)

def all_kinds(stores):
    """The kinds of bodies that the live banks of the stores have."""
    path, found = scratch + '/kinds', set()
    for store in stores:
        put(path, store)
        found.update(body[0] for body in bodies_of(path))
    return found

def main(traced):
    with open(HELD, encoding='utf-8') as file:
        stores = json.load(file)
    check('the stores', sorted(stores), sorted(STORES))
    check('the kinds of their bodies', all_kinds(stores.values()), set(range(1, 15)))
    jobs = [(followed, name, store) for name, store in stores.items()]
    migrations = [Migration(name, stores[name]) for name in ('pushed', 'rewritten')] if traced else []
    for migration in migrations:
        jobs += [(migration.killed, at) for at in range(len(migration.calls))]
        jobs += [(migration.not_killed, call) for call, count in migration.counts.items() if count]
    with concurrent.futures.ThreadPoolExecutor(min(4, len(os.sched_getaffinity(0)))) as pool:
        for job, done in [(job, pool.submit(*job)) for job in jobs]:
            try:
                done.result()
            except Exception as error:  # a part that fails ends that part alone
                check('%s %s' % (job[0].__name__, job[1]), '%s: %s' % (type(error).__name__, error), 'its end')
    for migration in migrations:
        migration.end()
    print(passed, failed)

if __name__ == '__main__':
    if sys.argv[1] == 'make':
        make(sys.argv[2])
    else:
        PROGRAM, scratch = os.path.abspath(sys.argv[1]), tempfile.mkdtemp()
        try:
            main('traced' in sys.argv[2:])
        finally:
            shutil.rmtree(scratch, ignore_errors=True)

"""The pull server with the real node, for checks/pair, which says what is run. The arguments are the node and the server."""
import hashlib, os, shutil, signal, socket, struct, subprocess, sys, tempfile, threading, time, urllib.request

from protocol import free_port

program, server_program = sys.argv[1:3]
passed = failed = 0
scratch = tempfile.mkdtemp()
KILLS = int(os.environ.get('KILLS', '40'))
AGENT = '00000000-0000-0000-0000-000000000010'
HEADER = 'instance of OMI_ConfigurationDocument{Version="2.0.0";};'
LONGEST = 8_388_608  # the most bytes of a configuration

def check(name, got, wanted):
    global passed, failed
    if got == wanted:
        passed += 1
        return
    failed += 1
    print('FAILED', name, 'got', repr(got)[:600], 'wanted', repr(wanted)[:600], flush=True)

def digest(text):
    return hashlib.sha256(text.encode()).hexdigest().upper()

# ---- the server

def listens(port):
    with open('/proc/net/tcp') as lines:
        return any(line.split()[1].endswith(':%04X' % port) and line.split()[3] == '0A' for line in lines)

# The events of the server's store: its first bytes, then cells, each an open gate, a length and a body, then a closed gate.
def events(path):
    with open(path, 'rb') as file:
        store = file.read()
    found, at = [], 8
    while store[at:at + 1] == b'\xa5':
        size = int.from_bytes(store[at + 1:at + 5], 'big')
        found.append(store[at + 5:at + 5 + size])
        at += 5 + size
    return found

class Server:
    def __init__(self, connections=1000000):
        self.folder = tempfile.mkdtemp(dir=scratch)
        self.store, self.shelf = self.folder + '/store', self.folder + '/shelf'
        self.port = free_port()
        os.makedirs(self.shelf + '/configurations')
        os.makedirs(self.shelf + '/modules')
        self.put('keys', 'k0\n')
        self.start(connections)

    def put(self, name, text):
        with open(self.shelf + '/next', 'w', encoding='utf-8') as file:
            file.write(text)
        os.rename(self.shelf + '/next', os.path.join(self.shelf, name))

    def configure(self, name, text):
        self.put('configurations/%s.mof' % name, text)

    def start(self, connections=1000000):
        words = [server_program, '--store', self.store, '--shelf', self.shelf, '--listen', '127.0.0.1:%d' % self.port,
                 '--connections', str(connections)]
        self.process = subprocess.Popen(words, stdin=subprocess.DEVNULL, stdout=subprocess.PIPE, stderr=subprocess.PIPE)
        until = time.monotonic() + 60
        while self.process.poll() is None and not listens(self.port) and time.monotonic() < until:
            time.sleep(0.002)

    # Its lines and its status, once it has served as many connections as it was to.
    def end(self):
        try:
            out, errors = self.process.communicate(timeout=60)
        except subprocess.TimeoutExpired:
            self.process.kill()
            return 'no end'
        return out.decode(), errors.decode(), self.process.returncode

    # Kills it; its lines up to then.
    def kill(self):
        self.process.send_signal(signal.SIGKILL)
        return self.process.communicate()[0].decode().split('\n')

    def jobs(self):
        """The numbers of the reports that it keeps."""
        return [event[32] ^ 0x10 for event in events(self.store) if event[0] == 2]

    def numbers(self):
        """The numbers of its agents."""
        with urllib.request.urlopen(self.url() + '/Fleet', timeout=60) as answer:
            return answer.read().decode()

    def url(self):
        return 'http://127.0.0.1:%d/PSDSCPullServer.svc' % self.port

# ---- what stands between a node and its server: it counts and keeps the requests, and cuts an answer or gives another where it is set to,
# or the next one of its plan, in which None is the server's own

class Relay:
    def __init__(self, server):
        self.server, self.requests, self.cut, self.reset, self.instead, self.plan = server, [], None, False, None, []
        self.body = b''  # of the last query
        self.listener = socket.create_server(('127.0.0.1', 0))
        self.port = self.listener.getsockname()[1]
        threading.Thread(target=self.serve, daemon=True).start()

    def url(self):
        return 'http://127.0.0.1:%d/PSDSCPullServer.svc' % self.port

    def serve(self):
        while True:
            conn, _ = self.listener.accept()
            try:
                self.exchange(conn)
            except OSError:
                # a server that is gone: whether the request has come yet or not, the node is to see the same
                self.resets(conn)
            finally:
                conn.close()

    # Its end is to be a reset.
    def resets(self, conn):
        conn.setsockopt(socket.SOL_SOCKET, socket.SO_LINGER, struct.pack('ii', 1, 0))

    def exchange(self, conn):
        with socket.create_connection(('127.0.0.1', self.server.port), 60) as far:
            request, size = b'', None
            while size is None or len(request) < size:
                request += conn.recv(1 << 16)
                head, end, _ = request.partition(b'\r\n\r\n')
                if end:
                    lengths = [line.split(b':')[1] for line in head.lower().split(b'\r\n') if line.startswith(b'content-length:')]
                    size = len(head) + 4 + int(lengths[0] if lengths else 0)
            self.requests.append(request.split(b' HTTP/', 1)[0].decode())
            if self.requests[-1].endswith('/GetDscAction'):
                self.body = request.partition(b'\r\n\r\n')[2]
            far.sendall(request)
            answer = b''.join(iter(lambda: far.recv(1 << 16), b''))
        answer = (self.plan.pop(0) if self.plan else self.instead) or answer
        conn.sendall(answer if self.cut is None else answer[:self.cut])
        if self.reset:
            self.resets(conn)

    # The requests since the last call, their targets without the path of the service.
    def asked(self):
        got, self.requests = self.requests, []
        return [line.replace('/PSDSCPullServer.svc/', '').replace("Nodes(AgentId='%s')" % AGENT, 'NODE') for line in got]

# ---- the node

class Node:
    def __init__(self):
        self.folder = tempfile.mkdtemp(dir=scratch)
        self.store, self.host = self.folder + '/store', self.folder + '/host'
        os.mkdir(self.host)

    # With a limit it has no more addresses than that many KB.
    def start(self, *words, text='', output=subprocess.PIPE, limit=None):
        limited = ['sh', '-c', 'ulimit -v "$0" && exec "$@"', str(limit)] if limit else []
        return subprocess.Popen([*limited, program, self.store, self.host, *words], stdin=self.input(text), stdout=output, stderr=subprocess.PIPE)

    def input(self, text):
        with open(self.folder + '/input', 'w', encoding='utf-8') as file:
            file.write(text)
        return open(self.folder + '/input', 'rb')

    # What it printed, and its status.
    def does(self, *words, text='', limit=None):
        return self.ended(self.start(*words, text=text, limit=limit))

    @staticmethod
    def ended(process):
        try:
            out, errors = process.communicate(timeout=600)
        except subprocess.TimeoutExpired:
            process.kill()
            return 'no end', None
        return out.decode() + errors.decode(), process.returncode

    def variable(self, name, value=None):
        path = '%s/env/%s' % (self.host, name.lower().encode().hex().upper())
        if value is not None:
            with open(path, 'w', encoding='utf-8') as file:
                file.write(value)
        try:
            with open(path, encoding='utf-8') as file:
                return file.read()
        except OSError:
            return None

    def packages(self):
        folder = self.host + '/packages'
        return sorted(os.listdir(folder)) if os.path.isdir(folder) else []

def meta(url, key='k0', names=('Web',), settings='ConfigurationMode="ApplyAndAutoCorrect";', partials=(), reports=True):
    names = ','.join('"%s"' % name for name in names)
    text = 'instance of MSFT_DSCMetaConfiguration{RefreshMode="Pull";%s};' % settings
    text += 'instance of MSFT_WebDownloadManager{ServerURL="%s";RegistrationKey="%s";ConfigurationNames={%s};};' % (url, key, names)
    if reports:
        text += 'instance of MSFT_WebReportManager{ServerURL="%s";};' % url
    for name, depends, *mode in partials:
        depends = ','.join('"[PartialConfiguration]%s"' % it for it in depends)
        mode = ''.join('RefreshMode="%s";' % it for it in mode)
        text += 'instance of MSFT_PartialConfiguration{ResourceID="[PartialConfiguration]%s";%sDependsOn={%s};};' % (name, mode, depends)
    return text

# A node with an agent and this meta-configuration.
def new_node(text):
    node = Node()
    check('init', node.does('init', AGENT), ('ok\n', 0))
    check('meta', node.does('meta', text=text), ('ok\n', 0))
    return node

def variable(name, value, more=''):
    return 'instance of MSFT_EnvironmentResource{ResourceID="[Environment]%s";Name="%s";Value="%s";%s};' % (name, name, value, more)

def said_no(*names):
    return ''.join('test "[Environment]%s" no\nset "[Environment]%s" done\ntest "[Environment]%s" yes\n' % (it, it, it) for it in names)

def said_yes(*names):
    return ''.join('test "[Environment]%s" yes\n' % it for it in names)

def ends(count, end, job):
    return 'resources %d succeeded %d\ncompliant\nend %s\nreport %d sent\n' % (count, count, end, job)

# ---- two programs

def two_programs():
    server = Server(3)
    server.configure('Web', HEADER)
    node = new_node(meta(server.url(), reports=False))
    until = time.monotonic() + 60
    while True:
        got = node.does('register', 'a node')
        if got[1] == 0 or time.monotonic() > until:
            break
    check('a registration', got, ('ok\n', 0))
    check('a pull', node.does('pull'), ('resources 0 succeeded 0\ncompliant\nend promoted\n', 0))
    check('the server', server.end(), ('1 answer 204\n2 answer 200\n3 answer 200\n', '', 0))

# ---- the life of a node

def a_life():
    server = Server()
    relay = Relay(server)
    server.configure('Web', variable('A', '1') + variable('B', '2') + HEADER)
    node = new_node(meta(relay.url(), key='k1'))
    check('a pull of a node that is not registered', node.does('pull'), ('refused NotAllowed NotRegistered\n', 7))
    check('a wrong key', node.does('register', 'n'), ('refused PeerRefused Status 401\n', 6))
    check('a pull after it', node.does('pull'), ('refused NotAllowed NotRegistered\n', 7))
    check('the right key', node.does('meta', text=meta(relay.url())), ('ok\n', 0))
    check('a name in any script', node.does('register', 'zürich "ß" ☂'), ('ok\n', 0))
    relay.asked()
    fetch = "GET NODE/Configurations(ConfigurationName='Web')/ConfigurationContent"
    check('the first pull', node.does('pull'), (said_no('A', 'B') + ends(2, 'promoted', 1), 0))
    check('what it asked', relay.asked(), ['POST NODE/GetDscAction', fetch, 'POST NODE/SendReport'])
    check('the machine', (node.variable('A'), node.variable('B')), ('1', '2'))
    node.variable('A', 'drift')
    check('drift is put right', node.does('consistency'), (said_no('A') + said_yes('B') + ends(2, 'noted', 2), 0))
    check('what it sent', relay.asked(), ['POST NODE/SendReport'])
    check('what the server counts', server.numbers(), '{"Agents":1,"Compliant":1,"Failed":0,"Other":0,"Silent":0}')
    check('the machine again', node.variable('A'), '1')
    check('a pull of what is there', node.does('pull'), (said_yes('A', 'B') + ends(2, 'noted', 3), 0))
    check('nothing was fetched', relay.asked(), ['POST NODE/GetDscAction', 'POST NODE/SendReport'])
    server.configure('Web', variable('A', '3') + HEADER)
    check('a content that changed', node.does('pull'), (said_no('A') + ends(1, 'promoted', 4), 0))
    check('it was fetched', relay.asked(), ['POST NODE/GetDscAction', fetch, 'POST NODE/SendReport'])
    text = node.does('get')[0]
    check('Current and Previous', [line.split(' ')[0] for line in text.splitlines() if '"Web" ' in line], ['current', 'previous'])
    os.remove(server.shelf + '/configurations/Web.mof')
    check('a content that is gone', node.does('pull'), ('refused PeerRefused Retry "Web"\n', 6))
    server.configure('Web', 'instance of A { X = ')
    check('a content that is no text of the grammar', node.does('pull'), ('refused PeerRefused Document Part 0 Syntax 20\n', 6))
    check('the node after them', node.does('get')[0], text)
    lines = server.kill()
    reports = ''.join('report %d Success %d 0 sent\n' % (job, total) for job, total in ((1, 2), (2, 2), (3, 2), (4, 1)))
    check('the reports of the node', node.does('reports'), (reports, 0))
    check('the reports of the server', server.jobs(), [1, 2, 3, 4])
    check('its first lines', lines[:3], ['1 answer 401', '2 answer 204', '3 answer 200'])
    check('a server that is gone', node.does('pull'), ('refused LinkFault\n', 4))
    got = node.does('consistency')
    check('a report that is not sent', got, (said_yes('A') + 'resources 1 succeeded 1\ncompliant\nend noted\nreport 5 not sent\n', 0))
    server.start()
    got = node.does('consistency')
    check('it is sent later', got, (said_yes('A') + ends(1, 'noted', 5) + 'report 6 sent\n', 0))
    server.kill()
    check('all reports', server.jobs(), [1, 2, 3, 4, 5, 6])

def partials():
    server = Server()
    relay = Relay(server)
    server.configure('Base', variable('A', '1') + HEADER)
    server.configure('App', variable('B', '2', 'DependsOn="[Environment]A";') + HEADER)
    node = new_node(meta(relay.url(), names=(), partials=(('App', ('Base',)), ('Base', ()))))
    check('a registration of partials', node.does('register', 'n'), ('ok\n', 0))
    relay.asked()
    check('a pull of partials', node.does('pull'), (said_no('A', 'B') + ends(2, 'promoted', 1), 0))
    fetch = "GET NODE/Configurations(ConfigurationName='%s')/ConfigurationContent"
    check('both were fetched', relay.asked(), ['POST NODE/GetDscAction', fetch % 'Base', fetch % 'App', 'POST NODE/SendReport'])
    server.configure('App', variable('B', '3') + HEADER)
    check('one changes', node.does('pull'), (said_yes('A') + said_no('B') + ends(2, 'promoted', 2), 0))
    check('it alone was fetched', relay.asked(), ['POST NODE/GetDscAction', fetch % 'App', 'POST NODE/SendReport'])
    check('a push of a whole document', node.does('push', text=HEADER), ('refused NotAllowed PartsDeclared\n', 7))
    server.configure('App', variable('a', '3').replace('Name="a"', 'Name="Z"') + HEADER)
    check('two parts with one id', node.does('pull'), ('refused PeerRefused Document DuplicateId 0.0 1.0\n', 6))
    server.kill()

# ---- a part that is pulled beside one that is pushed

MODES, ORDERED_MODES = (('Base', ()), ('App', (), 'Push')), (('Base', ()), ('App', ('Base',), 'Push'))

# The parts of a slot, by their names and the digests of their texts.
def slot(node, name):
    words = [line.split(' ') for line in node.does('get')[0].splitlines() if line.startswith(name + ' ')][0][1:]
    return [] if words == ['-'] else list(zip((word.strip('"') for word in words[::2]), words[1::2]))

def parts(*texts):
    return [(name, digest(text)) for name, text in texts]

SERVICE = 'instance of MSFT_ServiceResource{ResourceID="[Service]S";};' + HEADER
MISSED = 'test "[Service]S" fault NoSuchResource\nresources 2 succeeded 1\nnot compliant 1\nend noted\n'

def two_modes():
    server = Server()
    relay = Relay(server)
    base, app = variable('A', '1') + HEADER, variable('B', '1') + HEADER
    server.configure('Base', base)
    node = new_node(meta(relay.url(), names=(), partials=MODES))
    check('a registration of two modes', node.does('register', 'n'), ('ok\n', 0))
    relay.asked()
    check('a push of a part', node.does('push', 'App', text=HEADER), (ends(0, 'promoted', 1), 0))
    check('it alone is there', slot(node, 'current'), parts(('App', HEADER)))
    check('a push asks for nothing', relay.asked(), ['POST NODE/SendReport'])
    check('a pull of the other part', node.does('pull'), (said_no('A') + ends(1, 'promoted', 2), 0))
    fetch = "GET NODE/Configurations(ConfigurationName='Base')/ConfigurationContent"
    check('it alone was fetched', relay.asked(), ['POST NODE/GetDscAction', fetch, 'POST NODE/SendReport'])
    check('it alone was asked about', (relay.body.count(b'"ConfigurationName"'), b'"Base"' in relay.body), (1, True))
    check('both are there', slot(node, 'current'), parts(('Base', base), ('App', HEADER)))
    check('a push of a part that is pulled', node.does('push', 'Base', text=app), ('refused NotAllowed PartNotPush\n', 7))
    check('a push of no part', node.does('push', 'X', text=app), ('refused NotAllowed NoPartial\n', 7))
    check('a push of a whole document', node.does('push', text=app), ('refused NotAllowed PartsDeclared\n', 7))
    check('a new content that is pushed', node.does('push', 'app', text=app), (said_yes('A') + said_no('B') + ends(2, 'promoted', 3), 0))
    for name in ('A', 'B'):
        node.variable(name, 'drift')
    check('drift of both is put right', node.does('consistency'), (said_no('A', 'B') + ends(2, 'noted', 4), 0))
    relay.asked()
    check('a pull of what is there', node.does('pull'), (said_yes('A', 'B') + ends(2, 'noted', 5), 0))
    check('nothing was fetched', relay.asked(), ['POST NODE/GetDscAction', 'POST NODE/SendReport'])
    before = node.does('get')
    for name, text, line in (('an id of the other part', variable('a', '2'), 'DuplicateId 0.0 1.0'), ('no document', 'x', 'Part 0 Syntax 0'),
                             ('an id that is not there', variable('B', '2', 'DependsOn="[Environment]C";'), 'DependsUnknown 1.0 "[Environment]C"')):
        check('a push of ' + name, node.does('push', 'App', text=text if text == 'x' else text + HEADER), ('refused %s\n' % line, 3))
    check('the node after them', (node.does('get'), relay.asked(), node.variable('A'), node.variable('B')), (before, [], '1', '1'))
    # a pulled content that the pushed part cannot stand beside
    server.configure('Base', variable('b', '1') + HEADER)
    check('a pull of an id of the other part', node.does('pull'), ('refused PeerRefused Document DuplicateId 0.0 1.0\n', 6))
    check('the node after it', (node.does('get'), node.variable('A'), node.variable('B')), (before, '1', '1'))
    base = variable('A', '2') + HEADER
    server.configure('Base', base)
    check('a new content that is pulled', node.does('pull'), (said_no('A') + said_yes('B') + ends(2, 'promoted', 6), 0))
    check('the pushed part stays', slot(node, 'current'), parts(('Base', base), ('App', app)))
    # one Pending: a part that fails holds the other back, and both go back together
    failing = SERVICE
    check('a part that fails', node.does('push', 'App', text=failing), (said_yes('A') + MISSED + 'report 7 sent\n', 1))
    newest = variable('A', '3') + HEADER
    server.configure('Base', newest)
    check('a pull over it', node.does('pull'), (said_no('A') + MISSED + 'report 8 sent\n', 1))
    check('both are Pending', (slot(node, 'pending'), slot(node, 'current')), (parts(('Base', newest), ('App', failing)), parts(('Base', base), ('App', app))))
    last = variable('B', '3') + HEADER
    check('a part that does not fail', node.does('push', 'App', text=last), (said_yes('A') + said_no('B') + ends(2, 'promoted', 9), 0))
    check('both are Current', (slot(node, 'pending'), slot(node, 'current')), ([], parts(('Base', newest), ('App', last))))
    check('both go back', node.does('restore'), (said_no('A', 'B') + ends(2, 'promoted', 10), 0))
    check('to what they were', (slot(node, 'current'), node.variable('A'), node.variable('B')), (parts(('Base', base), ('App', app)), '2', '1'))
    # each team goes on without the other
    server.kill()
    check('a pull without a server', node.does('pull'), ('refused LinkFault\n', 4))
    got = node.does('push', 'App', text=last)
    wanted = said_yes('A') + said_no('B') + 'resources 2 succeeded 2\ncompliant\nend promoted\nreport 11 not sent\n'
    check('a push without a server', got, (wanted, 0))
    check('the pulled part stays', slot(node, 'current'), parts(('Base', base), ('App', last)))

def ordered_modes():
    server = Server()
    relay = Relay(server)
    base, app = variable('A', '1') + HEADER, variable('B', '1', 'DependsOn="[Environment]A";') + HEADER
    server.configure('Base', base)
    node = new_node(meta(relay.url(), names=(), partials=ORDERED_MODES, reports=False))
    check('a registration of modes in an order', node.does('register', 'n'), ('ok\n', 0))
    check('a push before the part that it depends on', node.does('push', 'App', text=HEADER), ('refused Fit MissingPart 0\n', 3))
    check('nothing of it was kept', 'pending -\ncurrent -\n' in node.does('get')[0], True)
    check('the pull of that part', node.does('pull'), (said_no('A') + 'resources 1 succeeded 1\ncompliant\nend promoted\n', 0))
    check('the push after it', node.does('push', 'App', text=app), (said_yes('A') + said_no('B') + 'resources 2 succeeded 2\ncompliant\nend promoted\n', 0))
    server.configure('Base', HEADER)
    check('a pull without what the other part needs', node.does('pull'), ('refused PeerRefused Document DependsUnknown 1.0 "[Environment]A"\n', 6))
    check('both stay', slot(node, 'current'), parts(('Base', base), ('App', app)))
    # the other way round: a part that is pulled depends on one that is pushed
    node = new_node(meta(relay.url(), names=(), partials=(('Base', ('App',)), ('App', (), 'Push')), reports=False))
    check('a registration in the other order', node.does('register', 'n'), ('ok\n', 0))
    check('a pull before a push', node.does('pull'), ('refused PeerRefused Fit MissingPart 1\n', 6))
    check('a push before the pull', node.does('push', 'App', text=HEADER)[1], 0)
    check('the pull after it', node.does('pull')[1], 0)
    check('the pushed part is the first', slot(node, 'current'), parts(('App', HEADER), ('Base', HEADER)))
    server.kill()

# A part that is held is found under its name in any case, and keeps its own spelling.
def a_name_in_another_case():
    server = Server()
    relay = Relay(server)
    server.configure('Base', variable('A', '1') + HEADER)
    server.configure('BASE', variable('A', '1') + HEADER)
    node = new_node(meta(relay.url(), names=(), partials=(('Base', ()),)))
    check('a registration of a partial', node.does('register', 'n'), ('ok\n', 0))
    check('its pull', node.does('pull'), (said_no('A') + ends(1, 'promoted', 1), 0))
    check('its name in capitals', node.does('meta', text=meta(relay.url(), names=(), partials=(('BASE', ()),))), ('ok\n', 0))
    check('a registration under it', node.does('register', 'n'), ('ok\n', 0))
    relay.asked()
    check('a pull under it', node.does('pull'), (said_yes('A') + ends(1, 'noted', 2), 0))
    check('nothing was fetched under it', relay.asked(), ['POST NODE/GetDscAction', 'POST NODE/SendReport'])
    check('the spelling that is kept', [line for line in node.does('get')[0].splitlines() if '"Base" ' in line][:1] != [], True)
    server.kill()

# The body of an answer to a query is read up to 131,072 bytes, and a longer one costs no more memory than its bytes.
def a_flood():
    server = Server()
    relay = Relay(server)
    server.configure('Web', variable('A', '1') + HEADER)
    node = new_node(meta(relay.url(), reports=False))
    check('a registration before a flood', node.does('register', 'n'), ('ok\n', 0))

    def pull_of(body):
        relay.instead = b'HTTP/1.1 200 OK\r\nProtocolVersion: 2.0\r\nContent-Type: application/json\r\nContent-Length: %d\r\n\r\n' % len(body) + body
        process = node.start('pull')
        out = process.stdout.read().decode()
        _, status, usage = os.wait4(process.pid, 0)
        process.returncode = os.waitstatus_to_exitcode(status)
        return out, process.returncode, usage.ru_maxrss

    def answer_of(size):
        front, end = b'{"NodeStatus":"RETRY","Details":[],"more":[', b'1]}'
        return front + b'1,' * ((size - len(front) - len(end)) // 2) + b' ' * ((size - len(front) - len(end)) % 2) + end

    check('an answer of 131,072 bytes', pull_of(answer_of(131_072))[:2], ('refused PeerRefused Retry "Web"\n', 6))
    check('an answer of 131,073 bytes', pull_of(answer_of(131_073))[:2], ('refused PeerRefused TooLong\n', 6))
    out, status, most = pull_of(answer_of(20_000_000))
    check('an answer of 20 MB', (out, status), ('refused PeerRefused TooLong\n', 6))
    check('its memory in KB: %d' % most, most < 120_000, True)
    relay.instead = None
    check('a pull after a flood', node.does('pull')[1], 0)
    server.kill()

def packages():
    server = Server()
    relay = Relay(server)
    package = ''.join(chr(33 + at % 90) for at in range(100000))
    server.put('modules/xWeb_1.0.zip', package)
    named = 'ModuleName="xWeb";ModuleVersion="%s";'
    server.configure('Web', variable('A', '1', named % '1.0') + variable('B', '1', named % '1.0') + HEADER)
    node = new_node(meta(relay.url(), reports=False))
    check('a registration', node.does('register', 'n'), ('ok\n', 0))
    relay.asked()
    done = 'resources 2 succeeded 2\ncompliant\nend %s\n'
    fetch = "GET NODE/Configurations(ConfigurationName='Web')/ConfigurationContent"
    module = "GET Modules(ModuleName='xWeb',ModuleVersion='%s')/ModuleContent"
    check('a pull with a package', node.does('pull'), (said_no('A', 'B') + done % 'promoted', 0))
    check('it was fetched once', relay.asked(), ['POST NODE/GetDscAction', fetch, module % '1.0'])
    kept = node.packages()
    check('one package is kept', len(kept), 1)
    with open('%s/packages/%s' % (node.host, kept[0]), encoding='utf-8') as file:
        check('as it was sent', file.read() == package, True)
    server.configure('Web', variable('A', '2', named % '1.0') + HEADER)
    check('a pull with the same package', node.does('pull')[1], 0)
    check('it was not fetched again', relay.asked(), ['POST NODE/GetDscAction', fetch])
    server.configure('Web', variable('A', '3', named % '1.1') + HEADER)
    check('a package that is not there', node.does('pull'), ('refused PeerRefused Status 404\n', 6))
    check('nothing was applied', (node.variable('A'), node.packages()), ('2', kept))
    relay.asked()
    server.put('modules/xWeb_1.1.zip', 'next')
    check('once it is there', node.does('pull')[1], 0)
    check('it was fetched', relay.asked(), ['POST NODE/GetDscAction', fetch, module % '1.1'])
    check('both are kept', len(node.packages()), 2)
    server.put('modules/xWeb_2.0.zip', 'x' * 62_914_560)
    server.configure('Web', variable('A', '4', named % '2.0') + HEADER)
    check('the longest package, where two have no room', (node.does('pull', limit=120_000)[1], len(node.packages())), (0, 3))
    server.kill()

# ---- sizes: whatever they are, no pull is short of memory

def of_count(count):
    return ''.join(variable('V%d' % it, '%d of %d' % (it, count)) for it in range(count)) + HEADER

def sizes():
    server = Server()
    name = 'ä' * 125 + 'x'  # with .mof, the longest name of a file
    server.configure(name, HEADER)
    node = new_node(meta(server.url(), names=(name,), reports=False))
    check('a registration under the longest name', node.does('register', 'n' * 255), ('ok\n', 0))
    for count in (0, 1, 2, 3, 7, 12, 40, 300, 4096):
        server.configure(name, of_count(count))
        out, status = node.does('pull')
        check('%d resources' % count, (status, out.splitlines()[-3:]), (0, ['resources %d succeeded %d' % (count, count), 'compliant', 'end promoted']))
    filling = HEADER + '//'
    server.configure(name, filling + 'x' * (LONGEST - len(filling)))
    check('the longest content', node.does('pull'), ('resources 0 succeeded 0\ncompliant\nend promoted\n', 0))
    server.configure(name, filling + 'x' * (LONGEST + 1 - len(filling)))
    check('a byte more', node.does('pull'), ('refused PeerRefused TooLong\n', 6))
    modules = ['m%d' % it * 50 for it in range(40)]
    for it in modules:
        server.put('modules/%s_1.zip' % it, it)
    named = ''.join(variable('W%d' % at, it, 'ModuleName="%s";ModuleVersion="1";' % it) for at, it in enumerate(modules))
    server.configure(name, named + HEADER)
    check('forty packages', (node.does('pull')[1], len(node.packages())), (0, 40))
    server.put('modules/empty_1.zip', '')
    server.configure(name, variable('W', '1', 'ModuleName="empty";ModuleVersion="1";') + HEADER)
    check('an empty package', (node.does('pull')[1], len(node.packages())), (0, 41))
    for count in range(1, 9):
        names = ['p%d' % it for it in range(count)]
        for it in names:
            server.configure(it, variable(it, str(count)) + HEADER)
        parts = new_node(meta(server.url(), names=(), partials=[(it, names[:at]) for at, it in enumerate(names)], reports=False))
        check('a registration of %d partials' % count, parts.does('register', 'n'), ('ok\n', 0))
        check('%d partials' % count, parts.does('pull'), (said_no(*names) + 'resources %d succeeded %d\ncompliant\nend promoted\n' % (count, count), 0))
    server.kill()

# ---- answers that are cut

def cut_answers():
    server = Server()
    relay = Relay(server)
    server.configure('Web', variable('A', '1') + HEADER)
    node = new_node(meta(relay.url()))
    relay.cut = 30
    check('a registration whose answer is cut', node.does('register', 'n'), ('refused PeerRefused Frame Torn 30\n', 6))
    check('it is not kept', 'registered no\n' in node.does('get')[0], True)
    relay.cut = None
    check('the registration again', node.does('register', 'n'), ('ok\n', 0))
    before = node.does('get')
    for cut in (0, 1, 17, 60, 150):
        relay.cut = cut
        check('an answer of %d bytes' % cut, node.does('pull'), ('refused PeerRefused Frame Torn %d\n' % cut, 6))
    relay.reset = True
    check('a connection that is reset', node.does('pull'), ('refused LinkFault\n', 4))
    check('the node after them', node.does('get'), before)
    relay.cut, relay.reset = None, False
    check('a whole pull', node.does('pull'), (said_no('A') + ends(1, 'promoted', 1), 0))
    relay.cut = 10
    got = node.does('consistency')
    check('a report whose answer is cut', got, (said_yes('A') + 'resources 1 succeeded 1\ncompliant\nend noted\nreport 2 not sent\n', 0))
    relay.cut = None
    check('it is sent again', node.does('consistency'), (said_yes('A') + ends(1, 'noted', 2) + 'report 3 sent\n', 0))
    server.kill()
    check('the server has it twice', server.jobs(), [1, 2, 2, 3])
    server = Server()
    https = new_node(meta(server.url().replace('http://', 'https://')))
    check('a server of https', https.does('register', 'n'), ('refused PeerRefused NotServed\n', 6))
    check('it was not reached', [line for line in server.kill() if line], [])

# ---- the lines of what is refused, or fails

def ok(body, *headers):
    return '\r\n'.join(['HTTP/1.1 200 OK', *headers, 'Content-Length: %d' % len(body), '', body]).encode()

GET_WEB = '{"NodeStatus":"GetConfiguration","Details":[{"ConfigurationName":"Web","Status":"GetConfiguration"}]}'

def refused_answers():
    server = Server()
    relay = Relay(server)
    server.configure('Web', variable('A', '1') + HEADER)
    node = new_node(meta(relay.url(), reports=False))
    check('a registration before refused answers', node.does('register', 'n'), ('ok\n', 0))
    before = node.does('get')
    sums = digest('other'), digest(HEADER)
    for name, plan, line in (
            ('another content than its checksum', [None, ok(HEADER, 'Checksum: ' + sums[0], 'ChecksumAlgorithm: SHA-256')], 'PeerRefused Mismatch %s %s' % sums),
            ('a code of 999', [b'HTTP/1.1 999 X\r\nContent-Length: 0\r\n\r\n'], 'PeerRefused Status 999'),
            ('a code of 99 in three digits', [b'HTTP/1.1 099 X\r\nContent-Length: 0\r\n\r\n'], 'PeerRefused Status 99'),
            ('a code of two digits', [b'HTTP/1.1 99 X\r\nContent-Length: 0\r\n\r\n'], 'PeerRefused Frame Head'),
            ('a code of four digits', [b'HTTP/1.1 1000 X\r\nContent-Length: 0\r\n\r\n'], 'PeerRefused Frame Head'),
            ('a code of 100 alone', [b'HTTP/1.1 100 Continue\r\n\r\n'], 'PeerRefused Frame Torn 25'),
            ('a code of 304', [b'HTTP/1.1 304 Not Modified\r\n\r\n'], 'PeerRefused Status 304'),
            ('statuses that are no object', [ok('[]')], 'PeerRefused Message Wrong Body'),
            ('a content without its checksum', [None, ok(HEADER)], 'PeerRefused NoChecksum'),
            ('an answer of 67,108,864 bytes', [bytes(67_108_864)], 'PeerRefused TooLong')):
        relay.plan = plan
        check(name, node.does('pull'), ('refused %s\n' % line, 6))
    # the end of an answer without a length is that of the connection, and a reset is no end
    relay.reset = True
    for name, sent in (('an answer without a length', b'HTTP/1.1 200 OK\r\n\r\n' + GET_WEB.encode()), ('a whole answer', ok(GET_WEB)), ('nothing', b'')):
        relay.plan = [sent]
        relay.cut = 0 if not sent else None
        check('a reset after ' + name, node.does('pull'), ('refused LinkFault\n', 4))
    relay.plan, relay.cut, relay.reset = [], None, False
    check('the node after refused answers', node.does('get'), before)
    relay.plan = [b'HTTP/1.1 100 Continue\r\n\r\nHTTP/1.1 200 OK\r\n\r\n' + GET_WEB.encode()]
    check('an answer without a length after one of 100', node.does('pull')[1], 0)
    server.kill()

def refused_lists():
    server = Server()
    server.configure('Base', HEADER)
    server.configure('App', 'instance of MSFT_FileDirectoryConfiguration{ResourceID="[File]F";DestinationPath="/f";};' + HEADER)
    text = meta(server.url(), names=(), partials=(('Base', ()), ('App', ())), reports=False).replace('Base";DependsOn', 'Base";ExclusiveResources={"File"};DependsOn')
    node = new_node(text)
    check('a registration of an exclusive type', node.does('register', 'n'), ('ok\n', 0))
    check('a type that another part has for itself', node.does('pull'), ('refused PeerRefused Fit ExclusiveTaken 1 0\n', 6))
    check('nothing of it was kept', 'pending -\ncurrent -\n' in node.does('get')[0], True)
    server.kill()

def a_second_package():
    server = Server()
    relay = Relay(server)
    named = 'ModuleName="%s";ModuleVersion="1.0";'
    server.put('modules/first_1.0.zip', 'first')
    server.configure('Web', variable('A', '1', named % 'first') + variable('B', '1', named % 'second') + HEADER)
    node = new_node(meta(relay.url(), reports=False))
    check('a registration before two packages', node.does('register', 'n'), ('ok\n', 0))
    before = node.does('get')
    with open(node.host + '/packages', 'w', encoding='utf-8') as file:
        file.write('a file')
    check('a file in the place of the packages', node.does('pull'), ('refused HostFault\n', 4))
    check('the node after it', (node.does('get'), node.variable('A')), (before, None))
    os.remove(node.host + '/packages')
    server.configure('Web', variable('A', '1', named % 'fi\\nrst') + HEADER)
    check('a module whose name has a line feed', node.does('pull'), ('refused HostFault\n', 4))
    check('the node after that', (node.does('get'), node.variable('A')), (before, None))
    server.configure('Web', variable('A', '1', named % 'first') + variable('B', '1', named % 'second') + HEADER)
    check('a second package that is not there', node.does('pull'), ('refused PeerRefused Status 404\n', 6))
    check('the first one stays, and nothing was applied', (len(node.packages()), node.does('get'), node.variable('A')), (1, before, None))
    server.put('modules/second_1.0.zip', 'second')
    relay.asked()
    check('once the second is there', node.does('pull'), (said_no('A', 'B') + 'resources 2 succeeded 2\ncompliant\nend promoted\n', 0))
    fetch = "GET Modules(ModuleName='second',ModuleVersion='1.0')/ModuleContent"
    check('it alone was fetched', [line for line in relay.asked() if 'Modules' in line], [fetch])
    server.kill()

FILE_LIMIT = 1 << 20  # far above what a file of these nodes has

# Starts the node with an output that takes so many bytes, as many as a file up to the limit has left: what it took, its errors and its status.
def does_into(node, free, *words, text=''):
    path = node.folder + '/output'
    limited = ['sh', '-c', 'trap "" XFSZ && ulimit -f "$0" && exec "$@"', str(FILE_LIMIT // 512)]
    with open(path, 'wb') as output:
        output.truncate(FILE_LIMIT - free)
        output.seek(0, os.SEEK_END)
        process = subprocess.Popen([*limited, program, node.store, node.host, *words], stdin=node.input(text), stdout=output, stderr=subprocess.PIPE)
        errors = process.communicate()[1]
    with open(path, 'rb') as output:
        output.seek(FILE_LIMIT - free)
        return output.read().decode(), errors, process.returncode

# An output that takes a part of the lines, or all of them: what was done stays, and a command ends for a line that is not taken, and for
# nothing else.
def full_outputs():
    server = Server()
    pushed, pulled = variable('A', '1') + HEADER, variable('A', '2') + HEADER
    server.configure('Web', pulled)
    starts = (('push', pushed, 'promoted', '1', pushed), ('consistency', '', 'noted', '1', pushed), ('pull', '', 'promoted', '2', pulled))
    free_of = (lambda size: 0, lambda size: 1, lambda size: size // 2, lambda size: size - 1, lambda size: size)
    for free in free_of:
        node = new_node(meta(server.url()))
        check('a registration before full outputs', node.does('register', 'n'), ('ok\n', 0))
        for job, (words, text, end, value, document) in enumerate(starts, 1):
            if words == 'consistency':
                node.variable('A', 'drift')
            lines = said_no('A') + ends(1, end, job)
            taken = lines[:free(len(lines))]
            name = 'a %s whose output takes %d bytes of %d' % (words, len(taken), len(lines))
            check(name, does_into(node, len(taken), words, text=text), (taken, b'', 0 if taken == lines else 4))
            check('%s: what it made' % name, (node.variable('A'), current(node)), (value, [digest(document)]))
        check('the reports of full outputs', node.does('reports')[0].count(' sent\n'), len(starts))
    check('the reports of full outputs at the server', server.jobs(), [1, 2, 3] * len(free_of))
    server.kill()

CLOCK = """
#include <time.h>
int clock_gettime(clockid_t clock, struct timespec *time) { time->tv_sec = SECONDS; time->tv_nsec = 0; return 0; }
"""

LAST_MOMENT = 253402207200  # 22:00 of the last day but one of the year 9999

# Clocks before 1970 and after the last moment, which a library before that of the system gives.
def clocks():
    compiler = shutil.which('cc') or shutil.which('gcc') or shutil.which('clang')
    if not compiler:
        print('skipped: clocks, since there is no C compiler', flush=True)
        return
    fault, right = ('refused ClockFault', 4), ('end promoted', 0)
    for seconds, wanted in ((-1, fault), (0, right), (LAST_MOMENT, right), (LAST_MOMENT + 1, fault)):
        node = Node()
        check('init before clocks', node.does('init', AGENT), ('ok\n', 0))
        library = node.folder + '/clock.so'
        subprocess.run([compiler, '-shared', '-fPIC', '-DSECONDS=%dL' % seconds, '-x', 'c', '-', '-o', library], input=CLOCK.encode(), check=True)
        words = [program, node.store, node.host, 'push']
        process = subprocess.Popen(words, stdin=node.input(variable('A', '1') + HEADER), stdout=subprocess.PIPE, stderr=subprocess.PIPE,
                                   env={**os.environ, 'LD_PRELOAD': library})
        out, status = node.ended(process)
        check('a clock of %d seconds' % seconds, (out.splitlines()[-1:], status), ([wanted[0]], wanted[1]))
        check('the start after a clock of %d seconds' % seconds, node.does('consistency')[1], 0)

# ---- servers that are silent, slow or away, each of which a node waits for side by side

def silent(conn, _):
    time.sleep(100)

def dripping(conn, ended):
    while not ended.wait(1):
        conn.sendall(b'H')

def refusing(conn, _):
    conn.setsockopt(socket.SOL_SOCKET, socket.SO_LINGER, struct.pack('ii', 1, 0))

# A whole answer after which the connection stays open is no answer.
def never_ending(conn, _):
    conn.recv(1 << 16)
    conn.sendall(b'HTTP/1.1 204 No Content\r\n\r\n')
    time.sleep(100)

def waits(name, peer, least, most, results):
    listener = socket.create_server(('127.0.0.1', 0), backlog=0 if peer is None else 5)
    ended, waiting = threading.Event(), []
    def serve():
        conn, _ = listener.accept()
        try:
            with conn:
                peer(conn, ended)
        except OSError:
            pass
    if peer:
        threading.Thread(target=serve, daemon=True).start()
    else:
        for _ in range(4):  # its queue is full, so it takes no further one
            waiting.append(socket.socket())
            waiting[-1].setblocking(False)
            waiting[-1].connect_ex(listener.getsockname())
    node = Node()
    node.does('init', AGENT)
    node.does('meta', text=meta('http://127.0.0.1:%d/PSDSCPullServer.svc' % listener.getsockname()[1]))
    begun = time.monotonic()
    got = node.does('register', 'n')
    took = time.monotonic() - begun
    ended.set()
    results.append((name, got, ('refused LinkFault\n', 4)))
    results.append(('%s, after %.1f s' % (name, took), least <= took <= most, True))
    results.append((name + ', the node', 'registered no\n' in node.does('get')[0], True))

SILENT = (('a silent server', silent, 29, 45), ('a server that sends a byte a second', dripping, 29, 45), ('a server that never ends', never_ending, 29, 45),
          ('a server that takes no connection', None, 9, 20), ('a server that resets', refusing, 0, 10))
SILENT_RESULTS = []
SILENT_THREADS = [threading.Thread(target=waits, args=(*it, SILENT_RESULTS)) for it in SILENT]

# They are waited for beside all other parts.
def silent_servers():
    for thread in SILENT_THREADS:
        thread.join()
    check('the servers that were waited for', len(SILENT_RESULTS), 3 * len(SILENT))
    for result in SILENT_RESULTS:
        check(*result)

# ---- lists of up to 16 MiB, that many that the store is written anew, into either of its banks

def long_lists():
    server = Server()
    for count, size, rounds in ((3, LONGEST // 4, 12), (8, LONGEST // 4, 6), (2, LONGEST, 5)):
        names = ['p%d' % it for it in range(count)]
        node = new_node(meta(server.url(), names=(), partials=[(it, ()) for it in names], reports=False))
        check('a registration of %d long partials' % count, node.does('register', 'n'), ('ok\n', 0))
        banks = []
        for number in range(rounds):
            for it in names:
                text = variable(it, str(number)) + HEADER + '//'
                server.configure(it, text + 'x' * (size - len(text)))
            got = node.does('pull')
            check('%d long partials, round %d' % (count, number), got, (said_no(*names) + 'resources %d succeeded %d\ncompliant\nend promoted\n' % (count, count), 0))
            with open(node.store, 'rb') as file:
                banks.append(file.read(8)[7:])
        check('%d long partials, the banks' % count, sorted(set(banks)), [b'1', b'2'])
        check('%d long partials, a drift' % count, (node.variable('p0', 'x'), node.does('consistency')[1], node.variable('p0')), ('x', 0, str(rounds - 1)))
        check('%d long partials, restored' % count, (node.does('restore')[1], node.variable('p0')), (0, str(rounds - 2)))
    names = ['p0', 'p1', 'p2']
    node = new_node(meta(server.url(), names=(), partials=[(it, ()) for it in names], reports=False))
    check('a registration of three partials', node.does('register', 'n'), ('ok\n', 0))
    server.configure('p2', HEADER)
    whole = 2 * LONGEST + len(HEADER)
    check('a list above 16 MiB', (node.does('pull'), node.variable('p0')), (('refused PeerRefused ListTooLong %d\n' % whole, 6), None))
    server.configure('p1', HEADER)
    check('a part made shorter', (node.does('pull')[1], node.variable('p0')), (0, '4'))
    server.kill()

# ---- kills

FILES = 120

def files(prefix):
    text = ''
    for k in range(FILES):
        text += 'instance of MSFT_FileDirectoryConfiguration{ResourceID="[File]F%d";DestinationPath="/srv/d%d/f%d.conf";Contents="%s %d";};\n' % (k, k % 10, k, prefix, k)
    return text + HEADER

def files_are(node, prefix):
    for k in range(FILES):
        try:
            with open('%s/root/srv/d%d/f%d.conf' % (node.host, k % 10, k), encoding='utf-8') as file:
                if file.read() != '%s %d' % (prefix, k):
                    return 'file %d' % k
        except OSError as error:
            return str(error)
    return 'right'

def current(node):
    return [line.split(' ')[-1] for line in node.does('get')[0].splitlines() if line.startswith('current')]

# A third of the kills come in the first moments, while the server is asked and the document is stored; the others once a share of the
# files is there, so that the work on this machine beside the check does not move them.
def wait_for_kill(number, process, node, prefix):
    early = KILLS // 3
    if number < early:
        time.sleep(0.001 * number)
        return
    k = (FILES - 1) * (number - early) // max(1, KILLS - early)
    path = '%s/root/srv/d%d/f%d.conf' % (node.host, k % 10, k)
    while process.poll() is None:
        try:
            with open(path, encoding='utf-8') as file:
                if file.read().startswith(prefix + ' '):
                    return
        except OSError:
            pass

def killed_nodes():
    server = Server()
    server.configure('Web', files('begin'))
    node = new_node(meta(server.url(), settings='ConfigurationMode="ApplyAndMonitor";', reports=False))
    check('a registration', node.does('register', 'n'), ('ok\n', 0))
    check('a pull of %d files' % FILES, (node.does('pull')[1], files_are(node, 'begin')), (0, 'right'))
    reached = 0
    for number in range(KILLS):
        prefix = 'text%d' % number
        text = files(prefix)
        server.configure('Web', text)
        process = node.start('pull')
        wait_for_kill(number, process, node, prefix)
        process.kill()
        process.communicate()
        reached += process.returncode == -signal.SIGKILL
        got = node.does('pull')
        check('the pull after kill %d' % number, (got[1], got[0].splitlines()[-1:] in (['end promoted'], ['end noted'])), (0, True))
        check('its files', files_are(node, prefix), 'right')
        check('its Current', current(node), [digest(text)])
    check('%d of %d pulls were killed' % (reached, KILLS), reached >= KILLS * 2 // 3, True)
    server.kill()

# A push of one part that is killed beside one that was pulled: the list of before or the new one, whole, and the next start goes on.
def killed_pushes():
    server = Server()
    base = variable('A', '1') + HEADER
    server.configure('Base', base)
    node = new_node(meta(server.url(), names=(), settings='ConfigurationMode="ApplyAndMonitor";', partials=ORDERED_MODES, reports=False))
    check('a registration', node.does('register', 'n'), ('ok\n', 0))
    check('a pull of a variable', node.does('pull')[1], 0)
    text = files('begin')
    check('a push of %d files' % FILES, (node.does('push', 'App', text=text)[1], files_are(node, 'begin')), (0, 'right'))
    reached, count = 0, KILLS // 2
    for number in range(count):
        old, prefix = parts(('Base', base), ('App', text)), 'text%d' % number
        text = files(prefix)
        new = parts(('Base', base), ('App', text))
        process = node.start('push', 'App', text=text)
        wait_for_kill(2 * number, process, node, prefix)
        process.kill()
        process.communicate()
        reached += process.returncode == -signal.SIGKILL
        found = slot(node, 'pending'), slot(node, 'current')
        check('the lists after kill %d of a push' % number, found in (([], old), (new, old), ([], new)), True)
        got = node.does('consistency')
        check('the start after kill %d of a push' % number, (got[1], got[0].splitlines()[-1:] in (['end promoted'], ['end noted'])), (0, True))
        if found == ([], old):
            check('the push after kill %d' % number, node.does('push', 'App', text=text)[1], 0)
        check('the files of the push', (files_are(node, prefix), node.variable('A')), ('right', '1'))
        check('its Current', (slot(node, 'pending'), slot(node, 'current')), ([], new))
    check('%d of %d pushes were killed' % (reached, count), reached >= count * 2 // 3, True)
    server.kill()

# Kills the server some time after the process began, and starts it again.
def killed_after(server, wait):
    time.sleep(wait)
    server.kill()
    server.start()

def killed_registrations():
    server = Server()
    server.configure('Web', HEADER)
    node = new_node(meta(server.url(), reports=False))
    begun = time.monotonic()
    check('a registration', node.does('register', 'n'), ('ok\n', 0))
    took = time.monotonic() - begun
    refused = 0
    for number in range(KILLS):
        server.kill()
        os.remove(server.store)
        server.start()
        node = new_node(meta(server.url(), reports=False))
        process = node.start('register', 'n')
        killed_after(server, 1.2 * took * number / KILLS)
        got = node.ended(process)
        refused += got[1] != 0
        check('register over kill %d' % number, got == ('ok\n', 0) or got[1] in (4, 6), True)
        if got[1] != 0:
            check('the registration after kill %d' % number, node.does('register', 'n'), ('ok\n', 0))
        check('the pull after kill %d' % number, node.does('pull'), ('resources 0 succeeded 0\ncompliant\nend promoted\n', 0))
    check('%d of %d registrations were cut short, and not all' % (refused, KILLS), 0 < refused < KILLS, True)
    server.kill()

def killed_reports():
    server = Server()
    server.configure('Web', variable('A', '1') + HEADER)
    node = new_node(meta(server.url()))
    check('a registration', node.does('register', 'n'), ('ok\n', 0))
    begun = time.monotonic()
    check('a pull', node.does('pull'), (said_no('A') + ends(1, 'promoted', 1), 0))
    took = time.monotonic() - begun
    unsent, jobs = 0, 1
    for number in range(KILLS):
        # a node keeps its newest 16 reports, so those that wait are sent before that many are there, however slow the machine is
        if number % 8 == 7:
            check('a start between kills', node.does('consistency')[0].splitlines()[-1:], ['report %d sent' % (jobs + 1)])
            jobs += 1
        process = node.start('consistency')
        killed_after(server, took * number / KILLS)
        out, status = node.ended(process)
        jobs += 1
        told = [line for line in out.splitlines() if line.startswith('report ')]
        unsent += told[-1:] != ['report %d sent' % jobs]
        check('consistency over kill %d' % number, (status, bool(told)), (0, True))
        acknowledged = {int(line.split(' ')[1]) for line in told if line.endswith(' sent') and not line.endswith('not sent')}
        check('after kill %d: what was sent is kept' % number, acknowledged - set(server.jobs()), set())
    out, status = node.does('consistency')
    jobs += 1
    check('the next start sends the rest', (status, out.splitlines()[-1]), (0, 'report %d sent' % jobs))
    check('every report is there', sorted(set(server.jobs())), list(range(1, jobs + 1)))
    check('all reports of the node are sent', 'unsent' in node.does('reports')[0], False)
    check('%d of %d reports were not sent at once, and not all' % (unsent, KILLS), 0 < unsent < KILLS, True)
    server.kill()

for thread in SILENT_THREADS:
    thread.start()
PARTS = (two_programs, a_life, partials, two_modes, ordered_modes, a_name_in_another_case, a_flood, packages, sizes, cut_answers, refused_answers,
         refused_lists, a_second_package, full_outputs, clocks, long_lists, killed_nodes, killed_pushes, killed_registrations, killed_reports, silent_servers)
for part in PARTS:
    begun = time.monotonic()
    try:
        part()
    except Exception as error:
        check(part.__name__, '%s: %s' % (type(error).__name__, error), 'its end')
    if os.environ.get('TIMES'):
        print(part.__name__, '%.1f s' % (time.monotonic() - begun), flush=True)
shutil.rmtree(scratch, ignore_errors=True)
print('%d passed, %d failed' % (passed, failed))
sys.exit(1 if failed or not passed else 0)

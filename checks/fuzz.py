"""Changed inputs for the real programs, for checks/fuzz, which says what is run. The arguments are the node, the server, seconds and a seed."""
import collections, json, multiprocessing, os, random, re, select, shutil, socket, subprocess, sys, tempfile, threading, time

from fuzz_forks import Program
from fuzz_inputs import BANK, BEGIN, BYTES, HEADER, TEXTS, changed, documents, in_full, made, metas, scripts, store_of, text_of
from protocol import (PHRASES, answer, content, fetch, free_port, in_chunks, module, node, query, register, registration, report, request, statuses)

AGENT = '00000000-0000-0000-0000-000000000010'
BATCH = 200  # requests that are sent side by side, beside OTHERS inputs of each other kind; a server takes 256 connections
OTHERS = 10
CONNECTIONS = 100 * BATCH  # of one server
REFUSED = re.compile(rb'refused [A-Z][A-Za-z]*( [^\n]*)?\n')
REFUSED_PULL = {4: re.compile(rb'refused HostFault\n'), 6: re.compile(rb'refused PeerRefused [^\n]*\n')}
START = {0, 1, 7, 9, 10, 11}
STAYING = {'check', 'order', 'test', 'canon', 'compile', 'rehearse', 'init', 'meta', 'get', 'reports', 'register', 'remove'}  # the commands that leave the host
MANAGER = ('instance of MSFT_DSCMetaConfiguration{RefreshMode="Pull";ConfigurationMode="ApplyAndAutoCorrect";};'
           'instance of MSFT_WebDownloadManager{ServerURL="%s";RegistrationKey="k0";%s};instance of MSFT_WebReportManager{ServerURL="%s";};')
PARTS = ''.join('instance of MSFT_PartialConfiguration{ResourceID="[PartialConfiguration]%s";};' % name for name in ('A', 'B'))

class Wrong(Exception):
    """What an input brought that it may not; the files are kept beside it."""
    def __init__(self, why, **files):
        super().__init__(why)
        self.files = files

def demand(holds, why, **files):
    if not holds:
        raise Wrong(why, **files)

def bytes_of(path):
    try:
        with open(path, 'rb') as file:
            return file.read()
    except FileNotFoundError:
        return None

def write(path, data):
    with open(path, 'wb') as file:
        file.write(data)

# Whether the document of an answer may have a module with a line feed in its name, of which a folder host keeps no package.
def names_no_package(sent):
    body = sent.partition(b'\r\n\r\n')[2].lower()
    return b'modulename' in body and any(it in body for it in (b'\n', b'\\n', b'\\x'))

# What a folder holds, but for the packages, which stay where a later answer is refused.
def listing(folder):
    found, left = {}, [folder]
    while left:
        with os.scandir(left.pop()) as entries:
            for entry in entries:
                is_folder = entry.is_dir(follow_symlinks=False)
                found[entry.path] = None if is_folder else bytes_of(entry.path)
                if is_folder and entry.path != folder + '/packages':
                    left.append(entry.path)
    found.pop(folder + '/packages', None)
    return found

def variable(name, more=''):
    return 'instance of MSFT_EnvironmentResource{ResourceID="[Environment]%s";Name="%s";Value="1";%s};' % (name, name, more)

# A listener that gives the answers of a plan, one a connection, and 200 after them.
class Peer:
    def __init__(self):
        self.plan = []
        self.listener = socket.create_server(('127.0.0.1', 0))
        self.url = 'http://127.0.0.1:%d/PSDSCPullServer.svc' % self.listener.getsockname()[1]
        threading.Thread(target=self.serve, daemon=True).start()

    def serve(self):
        while True:
            conn, _ = self.listener.accept()
            with conn:
                try:
                    self.exchange(conn)
                except OSError:
                    pass

    def exchange(self, conn):
        got, size = b'', None
        while size is None or len(got) < size:
            piece = conn.recv(1 << 16)
            if not piece:
                return
            got += piece
            head, end, _ = got.partition(b'\r\n\r\n')
            if end:
                lengths = [line.split(b':')[1] for line in head.lower().split(b'\r\n') if line.startswith(b'content-length:')]
                size = len(head) + 4 + int(lengths[0] if lengths else 0)
        conn.sendall(self.plan.pop(0) if self.plan else answer(200))

# A pull server, whose line of each connection is read.
class Server:
    def __init__(self, program, folder):
        shutil.rmtree(folder, ignore_errors=True)
        for name in ('configurations', 'modules'):
            os.makedirs('%s/shelf/%s' % (folder, name))
        for name, data in (('keys', b'k0\nk1\n'), ('configurations/Web.mof', b'abc'), ('configurations/App.mof', b''), ('modules/xWeb_1.0.zip', bytes(range(256)))):
            write('%s/shelf/%s' % (folder, name), data)
        self.store, self.served = folder + '/store', 0
        self.port = free_port()
        words = ['--store', self.store, '--shelf', folder + '/shelf', '--listen', '127.0.0.1:%d' % self.port, '--connections', str(CONNECTIONS)]
        self.process = subprocess.Popen([program, *words], stdin=subprocess.DEVNULL, stdout=subprocess.PIPE, stderr=subprocess.PIPE)
        self.lines, self.bank, self.end = b'', b'1', BEGIN

    # What came on each of several connections that are open together, the bytes or the error, and their lines, in the order in which they were served.
    def ask(self, requests):
        conns = []
        for sent in requests:
            conns.append(self.connected())
            try:
                conns[-1].sendall(sent)
                conns[-1].shutdown(socket.SHUT_WR)
            except OSError:
                pass  # it may end a connection that is refused
        came = [self.came(conn) for conn in conns]
        self.served += len(requests)
        return came, self.lines_of(len(requests))

    @staticmethod
    def came(conn):
        with conn:
            try:
                return b''.join(iter(lambda: conn.recv(1 << 16), b''))
            except OSError as error:
                return error

    def connected(self):
        until = time.monotonic() + 60
        while True:
            try:
                return socket.create_connection(('127.0.0.1', self.port), 60)
            except OSError as error:
                demand(self.process.poll() is None and time.monotonic() < until, 'the server: %s' % error)
                time.sleep(0.005)

    # So many lines, without the numbers, which follow one another.
    def lines_of(self, count):
        while self.lines.count(b'\n') < count:
            ready, _, _ = select.select([self.process.stdout], [], [], 60)
            piece = os.read(self.process.stdout.fileno(), 1 << 16) if ready else b''
            demand(piece, 'too few lines: the server printed %r, status %s' % (self.lines, self.process.poll()))
            self.lines += piece
        *lines, self.lines = self.lines.split(b'\n')
        begin = self.served - count + 1
        wanted = [b'%d ' % number for number in range(begin, begin + count)]
        demand(len(lines) == count and all(map(bytes.startswith, lines, wanted)), 'the lines %r' % lines)
        return [line.split(b' ', 1)[1].decode() for line in lines]

    # How many bodies were added to its store since the last call; none where the store was written anew.
    def added(self):
        with open(self.store, 'rb') as file:
            bank = file.read(8)[7:]
            if bank != self.bank:
                self.bank, self.end = bank, BEGIN + (BANK if bank == b'2' else 0)
                return None
            count = 0
            file.seek(self.end)
            while file.read(1) == b'\xa5':
                self.end += 5 + int.from_bytes(file.read(4), 'big')
                file.seek(self.end)
                count += 1
        return count

    def stamp(self):
        found = os.stat(self.store)
        return found.st_size, found.st_mtime_ns

    # Whether it ends as it should after its last connection.
    def ends(self):
        out, errors = self.process.communicate(timeout=60)
        demand((out, errors, self.process.returncode) == (b'', b'', 0), 'the end of the server: %r' % ((out, errors, self.process.returncode),))

    def kill(self):
        self.process.kill()
        self.process.communicate()

class Worker:
    """What one of several processes does: inputs of each kind in turn, each of which either passes or is kept."""
    def __init__(self, number, options):
        self.__dict__.update(options)
        self.number, self.folder = number, '%s/%d' % (self.scratch, number)
        self.store, self.host, self.server = self.folder + '/store', self.folder + '/host', None
        self.counts, self.ends, self.failed, self.documents, self.metas, self.scripts = {}, {}, 0, documents(), metas(), scripts()
        self.kinds = (self.document, self.meta, self.script, self.stored, self.answers) * OTHERS + (self.requests,)
        os.makedirs(self.folder)
        self.node = Program(self.program, [os.open('%s/%s' % (self.folder, name), os.O_RDWR | os.O_CREAT) for name in ('input', 'output', 'errors')], self.folder)
        self.make_templates()

    # ---- the node

    def run(self, among, *words, text=b''):
        self.words = ' '.join(words)
        self.is_new = self.is_new and words[0] in STAYING
        ended = self.node.run([self.store, self.host, *words], text, 60)
        demand(ended, 'no end after 60 seconds')
        status, output, errors = ended
        files = {'output': output, 'errors': errors}
        demand(not errors, 'standard error', **files)
        demand(status in among, 'status %d' % status, **files)
        self.ended('%s %d' % (words[0], status))
        return status, output

    # Counts how an input ended.
    def ended(self, how):
        self.ends[how] = self.ends.get(how, 0) + 1

    # The host of an input: a new one where an earlier input may have changed it.
    def new_host(self):
        if not self.is_new:
            shutil.rmtree(self.host, ignore_errors=True)
            shutil.copytree(self.template_host, self.host)
            self.is_new, self.listing = True, listing(self.host)

    # Whether the host is as it was before the input.
    def is_same(self):
        return listing(self.host) == self.listing

    # Some stores, and the host of each input.
    def make_templates(self):
        self.template_host = self.folder + '/template'
        for name in ('env', 'root/a/b', 'root/etc', 'log'):
            os.makedirs('%s/%s' % (self.template_host, name))
        write(self.template_host + '/root/a/f', b'text')
        write(self.template_host + '/env/56', b'1')
        self.peer, self.stores, self.pulling, self.is_new = Peer(), [], {}, False
        self.new_host()
        self.run({0}, 'init', AGENT)
        self.bare = bytes_of(self.store)
        self.stores.append(self.bare)
        for words, text in (('push', variable('A') + HEADER.decode()), ('meta', 'instance of MSFT_DSCMetaConfiguration{ConfigurationMode="ApplyAndAutoCorrect";};'),
                            ('consistency', ''), ('push', variable('B') + variable('C', 'DependsOn="[Environment]B";') + HEADER.decode()), ('restore', ''),
                            ('push', 'instance of MSFT_FileDirectoryConfiguration{ResourceID="[File]F";DestinationPath="/a";};' + HEADER.decode()),
                            ('remove previous', '')):
            self.run({0, 1}, *words.split(' '), text=text.encode())
            self.stores.append(bytes_of(self.store))
        write(self.store, self.bare)
        self.run({0}, 'meta', text=('instance of MSFT_DSCMetaConfiguration{ConfigurationMode="ApplyAndAutoCorrect";};' + PARTS).encode())
        for name, text in (('A', variable('A')), ('B', variable('B', 'DependsOn="[Environment]A";')), ('A', variable('A') + variable('C'))):
            self.run({0}, 'push', name, text=text.encode() + HEADER)
            self.stores.append(bytes_of(self.store))
        for name, more, parts in (('one', 'ConfigurationNames={"Web"};', ''), ('two', '', PARTS)):
            write(self.store, self.bare)
            self.run({0}, 'meta', text=(MANAGER % (self.peer.url, more, self.peer.url) + parts).encode())
            self.pulling[name, 'new'] = bytes_of(self.store)
            self.peer.plan = [answer(204)]
            self.run({0}, 'register', 'n')
            self.pulling[name, 'registered'] = bytes_of(self.store)
            self.peer.plan = self.good_answers(name, [variable('A') + HEADER.decode(), variable('B') + HEADER.decode()])
            self.run({0}, 'pull')
            self.pulling[name, 'pulled'] = bytes_of(self.store)
            self.stores += [self.pulling[name, stage] for stage in ('new', 'registered', 'pulled')]
        self.stores += [in_full(store) for store in self.stores]

    @staticmethod
    def good_answers(name, texts):
        names = ('Web',) if name == 'one' else ('A', 'B')
        asked = statuses('GetConfiguration', *((it, 'GetConfiguration') for it in names))
        return [asked] + [content(text if isinstance(text, bytes) else text.encode()) for text, _ in zip(texts, names)]

    # ---- what is kept of an input that fails

    def one(self, kind, number):
        name = kind.__name__
        self.words, self.input, self.before = '', b'', None
        self.counts[name] = self.counts.get(name, 0) + (BATCH if name == 'requests' else 1)
        try:
            kind(random.Random('%s/%s/%d' % (self.seed, name, number)))
        except Wrong as wrong:
            self.failed, self.is_new = self.failed + 1, False
            folder = '%s/%s-%d' % (self.kept, name, number)
            os.makedirs(folder, exist_ok=True)
            for file, data in {'why': str(wrong).encode(), 'words': self.words.encode(), 'input': self.input, 'store': self.before, **wrong.files}.items():
                if data is not None:
                    write('%s/%s' % (folder, file), data)
            print('FAILED %s %d: %s: %s; kept in %s' % (name, number, self.words, wrong, folder), flush=True)

    def go_on(self):
        numbers = {kind.__name__: self.number for kind in self.kinds}
        while time.monotonic() < self.until and self.failed < 20:
            for kind in self.kinds:
                self.one(kind, numbers[kind.__name__])
                numbers[kind.__name__] += self.workers
        if self.server:
            self.server.kill()

    # ---- one input of each kind

    def document(self, rng):
        text = self.input = text_of(rng, self.documents, made)
        self.before = self.bare
        write(self.store, self.bare)
        self.new_host()
        status, line = self.run({0, 3}, 'check', text=text)
        demand((REFUSED if status == 3 else re.compile(rb'ok \d+\n')).fullmatch(line), 'the line of check', output=line)
        word = rng.choice(('order', 'test', 'canon', 'push'))
        if word == 'canon':
            self.canon(text, status, line)
        elif status == 3:
            demand(self.run({3}, word, text=text)[1] == line, 'another refusal than of check')
        else:
            ends, out = self.run({0} if word == 'order' else {0, 1}, word, text=text)
            last = {'order': rb'', 'test': rb'(overlapping|compliant|not compliant \d+)\n', 'push': rb'end (promoted|noted)\n'}[word]
            demand(re.search(last + rb'\Z', out), 'the last line', output=out)
            demand(word != 'order' or out.count(b'\n') >= int(line[3:]), 'the number of lines', output=out)
        if status == 3 or word != 'push':
            demand(bytes_of(self.store) == self.bare and self.is_same(), 'the store or the host has changed')

    # A text that check takes is one that canon takes, and what is written reads back as itself.
    def canon(self, text, status, line):
        ends, out = self.run({0, 3}, 'canon', text=text)
        if ends == 3:
            demand(status == 3 and line == out.replace(b'refused ', b'refused Part 0 ', 1), 'another refusal than of check', output=out)
        elif len(out) < 2_000_000:
            demand(self.run({0}, 'canon', text=out)[1] == out, 'the canonical text is no canonical text', output=out)

    def meta(self, rng):
        text = self.input = text_of(rng, self.metas)
        self.before = rng.choice(self.stores)
        write(self.store, self.before)
        self.new_host()
        status, out = self.run({0, 3}, 'meta', text=text)
        demand((REFUSED if status == 3 else re.compile(rb'ok\n')).fullmatch(out), 'the line', output=out)
        demand(self.is_same(), 'the host has changed')
        demand(status == 0 or bytes_of(self.store) == self.before, 'the store has changed')
        demand(self.run({0}, 'get')[1], 'no lines')

    # What a script gives is a document, and a canonical text.
    def script(self, rng):
        text = self.input = changed(rng, rng.choice(self.scripts), self.scripts, TEXTS)
        self.before = self.bare
        write(self.store, self.bare)
        self.new_host()
        status, out = self.run({0, 3}, 'compile', rng.choice(('web1', 'n', 'B')), text=text)
        if status == 3:
            demand(REFUSED.fullmatch(out), 'the line', output=out)
        else:
            self.run({0}, 'check', text=out)
            demand(self.run({0}, 'canon', text=out)[1] == out, 'the text is no canonical text', output=out)
        demand(bytes_of(self.store) == self.bare and self.is_same(), 'the store or the host has changed')

    def stored(self, rng):
        store = self.before = store_of(rng, self.stores)
        write(self.store, store)
        self.new_host()
        status, out = self.run({0, 5, 7}, 'get')
        demand(status != 7 or out == b'refused NotAllowed NoAgent\n', 'the line', output=out)
        words = rng.choice(('reports', 'consistency', 'boot', 'restore', 'remove current', 'pull', 'push', 'push A', 'push b'))
        text = variable('Z').encode() + HEADER if words.startswith('push') else b''
        if status == 5:
            demand(re.fullmatch(rb'refused NotAStore \d+\n', out) and int(out.split()[2]) <= len(store), 'the place', output=out)
            demand(self.run({5}, *words.split(' '), text=text)[1] == out, 'another refusal')
            demand(bytes_of(self.store) == store and self.is_same(), 'the store or the host has changed')
            return
        opened = bytes_of(self.store)
        demand(len(store) < 10 or store.startswith(opened), 'the opening has changed the store')
        # a server that such a store names is not asked
        if b'http' in opened.lower() and words not in ('reports', 'remove current', 'restore'):
            return
        # the other parts that the store holds may not go with the one that is pushed
        ends = {0, 7} if words in ('reports', 'remove current') else START | {3} if words.startswith('push ') else START
        status, out = self.run(ends, *words.split(' '), text=text)
        if REFUSED.fullmatch(out):
            # a store that holds nothing is begun anew by each start
            same = (opened, b'DSCSTOR1\0') if len(opened) < 10 else (opened,)
            demand(bytes_of(self.store) in same and self.is_same(), 'the store or the host has changed', output=out)
        demand(self.run({0, 7}, 'get')[1], 'no lines')

    def answers(self, rng):
        name, command = rng.choice(('one', 'one', 'two')), rng.choice(('register', 'pull', 'pull', 'pull', 'pull'))
        stage = 'new' if command == 'register' else rng.choice(('registered', 'pulled'))
        self.before = self.pulling[name, stage]
        write(self.store, self.before)
        self.new_host()
        module_of = rng.choice(('', '', 'ModuleName="xWeb";ModuleVersion="1.0";'))
        texts = [(variable('A', module_of) + HEADER.decode()).encode(), (variable('B') + HEADER.decode()).encode()]
        plan = [answer(204)] if command == 'register' else self.good_answers(name, texts) + [content(b'zip')] * (module_of != '') + [answer(200)]
        at = rng.randrange(len(plan))
        head, _, body = plan[at].partition(b'\r\n\r\n')
        how = rng.randrange(3)
        if how == 0 or not body:
            plan[at] = changed(rng, plan[at], plan, BYTES)
        elif b'Checksum' in head:
            plan[at] = content(text_of(rng, self.documents, made) if how == 1 else changed(rng, body, self.documents, BYTES))
        else:
            plan[at] = answer(200, changed(rng, body, plan, BYTES), ('Content-Type: application/json',))
        self.input = b'\n----\n'.join(plan)
        self.peer.plan = plan
        ends = {0, 6} if command == 'register' else {0, 1, 6} | ({4} if any(map(names_no_package, plan)) else set())
        status, out = self.run(ends, command, *(['n'] if command == 'register' else []))
        if status in REFUSED_PULL:
            demand(REFUSED_PULL[status].fullmatch(out), 'the line', output=out)
            demand(bytes_of(self.store) == self.before and self.is_same(), 'the store or the host has changed', output=out)
        demand(self.run({0}, 'get')[1], 'no lines')

    def requests(self, rng):
        if self.server is None or self.server.served == CONNECTIONS:
            if self.server:
                self.server.ends()
            self.server = Server(self.server_program, self.folder + '/server')
        sent = [request_of(rng) for _ in range(BATCH)]
        try:
            stamp = self.server.stamp() if self.server.served else None
            came, lines = self.server.ask(sent)
            self.served_well(sent, came, lines, stamp)
        except Wrong as wrong:
            wrong.files.update(('request-%d' % at, it) for at, it in enumerate(sent))
            wrong.files['store'] = bytes_of(self.server.store)
            self.server.kill()
            self.server = None
            raise

    # The answer of each request is one of the protocol, each line is that of an answer, and only what was done is in the store.
    def served_well(self, sent, came, lines, stamp):
        left, cut, done = collections.Counter(lines), 0, 0
        for at, (one, got) in enumerate(zip(sent, came)):
            line = None if isinstance(got, OSError) else self.line_of(at, one, got)
            # a request that was done ends its connection at once, also where its client still sends
            cut += line is None
            done += line in (None, 'answer 200', 'answer 204')
            if line:
                demand(left[line], 'no line %r' % line, output=got)
                left[line] -= 1
                self.ended('request ' + line.split(' ')[line.startswith('answer')])
        demand(cut == left['answer 200'] + left['answer 204'] == sum(left.values()), 'the connections that failed, and the lines %r' % +left)
        added = self.server.added()
        demand(added is None or added <= done, '%s bodies were added by %d requests' % (added, done))
        demand(done or not stamp or self.server.stamp() == stamp, 'the store has changed')

    # The line of what came.
    @staticmethod
    def line_of(at, sent, got):
        if not got:
            return 'torn %d' % len(sent)
        head, _, body = got.partition(b'\r\n\r\n')
        code = int(head[9:12]) if re.match(rb'HTTP/1\.1 \d\d\d ', head) else None
        own = [it for it in head.decode('latin-1').split('\r\n')[3:] if not it.startswith('Content-Length:')]
        demand(code in PHRASES and code != 500 and got == answer(code, body, own), 'the answer to request %d' % at, output=got)
        return 'answer %d' % code

# Good requests, by what they ask.
def good_requests():
    numbers, lists = range(1, 5), (('Web',), ('Web', 'App'), (), ('none',))
    return [[register(it, names, key) for it in numbers for names in lists for key in (b'k0', b'k1', b'k2')],
            [query(it, ('Web', sum_)) for it in numbers for sum_ in ('', 'A' * 64)], [query(it) for it in numbers],
            [fetch(it, name) for it in numbers for name in ('Web', 'App', '..', 'none')], [module('xWeb', it) for it in ('1.0', '1.1', '.')],
            [report(it, job) for it in numbers for job in range(8)],
            [in_chunks(node(it, '/SendReport'), b'{"JobId":"%s"}' % AGENT.encode(), size) for it in numbers for size in (1, 7, 100)],
            [request(method, node(it)) for method in ('DELETE', 'GET', 'PUT', 'POST', 'get') for it in numbers]]

GOOD = good_requests()
ALL = [it for kind in GOOD for it in kind]
REGISTRATIONS = [registration(list(names)) for names in (('Web',), ('Web', 'App'), (), ('none',))]
BODIES = [(target, sent.partition(b'\r\n\r\n')[2]) for target, sent in (('/GetDscAction', query(1, ('Web', ''))), ('/SendReport', report(1, 7)))]

# A request that was changed: in its bytes, or in its body, which then has its right length, and its signature at times.
def request_of(rng):
    number = rng.randrange(1, 5)
    how = rng.randrange(4)
    if how == 0:
        return register(number, body=changed(rng, rng.choice(REGISTRATIONS), ALL, BYTES, 20_000))
    if how == 1:
        target, body = rng.choice(BODIES)
        return request('POST', node(number, target), changed(rng, body, REGISTRATIONS, BYTES, 20_000))
    return changed(rng, rng.choice(rng.choice(GOOD)), ALL, BYTES, 100_000)

def work(number, options):
    worker = Worker(number, options)
    if options['only']:
        kind, at = options['only'].split(' ')
        worker.one(getattr(worker, kind), int(at))
    else:
        worker.go_on()
    with open('%s/%d.json' % (options['scratch'], number), 'w', encoding='utf-8') as file:
        json.dump((worker.counts, worker.ends, worker.failed), file)

def main():
    program, server, seconds, seed = sys.argv[1:5]
    # in memory where there is a folder of that kind, since what a disk keeps is not looked at here
    memory = '/dev/shm'
    scratch, only = tempfile.mkdtemp(dir=memory if os.access(memory, os.W_OK) else None), os.environ.get('ONLY')
    workers = 1 if only else int(os.environ.get('WORKERS') or len(os.sched_getaffinity(0)))
    options = {'program': program, 'server_program': server, 'seed': seed, 'scratch': scratch, 'only': only, 'workers': workers,
               'until': time.monotonic() + float(seconds), 'kept': '%s/nimchout-fuzz-%s' % (tempfile.gettempdir(), seed)}
    print('the seed is %s' % seed, flush=True)
    processes = [multiprocessing.Process(target=work, args=(number, options)) for number in range(workers)]
    for process in processes:
        process.start()
    counts, ends, failed = {}, {}, 0
    for number, process in enumerate(processes):
        process.join()
        if process.exitcode:
            failed += 1
            print('FAILED worker %d ended with %s' % (number, process.exitcode))
            continue
        with open('%s/%d.json' % (scratch, number), encoding='utf-8') as file:
            one, how, wrong = json.load(file)
        failed += wrong
        for into, more in ((counts, one), (ends, how)):
            for kind, count in more.items():
                into[kind] = into.get(kind, 0) + count
    shutil.rmtree(scratch, ignore_errors=True)
    print('the ends: ' + ', '.join('%s: %d' % item for item in sorted(ends.items())))
    print('the inputs: ' + ', '.join('%s: %d' % item for item in sorted(counts.items())))
    passed = sum(counts.values()) - failed
    print('%d passed, %d failed' % (passed, failed))
    sys.exit(1 if failed or passed <= 0 else 0)

main()

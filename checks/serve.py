"""The pull server with real clients, for checks/serve, which says what is run. The argument is the program."""
import hashlib, json, os, random, resource, shutil, signal, socket, struct, subprocess, sys, tempfile, threading, time

from protocol import (DATE, agent, answer, content, fetch, fleet, in_chunks, kept, module, node, query, register, registration, report, report_body,
                      request, signature, statuses)

program = sys.argv[1]
passed = failed = 0
counting = threading.Lock()
scratch = tempfile.mkdtemp()
LONGEST = 62914560
BANK = 335544320  # the bytes of each half of a store

def check(name, got, wanted):
    global passed, failed
    with counting:
        if got == wanted:
            passed += 1
            return
        failed += 1
        print('FAILED', name, 'got', repr(got)[:600], 'wanted', repr(wanted)[:600], flush=True)

# The events of a store: its first bytes, of which the last names the live bank, then cells, each an open gate, a length and a body, then a
# closed gate.
def events(path):
    with open(path, 'rb') as file:
        head = file.read(8)
        if head not in (b'DSCSTOR1', b'DSCSTOR2'):
            return 'no store'
        file.seek(8 if head == b'DSCSTOR1' else 8 + BANK)
        found = []
        gate = file.read(1)
        while gate == b'\xa5':
            found.append(file.read(int.from_bytes(file.read(4), 'big')))
            gate = file.read(1)
        return found if gate else 'no closed gate'

def row(number, names=('Web',), texts=(b'2.0', b'n', b'::1')):
    texts = b''.join(len(text).to_bytes(2, 'big') + text for text in texts)
    names = [name.encode() for name in names]
    return b'\1' + bytes(12) + number.to_bytes(4, 'big') + texts + bytes([len(names)]) + b''.join(len(name).to_bytes(2, 'big') + name for name in names)

def kept_report(number, job, pad=0):
    return b'\2' + bytes(12) + number.to_bytes(4, 'big') + bytes(12) + job.to_bytes(4, 'big') + report(number, job, pad).split(b'\r\n\r\n', 1)[1]

# ---- a server and its clients

def free_port(family=socket.AF_INET, host='127.0.0.1'):
    with socket.socket(family) as probe:
        probe.bind((host, 0))
        return probe.getsockname()[1]

def listens(port):
    for table in ('/proc/net/tcp', '/proc/net/tcp6'):
        if os.path.exists(table):
            with open(table) as lines:
                for line in lines:
                    fields = line.split()
                    if fields[1].endswith(':%04X' % port) and fields[3] == '0A':
                        return True
    return False

class Server:
    def __init__(self, connections, folder=None, host='127.0.0.1', listen=None, port=None, **limits):
        self.folder = folder or tempfile.mkdtemp(dir=scratch)
        self.store, self.shelf = self.folder + '/store', self.folder + '/shelf'
        self.host, self.port = host, port or free_port()
        if not os.path.isdir(self.shelf):
            os.makedirs(self.shelf + '/configurations')
            os.makedirs(self.shelf + '/modules')
            self.put('keys', b'k0\n')
            self.put('configurations/Web.mof', b'abc')
        self.process = run(self.store, self.shelf, listen or '%s:%d' % (host, self.port), connections, stdout=subprocess.PIPE, stderr=subprocess.PIPE, **limits)
        until = time.monotonic() + 60
        while self.process.poll() is None and not listens(self.port) and time.monotonic() < until:
            time.sleep(0.005)

    def put(self, name, data):
        with open(os.path.join(self.shelf, name), 'wb') as file:
            file.write(data)

    # In one step, as an administrator should.
    def replace(self, name, data):
        self.put('configurations/next', data)
        os.rename(self.shelf + '/configurations/next', os.path.join(self.shelf, name))

    def connect(self, wait=120):
        conn = socket.create_connection((self.host, self.port), wait)
        conn.setsockopt(socket.IPPROTO_TCP, socket.TCP_NODELAY, 1)
        return conn

    def ask(self, sent):
        with self.connect() as conn:
            conn.sendall(sent)
            return all_of(conn)

    # Its lines and its status, once it has served as many connections as it was to.
    def end(self):
        try:
            out, errors = self.process.communicate(timeout=60)
        except subprocess.TimeoutExpired:
            self.process.kill()
            return 'no end'
        return out.decode(), errors.decode(), self.process.returncode

    def kill(self):
        self.process.send_signal(signal.SIGKILL)
        self.process.communicate()

def run(store, shelf, listen, connections, **where):
    words = [program, '--store', store, '--shelf', shelf, '--listen', listen, '--connections', str(connections)]
    return subprocess.Popen(words, stdin=subprocess.DEVNULL, **(where or {'stdout': subprocess.PIPE, 'stderr': subprocess.PIPE}))

# The bytes up to the orderly end of the connection; else how it ended.
def all_of(conn, rate=None):
    got, begun = b'', time.monotonic()
    pieces = []
    count = 0
    try:
        for piece in iter(lambda: conn.recv(1 << 16), b''):
            pieces.append(piece)
            count += len(piece)
            if rate:
                time.sleep(max(0, count / rate - (time.monotonic() - begun)))
    except OSError as error:
        return '%d bytes, then %s' % (count, error)
    return b''.join(pieces)

def lines(*ends):
    return ''.join('%d %s\n' % (number, end) for number, end in enumerate(ends, 1)), '', 0

def served(*codes):
    return lines(*('answer %d' % code for code in codes))

# One server for these requests, one connection each, with what each must be answered.
def expect(name, *rows, server=None):
    server = server or Server(len(rows))
    for number, (sent, wanted) in enumerate(rows, 1):
        check('%s, request %d' % (name, number), server.ask(sent), wanted)
    check(name + ', the lines', server.end(), served(*(int(wanted.split(b' ', 2)[1]) for _, wanted in rows)))
    return server

# ---- a node

def a_node():
    package = bytes(range(256)) * 30
    server = Server(22)
    server.put('keys', b'k0\r\n\r\n\n a key \nlast\r')
    server.put('configurations/App.mof', 'é'.encode())
    server.put('modules/xWeb_1.0.zip', package)
    app_sum = hashlib.sha256('é'.encode()).hexdigest()
    web_sum = 'BA7816BF8F01CFEA414140DE5DAE2223B00361A396177A9CB410FF61F20015AD'
    unsigned = request('PUT', node(1), registration(['Web']))
    expect('a node',
        (fetch(1, 'Web'), answer(404)),
        (register(1, key=b'k1'), answer(401)),
        (register(1, key=b''), answer(401)),
        (unsigned, answer(401)),
        (fetch(1, 'Web'), answer(404)),
        (register(1), answer(204)),
        (register(1, ('Web', 'App'), key=b' a key '), answer(204)),
        (register(2, ('Web',), key=b'last\r'), answer(204)),
        (query(1, ('Web', '')), statuses('GetConfiguration', ('Web', 'GetConfiguration'))),
        (query(1, ('Web', web_sum), ('App', app_sum)), statuses('Ok', ('Web', 'Ok'), ('App', 'Ok'))),
        (query(1, ('Other', '')), statuses('RETRY', ('Other', 'RETRY'))),
        (query(1), statuses('GetConfiguration', ('Web', 'GetConfiguration'), ('App', 'GetConfiguration'))),
        (in_chunks(node(1, '/GetDscAction'), b'{"ClientStatus":[{"ConfigurationName":"Web"}]}', 7), statuses('GetConfiguration', ('Web', 'GetConfiguration'))),
        (request('POST', node(1, '/GetDscAction'), b'{'), answer(400, b'json')),
        (fetch(1, 'Web'), content(b'abc')),
        (fetch(1, 'App'), content('é'.encode())),
        (fetch(2, 'App'), answer(404)),
        (module('xWeb', '1.0'), content(package)),
        (module('xWeb', '1.1'), answer(404)),
        (report(1, 7), answer(200)),
        (report(3, 7), answer(404)),
        (b'DELETE /PSDSCPullServer.svc/' + node(1).encode() + b' HTTP/1.1\r\n\r\n', answer(501)),
        server=server)
    check('the store of a node', events(server.store), [row(1), row(1, ('Web', 'App')), row(2), kept_report(1, 7)])
    server = expect('the same node after a restart',
        (fetch(1, 'Web'), content(b'abc')),
        (report(1, 8), answer(200)),
        server=Server(2, server.folder))
    check('the store after a restart', events(server.store), [row(1), row(1, ('Web', 'App')), row(2), kept_report(1, 7), kept_report(1, 8)])

# The numbers of agents by their last reports, and the reports; the same after a restart.
def a_fleet():
    asked = request('GET', 'Fleet')
    told = lambda job, status: answer(200, report_body(job, status), ('Content-Type: application/json',))
    server = expect('a fleet',
        (asked, fleet()),
        (register(1), answer(204)),
        (register(2), answer(204)),
        (register(3), answer(204)),
        (asked, fleet(silent=3)),
        (report(1, 5), answer(200)),
        (report(2, 6, status='Failure'), answer(200)),
        (asked, fleet(compliant=1, failed=1, silent=1)),
        (report(2, 7), answer(200)),
        (asked, fleet(compliant=2, silent=1)),
        (report(2, 7, status='InProgress'), answer(200)),
        (asked, fleet(compliant=1, other=1, silent=1)),
        (report(2, 6), answer(200)),
        (request('GET', '%46leet'), fleet(compliant=1, other=1, silent=1)),
        (kept(2, 6), told(6, 'Success')),
        (kept(2, 7), told(7, 'InProgress')),
        (kept(1, 6), answer(404)),
        (kept(4, 6), answer(404)),
        (report(4, 6), answer(404)),
        (request('POST', 'Fleet', b''), answer(405)),
        (request('POST', 'Fleet'), answer(411)),
        (request('DELETE', 'Fleet'), answer(501)),
        (register(2, ('Web', 'App')), answer(204)),
        (asked, fleet(compliant=1, other=1, silent=1)))
    expect('the same fleet after a restart',
        (asked, fleet(compliant=1, other=1, silent=1)),
        *((report(1, job, status='Failure'), answer(200)) for job in (8, 9, 10, 11)),
        (kept(1, 5), answer(404)),
        (kept(1, 8), told(8, 'Failure')),
        (asked, fleet(failed=1, other=1, silent=1)),
        server=Server(8, server.folder))

def frames():
    large = report(1, 9, 10000 - len(report(1, 9)) - 1)
    server = Server(12)
    check('a registration', server.ask(register(1)), answer(204))
    with server.connect() as conn:
        for at in range(len(large)):
            conn.sendall(large[at:at + 1])
        check('a request that comes byte by byte', (len(large), all_of(conn)), (10000, answer(200)))
    check('two requests on a connection', server.ask(fetch(1, 'Web') * 2), content(b'abc'))
    rubbish = b'A' * 16000000
    asked = node(1, "/Configurations(ConfigurationName='Web')/ConfigurationContent")
    for name, sent, wanted in (('64 header lines', request('GET', asked, headers=['A: b'] * 62), content(b'abc')),
                               ('65 header lines', request('GET', asked, headers=['A: b'] * 63), answer(400, b'head')),
                               ('a target with a wrong escape', request('GET', '%zz'), answer(400, b'target 21')),
                               ('16 MB of one word', rubbish, answer(400, b'head')),
                               ('16 MB that no request begins with', b'\0' * 16000000, answer(400, b'head')),
                               ('a body of 16 MB', request('POST', node(1, '/SendReport'), rubbish), answer(413))):
        check(name, server.ask(sent), wanted)
    with server.connect() as conn:
        conn.sendall(fetch(1, 'Web')[:30])
        conn.shutdown(socket.SHUT_WR)
        check('a request that is cut', all_of(conn), b'')
    with server.connect():
        pass
    with server.connect() as conn:
        conn.sendall(fetch(1, 'Web')[:30])
        conn.setsockopt(socket.SOL_SOCKET, socket.SO_LINGER, struct.pack('ii', 1, 0))
    check('frames, the lines', server.end(), lines('answer 204', 'answer 200', 'answer 200', 'answer 200', *['answer 400'] * 4, 'answer 413', 'torn 30', 'torn 0', 'read fault'))
    check('frames, the store', events(server.store), [row(1), b'\2' + bytes(12) + (1).to_bytes(4, 'big') + bytes(12) + (9).to_bytes(4, 'big') + large.split(b'\r\n\r\n', 1)[1]])

def a_shelf():
    full, names = bytes(LONGEST), ['Full', 'Over', 'Pipe', 'Folder', 'Link', '.hidden', 'b\\\\c', 'n' * 255, 'Gone']
    server = Server(12)
    for name, size in (('Full', LONGEST), ('Over', LONGEST + 1)):
        server.put('configurations/%s.mof' % name, b'')
        os.truncate('%s/configurations/%s.mof' % (server.shelf, name), size)
    os.mkfifo(server.shelf + '/configurations/Pipe.mof')
    os.mkdir(server.shelf + '/configurations/Folder.mof')
    os.symlink('Web.mof', server.shelf + '/configurations/Link.mof')
    server.put('configurations/.hidden.mof', b'x')
    server.put('secret.mof', b'x')
    server.put('modules/m_.1.zip', b'x')
    expect('a shelf',
        (register(1, names[:6] + ['../secret'] + names[7:]), answer(204)),
        (fetch(1, 'Full'), content(full)),
        (fetch(1, 'Over'), answer(500)),
        (fetch(1, 'Pipe'), answer(500)),
        (fetch(1, 'Folder'), answer(500)),
        (fetch(1, 'Link'), answer(500)),
        (fetch(1, '.hidden'), answer(404)),
        (fetch(1, '../secret'), answer(404)),
        (fetch(1, 'n' * 255), answer(404)),
        (fetch(1, 'Gone'), answer(404)),
        (module('m', '.1'), answer(404)),
        (query(1, ('Gone', '')), statuses('RETRY', ('Gone', 'RETRY'))),
        server=server)
    server = Server(3)
    check('an agent', server.ask(register(1)), answer(204))
    server.replace('configurations/Web.mof', b'next')
    check('a content that took the place of another', server.ask(fetch(1, 'Web')), content(b'next'))
    shutil.rmtree(server.shelf)
    check('a shelf that is not there', server.ask(fetch(1, 'Web')), answer(404))
    check('a shelf that went, the lines', server.end(), served(204, 200, 404))
    server = Server(2)
    os.remove(server.shelf + '/keys')
    check('a shelf without keys', server.ask(register(1)), answer(401))
    os.mkdir(server.shelf + '/keys')
    check('a folder in the place of the keys', server.ask(register(1)), answer(500))
    check('the keys, the lines', server.end(), served(401, 500))

# A content counts as it stands there now, whatever was handed out before it.
def contents_that_change():
    def sum_of(data):
        return hashlib.sha256(data).hexdigest()

    many = bytes(range(256)) * 8192
    texts = [b'abc', b'abd', b'abdc', b'ab', b'', b'abc', many, many[:-1] + b'x', many + b'y', many + b'z', b'z' + many, many[:-1] + b'x', b'abd']
    server = Server(2 + 4 * len(texts) + 9)
    check('contents that change, an agent', server.ask(register(1, ('Web', 'App'))), answer(204))
    check('the first content', server.ask(fetch(1, 'Web')), content(b'abc'))
    before = b'other'
    for number, text in enumerate(texts):
        server.replace('configurations/Web.mof', text)
        name = 'content %d, of %d bytes, in the place of one of %d' % (number, len(text), len(before))
        check(name + ', the checksum of the one before it', server.ask(query(1, ('Web', sum_of(before)))), statuses('GetConfiguration', ('Web', 'GetConfiguration')))
        check(name, server.ask(fetch(1, 'Web')), content(text))
        check(name + ', again', server.ask(fetch(1, 'Web')), content(text))
        check(name + ', its checksum', server.ask(query(1, ('Web', sum_of(text)))), statuses('Ok', ('Web', 'Ok')))
        before = text
    server.put('configurations/App.mof', b'App')
    server.put('modules/m_1.zip', b'zip')
    for _ in range(2):
        for name, sent, text in (('Web', fetch(1, 'Web'), b'abd'), ('App', fetch(1, 'App'), b'App'), ('m', module('m', '1'), b'zip')):
            check(name + ', in turns', server.ask(sent), content(text))
    check('two contents, their checksums', server.ask(query(1, ('Web', sum_of(b'abd')), ('App', sum_of(b'App')))), statuses('Ok', ('Web', 'Ok'), ('App', 'Ok')))
    check('two contents, each the checksum of the other', server.ask(query(1, ('Web', sum_of(b'App')), ('App', sum_of(b'abd')))),
          statuses('GetConfiguration', ('Web', 'GetConfiguration'), ('App', 'GetConfiguration')))
    clients = [('Web', ''), ('Web', sum_of(b'abd')), ('App', sum_of(b'App')), ('Web', sum_of(b'App')), ('App', ''), ('Web', sum_of(b'abd'))]
    wanted = ['GetConfiguration', 'Ok', 'Ok', 'GetConfiguration', 'GetConfiguration', 'Ok']
    check('two contents, each named often with several checksums', server.ask(query(1, *clients)),
          statuses('GetConfiguration', *[(name, status) for (name, _), status in zip(clients, wanted)]))
    check('contents that change, the lines', server.end(), served(204, *[200] * (1 + 4 * len(texts) + 9)))

# ---- the second bank of a store, whose first one and most of whose reports are holes in the file

def cell(body):
    return b'\xa5' + len(body).to_bytes(4, 'big') + body

def a_second_bank():
    folder = tempfile.mkdtemp(dir=scratch)
    with open(folder + '/store', 'wb') as file:
        file.write(b'DSCSTOR2' + cell(row(9)) + b'\0')  # of the dead bank nothing counts
        file.seek(8 + BANK)
        file.write(cell(row(1)) + cell(kept_report(1, 7)) + b'\0dead')
    kept = [row(1), kept_report(1, 7)]
    server = expect('a second bank', (fetch(1, 'Web'), content(b'abc')), (fetch(9, 'Web'), answer(404)), (report(1, 8), answer(200)),
                    (register(2), answer(204)), server=Server(4, folder))
    kept += [kept_report(1, 8), row(2)]
    check('a second bank, its events', events(server.store), kept)
    check('a second bank, how long the file is', os.path.getsize(server.store), 8 + BANK + sum(5 + len(it) for it in kept) + 1)
    expect('a second bank after a restart', (fetch(2, 'Web'), content(b'abc')), server=Server(1, folder))

# A second bank that is full is written anew into the first one: each agent with its newest four reports, in the order of their rows.
def a_full_second_bank():
    folder, at, number = tempfile.mkdtemp(dir=scratch), 8 + BANK, 0
    least = 5 + len(kept_report(1, 0))
    with open(folder + '/store', 'wb') as file:
        file.write(b'DSCSTOR2\0')
        for body in (row(1), row(2), kept_report(2, 5)):
            file.seek(at)
            file.write(cell(body))
            at += 5 + len(body)
        # reports of zeros, which are holes, until one more byte has no room beside the closed gate
        while at + 5 + 33 < 8 + 2 * BANK - 1 - least:
            size = min(131072, 8 + 2 * BANK - 1 - at - 5 - 33)
            number += 1
            file.seek(at)
            file.write(b'\xa5' + (33 + size).to_bytes(4, 'big') + b'\2' + bytes(12) + (1).to_bytes(4, 'big') + bytes(12) + (1000 + number).to_bytes(4, 'big'))
            at += 5 + 33 + size
        file.truncate(at + 1)
    last = 8 + 2 * BANK - 1 - at
    check('a full second bank: room for a report', last < least, True)
    server = expect('a full second bank', (report(1, 8), answer(200)), (fetch(2, 'Web'), content(b'abc')), (report(2, 9), answer(200)), server=Server(3, folder))
    with open(server.store, 'rb') as file:
        check('a full second bank, the bank that counts', file.read(8), b'DSCSTOR1')
    kept = events(server.store)
    jobs = [(body[0], body[16], int.from_bytes(body[29:33], 'big') if body[0] == 2 else 0) for body in kept]
    check('a full second bank, what is written anew', jobs, [(1, 1, 0)] + [(2, 1, 1000 + it) for it in range(number - 2, number + 1)]
          + [(2, 1, 8), (1, 2, 0), (2, 2, 5), (2, 2, 9)])
    check('a full second bank, the bytes of its own rows', [kept[0], *kept[-4:]], [row(1), kept_report(1, 8), row(2), kept_report(2, 5), kept_report(2, 9)])
    expect('a full second bank after a restart', (fetch(1, 'Web'), content(b'abc')), (report(1, 10), answer(200)), server=Server(2, folder))

# ---- registrations as long as they may be

def long_registrations():
    def body(version, name, address, names=('Web',)):
        return json.dumps({'AgentInformation': {'LCMVersion': version, 'NodeName': name, 'IPAddress': address}, 'ConfigurationNames': list(names),
                           'RegistrationInformation': {}}).encode()
    long, names = 'n' * 65535, ['%02d' % it + 'x' * 253 for it in range(16)]
    server = expect('long registrations',
        (register(1, body=body('2.0', long, '::1')), answer(204)),
        (register(2, body=body(long, 'n', '::1')), answer(204)),
        (register(3, body=body('2.0', 'n', long)), answer(204)),
        (register(4, body=body('2.0', 'n', '::1', names)), answer(204)),
        (register(5, body=body('2.0', long + 'n', '::1')), answer(400, b'wrong NodeName')),
        (register(5, body=body('2.0', 'n', '::1', names + ['y'])), answer(400, b'wrong ConfigurationNames')),
        (register(5, body=body('2.0', 'n', '::1', ['x' * 256])), answer(400, b'wrong ConfigurationNames')),
        (fetch(5, 'Web'), answer(404)),
        (fetch(3, 'Web'), content(b'abc')))
    wanted = [row(1, texts=(b'2.0', long.encode(), b'::1')), row(2, texts=(long.encode(), b'n', b'::1')), row(3, texts=(b'2.0', b'n', long.encode())),
              row(4, names)]
    check('long registrations, the store', events(server.store) == wanted, True)
    expect('long registrations after a restart', (fetch(1, 'Web'), content(b'abc')), (fetch(2, 'Web'), content(b'abc')), server=Server(2, server.folder))

# ---- clients that are slow, and others

# How long it takes until a good client, which comes now, has its answer; None where that is another one.
def time_of(server, sent, wanted):
    begun = time.monotonic()
    return time.monotonic() - begun if server.ask(sent) == wanted else None

def is_prompt(took):
    return took is not None and took <= 2

# Runs what a client does with a connection of its own, which says how long it was borne; a good one that comes meanwhile is answered
# at once.
def beside(name, other, least, most, *ends):
    server = Server(3)
    server.put('configurations/Web.mof', bytes(16000000))
    check(name + ', an agent', server.ask(register(1)), answer(204))
    took = []
    with server.connect() as conn:
        thread = threading.Thread(target=lambda: took.append(other(conn)), daemon=True)
        thread.start()
        time.sleep(0.2)
        check(name + ', a good one beside it is answered at once', is_prompt(time_of(server, request('DELETE', node(1)), answer(501))), True)
        thread.join(60)
        check('%s, how long it was borne: %s s' % (name, took), bool(took) and least <= took[0] <= most, True)
    check(name + ', the lines', server.end(), lines('answer 204', *ends))

# How long it takes until the server ends the connection.
def until_ended(conn, each_second=lambda conn: None):
    begun = time.monotonic()
    conn.settimeout(1)
    while True:
        try:
            if not conn.recv(1 << 16):
                break
        except TimeoutError:
            pass
        except OSError:
            break
        try:
            each_second(conn)
        except OSError:
            break
    return time.monotonic() - begun

def dripping(conn):
    return until_ended(conn, lambda conn: conn.sendall(b'G'))

def never_closing(sent):
    def client(conn):
        conn.sendall(sent)
        return until_ended(conn)
    return client

def never_reading():
    server = Server(3)
    server.put('configurations/Web.mof', bytes(16000000))
    check('a client that never reads, an agent', server.ask(register(1)), answer(204))
    with server.connect() as conn:
        conn.sendall(fetch(1, 'Web'))
        begun = time.monotonic()
        time.sleep(0.2)
        check('a client that never reads, a good one after it', is_prompt(time_of(server, request('DELETE', node(1)), answer(501))), True)
        check('a client that never reads, the lines', server.end(), served(204, 200, 501))
        took = time.monotonic() - begun
        check('a client that never reads, how long it was borne: %.1f s' % took, 9 <= took <= 20, True)

# 200 connections, of which 150 are silent and 20 are rude: each of 30 that ask properly has its answer in two seconds, or as many times as long
# as other work makes each of the processors serve at once. What the rude ones do begins a second before that, or right before it.
def a_crowd(name, server, earlier=None, at_once=None):
    most = 2 * max(1, os.getloadavg()[0] / len(os.sched_getaffinity(0)))
    others, stop = [server.connect() for _ in range(20)], threading.Event()
    threads = [threading.Thread(target=earlier, args=(conn, stop), daemon=True) for conn in others if earlier]
    for thread in threads:
        thread.start()
    silent = [server.connect() for _ in range(150)]
    time.sleep(1)
    took = []
    good = [threading.Thread(target=lambda: took.append(time_of(server, fetch(1, 'Web'), content(b'abc')))) for _ in range(30)]
    for number, conn in enumerate(others if at_once else []):
        at_once(conn, number)
    for thread in good:
        thread.start()
    for thread in good:
        thread.join(60)
    slowest = max(took, key=lambda it: 99 if it is None else it, default=None)
    check('%s: each of 30 good ones is answered in %.1f s, the slowest in %s s' % (name, most, slowest), [it is not None and it <= most for it in took],
          [True] * 30)
    stop.set()
    for thread in threads:
        thread.join(60)
    return silent, others

def a_crowd_of_drippers():
    def drips(conn, stop):
        while not stop.wait(1):
            conn.sendall(b'G')
    server = Server(31)
    check('a crowd, an agent', server.ask(register(1)), answer(204))
    silent, others = a_crowd('a crowd, of which 20 send a byte a second', server, earlier=drips)
    for conn in silent + others:
        conn.close()
    check('a crowd, the lines', server.end(), (lines('answer 204', *['answer 200'] * 30)[0] + 'let go 170\n', '', 0))

# Whether what comes is a content of that size, zeros behind these bytes.
def is_whole(conn, front, size):
    zeros, got, count = bytes(1 << 20), b'', 0
    try:
        while b'\r\n\r\n' + front not in got and len(got) < 1000:
            got += conn.recv(1000 - len(got)) or bytes(1000)
        head, _, rest = got.partition(b'\r\n\r\n')
        if not head.startswith(b'HTTP/1.1 200 OK\r\n') or not rest.startswith(front) or not zeros.startswith(rest[len(front):]):
            return False
        count = len(rest)
        for piece in iter(lambda: conn.recv(1 << 20), b''):
            if not zeros.startswith(piece):
                return False
            count += len(piece)
    except OSError:
        return False
    return count == size

# 20 ask for 60 MB when the good ones do, and take nothing until these are answered: for one package, of which the server keeps one copy, and
# for ten, of which it keeps no more than it may. Each gets all in the end.
def a_crowd_that_does_not_read(packages, most):
    name, size = 'a crowd, of which 20 ask for 60 MB of %d packages and do not read' % packages, 60000000
    server = Server(202)
    for number in range(packages):
        server.put('modules/Large_%d.zip' % number, b'%02d' % number)
        os.truncate('%s/modules/Large_%d.zip' % (server.shelf, number), size)
    check(name + ', an agent', server.ask(register(1)), answer(204))
    silent, others = a_crowd(name, server, at_once=lambda conn, number: conn.sendall(module('Large', '%d' % (number % packages))))
    for conn in silent:
        conn.close()
    whole = []
    readers = [threading.Thread(target=lambda conn=conn, number=number: whole.append(is_whole(conn, b'%02d' % (number % packages), size)))
               for number, conn in enumerate(others)]
    for thread in readers:
        thread.start()
    for thread in readers:
        thread.join(120)
    check(name + ', each gets all in the end', whole, [True] * 20)
    check('%s: it takes at most %d MB' % (name, most), most_memory(server) <= most, True)
    for conn in others:
        conn.close()
    check(name + ', one after it', server.ask(request('DELETE', node(1))), answer(501))
    ended = server.end()
    check(name + ', the lines', sorted(line.split(' ', 1)[1] for line in ended[0].splitlines()),
          sorted(['answer 204', 'answer 501'] + ['answer 200'] * 50 + ['torn 0'] * 150))
    check(name + ', its end', ended[1:], ('', 0))

# The most megabytes that the server had in memory.
def most_memory(server):
    with open('/proc/%d/status' % server.process.pid) as status:
        return next(int(line.split()[1]) for line in status if line.startswith('VmHWM:')) / 1000

# Where 256 wait already, the one that has been silent longest is let go.
def too_many():
    server = Server(46)
    check('too many, an agent', server.ask(register(1)), answer(204))
    active = server.connect()
    silent = [server.connect() for _ in range(150)]
    time.sleep(0.5)
    active.sendall(fetch(1, 'Web')[:20])
    silent += [server.connect() for _ in range(149)]
    time.sleep(0.5)
    check('too many: those that have been silent longest are let go', [conn.recv(1) for conn in silent[:44]], [b''] * 44)
    active.sendall(fetch(1, 'Web')[20:])
    check('too many: one that sends is not', all_of(active), content(b'abc'))
    check('too many, the lines', server.end(), (lines('answer 204', *['read fault'] * 44, 'answer 200')[0] + 'let go 255\n', '', 0))
    for conn in silent:
        conn.close()

# A server that may open no more descriptors takes further connections once others have ended.
def no_descriptors():
    server = Server(42, preexec_fn=lambda: resource.setrlimit(resource.RLIMIT_NOFILE, (24, 24)))
    check('no descriptors, an agent', server.ask(register(1)), answer(204))
    silent = [server.connect() for _ in range(40)]
    time.sleep(1)
    check('no descriptors: the server goes on', server.process.poll(), None)
    for conn in silent:
        conn.close()
    check('no descriptors: a good one is answered then', is_prompt(time_of(server, fetch(1, 'Web'), content(b'abc'))), True)
    check('no descriptors, the lines', server.end(), lines('answer 204', *['torn 0'] * 40, 'answer 200'))

# A whole answer arrives, whatever the peer sends after its request.
def whole_answers():
    whole = bytes(range(250)) * 80000
    more = [('a second request', fetch(1, 'Web')), ('a line end', b'\r\n'), ('a megabyte', bytes(1000000))]
    server = Server(1 + 2 * len(more))
    server.put('configurations/Web.mof', whole)
    check('whole answers, an agent', server.ask(register(1)), answer(204))
    for name, after in more:
        check('20 MB, and %s after its request' % name, server.ask(fetch(1, 'Web') + after) == content(whole), True)
        with server.connect() as conn:
            conn.sendall(fetch(1, 'Web'))
            time.sleep(0.3)
            conn.sendall(after)
            check('20 MB, and %s while the answer waits' % name, all_of(conn) == content(whole), True)
    check('whole answers, the lines', server.end(), served(204, *[200] * 2 * len(more)))

def a_slow_reader():
    server = Server(2)
    whole = bytes(range(250)) * 160000
    server.put('configurations/Web.mof', whole)
    check('a slow reader, an agent', server.ask(register(1)), answer(204))
    begun = time.monotonic()
    with socket.socket() as conn:
        conn.setsockopt(socket.SOL_SOCKET, socket.SO_RCVBUF, 1 << 16)
        conn.settimeout(120)
        conn.connect((server.host, server.port))
        conn.sendall(fetch(1, 'Web'))
        got = all_of(conn, 1000000)
    check('a reader of a megabyte a second gets all', got == content(whole) and time.monotonic() - begun > 35, True)
    check('a slow reader, the lines', server.end(), served(204, 200))

def many_at_once():
    server, got = Server(201), []
    check('many at once, an agent', server.ask(register(1)), answer(204))
    threads = [threading.Thread(target=lambda: got.append(server.ask(fetch(1, 'Web')))) for _ in range(200)]
    for thread in threads:
        thread.start()
    for thread in threads:
        thread.join(120)
    check('200 connections at once', got, [content(b'abc')] * 200)
    check('200 connections at once, the lines', server.end(), served(204, *[200] * 200))

# ---- addresses, refusals and faults

def addresses():
    hosts = [('127.0.0.1', 'localhost:%d')]
    try:
        hosts.append(('::1', '[::1]:%d')) if free_port(socket.AF_INET6, '::1') else None
    except OSError:
        pass
    for host, listen in hosts:
        port = free_port()
        server = Server(1, host=host, listen=listen % port, port=port)
        expect('the address ' + listen, (fetch(1, 'Web'), answer(404)), server=server)

def refusals():
    def ends(name, wanted, process):
        out, errors = process.communicate(timeout=60)
        check(name, (out.decode(), errors.decode(), process.returncode), wanted)

    server = Server(1)
    folder = tempfile.mkdtemp(dir=scratch)
    ends('a store in use', ('refused DiskFault\n', '', 4), run(server.store, server.shelf, '127.0.0.1:0', 1))
    ends('a port in use', ('refused DoorFault\n', '', 4), run(folder + '/store', server.shelf, '127.0.0.1:%d' % server.port, 1))
    check('a port in use, the store', events(folder + '/store'), [])
    for listen in ('127.0.0.1:x', '127.0.0.1', '', 'no.such.name.invalid:1'):
        ends('the address %r' % listen, ('refused DoorFault\n', '', 4), run(folder + '/store', server.shelf, listen, 1))
    with open(folder + '/text', 'w') as file:
        file.write('no store at all')
    ends('a text in the place of a store', ('refused NotAStore 0\n', '', 5), run(folder + '/text', server.shelf, '127.0.0.1:0', 1))
    for place in (folder, folder + '/none/store', ''):
        ends('%r in the place of a store' % place, ('refused DiskFault\n', '', 4), run(place, server.shelf, '127.0.0.1:0', 1))
    for count in ('0', '1000001', '-1', 'x', ''):
        ends('%r connections' % count, ('refused Usage\n', '', 2), run(folder + '/new', server.shelf, '127.0.0.1:0', count))
    check('a refusal of the words makes no store', os.path.exists(folder + '/new'), False)
    check('the server in use goes on', server.ask(fetch(1, 'Web')), answer(404))
    check('the server in use, the lines', server.end(), served(404))
    ends('no words', ('refused Usage\n', '', 2), subprocess.Popen([program], stdout=subprocess.PIPE, stderr=subprocess.PIPE))
    ends('a word that is no UTF-8', ('refused Usage\n', '', 2), subprocess.Popen([program.encode(), b'\xff'], stdout=subprocess.PIPE, stderr=subprocess.PIPE))

def a_full_output():
    port, folder = free_port(), tempfile.mkdtemp(dir=scratch)
    with open('/dev/full', 'wb') as full:
        process = run(folder + '/store', folder, '127.0.0.1:%d' % port, 2, stdout=full, stderr=subprocess.PIPE)
    while not listens(port) and process.poll() is None:
        time.sleep(0.005)
    with socket.create_connection(('127.0.0.1', port), 60) as conn:
        conn.sendall(fetch(1, 'Web'))
        check('an answer before the output failed', all_of(conn), answer(404))
    check('an output that is full', (process.communicate(timeout=60)[1], process.returncode), (b'', 4))

# ---- a server that is killed

def killed(number):
    server, acknowledged, jobs = Server(1000000), [], 0
    check('killed, an agent', server.ask(register(1)), answer(204))
    timer = threading.Timer(random.uniform(0, 0.25), server.kill)
    timer.start()
    while True:
        jobs += 1
        try:
            if server.ask(report(1, jobs)) != answer(200):
                break
        except OSError:
            break
        acknowledged.append(jobs)
    timer.join()
    server = Server(2, server.folder)
    kept = events(server.store)
    told = [row(1)] + [kept_report(1, job) for job in acknowledged]
    check('after kill %d: each report that was acknowledged is kept, and at most one more' % number,
          kept in (told, told + [kept_report(1, jobs)]), True)
    check('after kill %d: the agent is there' % number, server.ask(fetch(1, 'Web')), content(b'abc'))
    check('after kill %d: a further report' % number, server.ask(report(1, 1000000)), answer(200))
    check('after kill %d: the lines' % number, server.end(), served(200, 200))
    check('after kill %d: the store' % number, events(server.store), kept + [kept_report(1, 1000000)])

def kills():
    for number in range(1, int(os.environ.get('KILLS', '12')) + 1):
        killed(number)

def a_common_client():
    if not shutil.which('curl'):
        print('skipped: requests by curl, since it is missing', flush=True)
        return
    server = Server(5)
    base = 'http://127.0.0.1:%d/PSDSCPullServer.svc/' % server.port
    body = registration(['Web'])
    def curl(target, *words):
        return subprocess.run(['curl', '-s', '-g', '-i', *words, base + target], capture_output=True, timeout=60).stdout
    check('curl registers', curl(node(1), '-X', 'PUT', '--data-binary', body.decode(), '-H', 'x-ms-date: ' + DATE.decode(),
                                 '-H', 'Authorization: Shared ' + signature(b'k0', body)), answer(204))
    check('curl fetches', curl(node(1, "/Configurations(ConfigurationName='Web')/ConfigurationContent")), content(b'abc'))
    check('curl reports in chunks', curl(node(1, '/SendReport'), '-H', 'Transfer-Encoding: chunked', '--data-binary',
                                         report(1, 5).split(b'\r\n\r\n', 1)[1].decode()), answer(200))
    check('curl asks for the numbers', curl('Fleet'), fleet(compliant=1))
    check('curl asks for a report', curl(node(1, "/Reports(JobId='%s')" % agent(5))), answer(200, report_body(5), ('Content-Type: application/json',)))
    check('curl, the lines', server.end(), served(204, 200, 200, 200, 200))

todo = [a_node, a_fleet, frames, a_shelf, contents_that_change, a_second_bank, a_full_second_bank, long_registrations, many_at_once, too_many, no_descriptors, whole_answers,
        a_crowd_of_drippers, lambda: a_crowd_that_does_not_read(1, 320), lambda: a_crowd_that_does_not_read(10, 720), addresses, refusals, a_full_output, kills, a_common_client]
slow = [lambda: beside('a silent client', until_ended, 9, 14, 'answer 501', 'read fault'),
        lambda: beside('a client that sends a byte a second', dripping, 28, 36, 'answer 501', 'read fault'),
        lambda: beside('a client that never closes', never_closing(request('DELETE', node(1))), 0, 8, 'answer 501', 'answer 501'),
        lambda: beside('a client that never closes, whose request was done', never_closing(report(1, 1)), 0, 2, 'answer 200', 'answer 501'),
        never_reading,
        a_slow_reader]

def guarded(part):
    try:
        part()
    except Exception as error:
        check(getattr(part, '__name__', 'a part'), '%s: %s' % (type(error).__name__, error), 'its end')

threads = [threading.Thread(target=guarded, args=(part,)) for part in slow]
for thread in threads:
    thread.start()
for part in todo:
    guarded(part)
for thread in threads:
    thread.join()
shutil.rmtree(scratch, ignore_errors=True)
print('%d passed, %d failed' % (passed, failed))
sys.exit(1 if failed or not passed else 0)

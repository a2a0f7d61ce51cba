"""Exchanges of `link_calls` with listeners, for checks/link, which says what is run. The argument is the program."""
import hashlib, socket, struct, subprocess, sys, tempfile, threading, time

program = sys.argv[1]
passed = failed = 0
MOST = 67108864

def listener():
    s = socket.socket()
    s.setsockopt(socket.SOL_SOCKET, socket.SO_REUSEADDR, 1)
    s.bind(('127.0.0.1', 0))
    s.listen(5)
    return s

# Takes one connection after the other and serves each, up to the last.
def serving(serve, count=1):
    s = listener()
    def run():
        for _ in range(count):
            conn, _ = s.accept()
            try:
                serve(conn)
            except OSError:
                pass
            conn.close()
        s.close()
    thread = threading.Thread(target=run, daemon=True)
    thread.start()
    return s.getsockname()[1]

def taken(conn, size):
    got = b''
    while len(got) < size:
        piece = conn.recv(65536)
        if not piece:
            break
        got += piece
    return got

def answered(data):
    return 'answer %d %s' % (len(data), hashlib.sha256(data).hexdigest())

# One run of the program: what it must print, and within how many seconds it must end.
def expect(name, wanted, port, requests=('GET',), host='127.0.0.1', connect=2000, exchange=2000, least=0.0, most=1.5):
    global passed, failed
    start = time.monotonic()
    try:
        with tempfile.TemporaryFile('w+') as lines:
            lines.write('\n'.join(requests) + '\n')
            lines.seek(0)
            words = [program, host, str(port), str(connect), str(exchange)]
            run = subprocess.run(words, stdin=lines, capture_output=True, text=True, timeout=120)
        out, status = run.stdout.splitlines(), run.returncode
    except subprocess.TimeoutExpired:
        out, status = ['no end'], None
    took = time.monotonic() - start
    if out == wanted and status == 0 and least <= took <= most:
        passed += 1
    else:
        failed += 1
        print('FAILED', name, 'printed', out, 'status', status, 'seconds %.2f' % took, 'wanted', wanted, least, most)

def whole(data):
    def serve(conn):
        taken(conn, 4)
        conn.sendall(data)
    return serve

# ---- answers
expect('a normal answer', [answered(b'HTTP/1.1 200 OK\r\n\r\nabc')], serving(whole(b'HTTP/1.1 200 OK\r\n\r\nabc')))
expect('an empty answer', [answered(b'')], serving(whole(b'')))
every = bytes(range(256)) * 40
expect('each byte comes through', [answered(every)], serving(whole(every)))
expect('three exchanges, each with its own connection', [answered(b'x')] * 3, serving(whole(b'x'), 3), requests=('abc', 'bcd', 'cdef'))

def in_pieces(conn):
    taken(conn, 4)
    conn.setsockopt(socket.IPPROTO_TCP, socket.TCP_NODELAY, 1)
    for byte in b'HTTP/1.1 200 OK\r\n\r\nmany':
        conn.sendall(bytes([byte]))
        time.sleep(0.01)
expect('an answer in many pieces', [answered(b'HTTP/1.1 200 OK\r\n\r\nmany')], serving(in_pieces))

def echoes(conn):
    conn.sendall(taken(conn, 400001))
request = 'r' * 400000
expect('the whole request is sent', [answered((request + '\n').encode())], serving(echoes), requests=(request,), most=3)

def half_closed(conn):
    taken(conn, 4)
    conn.sendall(b'half')
    conn.shutdown(socket.SHUT_WR)
    time.sleep(1)
expect('a peer that ends its side alone', [answered(b'half')], serving(half_closed))

large = b'y' * (MOST - 1)
expect('one byte fewer than too long', [answered(large)], serving(whole(large)), exchange=30000, most=30)
expect('exactly too long', ['the answer is too long'], serving(whole(large + b'y')), exchange=30000, most=30)

def endless(conn):
    taken(conn, 4)
    while True:
        conn.sendall(b'z' * 65536)
expect('an endless answer', ['the answer is too long'], serving(endless), exchange=30000, most=30)

# ---- failures
s = listener()
refusing = s.getsockname()[1]
s.close()
expect('a port at which nothing listens', ['failed'], refusing)
expect('closed at once', [answered(b'')], serving(lambda conn: conn.shutdown(socket.SHUT_RDWR)))

def reset(conn):
    taken(conn, 4)
    conn.sendall(b'HTTP/1.1 200 OK\r\n')
    conn.setsockopt(socket.SOL_SOCKET, socket.SO_LINGER, struct.pack('ii', 1, 0))
expect('a connection that is reset', ['failed'], serving(reset))

expect('a silent peer', ['failed'], serving(lambda conn: time.sleep(10)), least=1.9, most=3)

def slow(conn):
    taken(conn, 4)
    while True:
        conn.sendall(b's')
        time.sleep(0.2)
expect('a peer that sends a byte now and then', ['failed'], serving(slow), least=1.9, most=3)

# Each byte that comes adds a microsecond: 1.5 MB a second add 1.5 seconds in each, and half a megabyte adds only half a second.
def sends(rate, seconds):
    def serve(conn):
        taken(conn, 4)
        start, sent = time.monotonic(), 0
        while sent < rate * seconds:
            due = min(int(rate * (time.monotonic() - start)), rate * seconds)
            conn.sendall(b'd' * (due - sent))
            sent = due
            time.sleep(0.01)
    return serve
long = answered(b'd' * 4500000)
expect('a long answer takes longer than the limit', [long], serving(sends(1500000, 3)), exchange=1000, least=2.9, most=5)
expect('a peer that sends half as fast as the limit grows', ['failed'], serving(sends(500000, 10)), exchange=1000, least=1.8, most=3)

def takes_a_part(conn):
    taken(conn, 100000)
    conn.sendall(b'HTTP/1.1 200 OK\r\n\r\n')
expect('a part of the request is left unsent', ['failed'], serving(takes_a_part), requests=('q' * 8000000,))

def reads_nothing(conn):
    time.sleep(10)
expect('a peer that never reads', ['failed'], serving(reads_nothing), requests=('q' * 8000000,), least=1.9, most=4)

# A listener whose queue is full takes no further connection.
s = socket.socket()
s.bind(('127.0.0.1', 0))
s.listen(0)
waiting = []
for _ in range(4):
    c = socket.socket()
    c.setblocking(False)
    c.connect_ex(s.getsockname())
    waiting.append(c)
expect('a peer that takes no connection', ['failed'], s.getsockname()[1], connect=1000, exchange=5000, least=0.9, most=2.5)
expect('the limit of the exchange holds for connecting too', ['failed'], s.getsockname()[1], connect=5000, exchange=1000, least=0.9, most=2.5)

# ---- names
expect('a name', [answered(b'n')], serving(whole(b'n')), host='localhost')
expect('a name that is none', ['failed'], 1, host='no.such.name.invalid', most=60)
expect('no host', ['failed'], 1, host='', most=60)

print('%d passed, %d failed' % (passed, failed))
sys.exit(1 if failed else 0)

"""Has each of two servers wait for the rest of a head and for a body, and prints how many clients were let go within 15 seconds, for
checks/package. The arguments are the port with TLS and the one without."""
import select, socket, ssl, sys, time
context = ssl.create_default_context()
context.check_hostname, context.verify_mode = False, ssl.CERT_NONE
waiting, let_go = [], 0
for port, of_tls in ((int(sys.argv[1]), True), (int(sys.argv[2]), False)):
    for sent in (b'POST / HT', b'POST / HTTP/1.1\r\nHost: pull.example.org\r\nContent-Length: 100\r\n\r\nhalf of'):
        client = socket.create_connection(('127.0.0.1', port))
        client = context.wrap_socket(client) if of_tls else client
        client.sendall(sent)
        waiting.append(client)
until = time.monotonic() + 15
while waiting and time.monotonic() < until:
    for client in select.select(waiting, [], [], until - time.monotonic())[0]:
        try:
            more = client.recv(1 << 16)
        except OSError:
            more = b''
        if not more:
            waiting.remove(client)
            let_go += 1
print('let go', let_go)

"""How many of 25 requests of one address, sent at once, are refused for that, for checks/package. The arguments are TLS or PLAIN, and the port."""
import select, socket, ssl, sys
context = ssl.create_default_context()
# without the tickets of TLS 1.3 nothing but an answer can be read
context.check_hostname, context.verify_mode, context.maximum_version = False, ssl.CERT_NONE, ssl.TLSVersion.TLSv1_2
clients = []
for _ in range(25):
    client = socket.create_connection(('127.0.0.1', int(sys.argv[2])))
    clients.append(context.wrap_socket(client) if sys.argv[1] == 'TLS' else client)
for client in clients:
    client.sendall(b'POST / HTTP/1.1\r\nHost: pull.example.org\r\nContent-Length: 100\r\n\r\n')
answered, ready = 0, clients
while ready := select.select(clients, [], [], 1)[0]:
    for client in ready:
        clients.remove(client)
        answered += client.recv(100).startswith(b'HTTP/1.1 429 ')
print(answered)

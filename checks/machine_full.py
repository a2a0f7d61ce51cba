"""Sends reports of 20 KB to the pull server of this machine, for checks/machine: machine_full.py HOST PORT COUNT CODE

Each of COUNT reports is answered CODE, and each query after one 200, wherever the server has to be waited for. It ends with 1 where an answer
is another one, or a server does not come back within 30 seconds."""
import socket
import sys
import time

from protocol import query, report

host, port, count, wanted = sys.argv[1], int(sys.argv[2]), int(sys.argv[3]), sys.argv[4]


def code_of(sent):
    until = time.monotonic() + 30
    while True:
        try:
            with socket.create_connection((host, port), 30) as conn:
                conn.sendall(sent)
                answer = b''.join(iter(lambda: conn.recv(1 << 16), b''))
            if answer:
                return answer.split(b' ', 2)[1].decode()
        except OSError:
            pass
        if time.monotonic() > until:
            sys.exit('the server is away')
        time.sleep(0.05)


for number in range(count):
    for name, sent, code in (('a report', report(16, 1000 + number, 20000), wanted), ('a query', query(16, ('Web', '')), '200')):
        found = code_of(sent)
        if found != code:
            sys.exit('%s is answered %s' % (name, found))

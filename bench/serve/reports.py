#!/usr/bin/env python3
"""Registers an agent and sends COUNT of its reports of 1 KB, each on a connection of its own: reports.py PORT COUNT

It prints the seconds that the reports took, and ends with 1 where one was not answered 200."""
import base64
import hashlib
import hmac
import json
import socket
import sys
import time

port, count = int(sys.argv[1]), int(sys.argv[2])
target = "/PSDSCPullServer.svc/Nodes(AgentId='00000000-0000-0000-0000-000000000001')"


def ask(request):
    for _ in range(1000):
        try:
            conn = socket.create_connection(("127.0.0.1", port), 60)
            break
        except ConnectionRefusedError:
            time.sleep(0.01)
    with conn:
        conn.sendall(request)
        return b"".join(iter(lambda: conn.recv(1 << 16), b""))


def message(method, rest, body, headers=()):
    lines = ["%s %s%s HTTP/1.1" % (method, target, rest), "Host: s", *headers, "Content-Length: %d" % len(body), "", ""]
    return "\r\n".join(lines).encode() + body


def report(job):
    body = {"JobId": "00000000-0000-0000-0000-%012x" % job, "OperationType": "Consistency", "Status": "Success", "StatusData": ["x" * 900]}
    return message("POST", "/SendReport", json.dumps(body).encode())


body = json.dumps({"AgentInformation": {"LCMVersion": "2.0", "NodeName": "n", "IPAddress": ""}, "ConfigurationNames": ["Small"]}).encode()
date = "2026-01-02T03:04:05.0000000Z"
signed = base64.b64encode(hashlib.sha256(body).digest()) + b"\n" + date.encode()
signature = base64.b64encode(hmac.new(b"bench key", signed, hashlib.sha256).digest()).decode()
if not ask(message("PUT", "", body, ["x-ms-date: " + date, "Authorization: Shared " + signature])).startswith(b"HTTP/1.1 204 "):
    sys.exit("the registration was refused")
requests = [report(job) for job in range(count)]
begun = time.monotonic()
for request in requests:
    if not ask(request).startswith(b"HTTP/1.1 200 "):
        sys.exit("another answer")
print("%.4f" % (time.monotonic() - begun))

#!/usr/bin/env python3
"""Registers an agent and fetches a configuration COUNT times, each on a connection of its own, while IDLE more are open and send nothing:
load.py PORT COUNT NAME FOLDER IDLE

It ends with 1 where an answer is not the one that the content asks for."""
import base64
import hashlib
import hmac
import json
import socket
import sys
import time

port, count, name, folder, idle = int(sys.argv[1]), int(sys.argv[2]), sys.argv[3], sys.argv[4], int(sys.argv[5])
target = "/PSDSCPullServer.svc/Nodes(AgentId='00000000-0000-0000-0000-000000000001')"


def connect():
    for _ in range(1000):
        try:
            return socket.create_connection(("127.0.0.1", port), 60)
        except ConnectionRefusedError:
            time.sleep(0.01)
    sys.exit("no server at %d" % port)


def ask(request):
    with connect() as conn:
        conn.sendall(request)
        return b"".join(iter(lambda: conn.recv(1 << 18), b""))


body = json.dumps({"AgentInformation": {"LCMVersion": "2.0", "NodeName": "n", "IPAddress": ""}, "ConfigurationNames": [name]}).encode()
date = "2026-01-02T03:04:05.0000000Z"
signed = base64.b64encode(hashlib.sha256(body).digest()) + b"\n" + date.encode()
signature = base64.b64encode(hmac.new(b"bench key", signed, hashlib.sha256).digest()).decode()
head = "PUT %s HTTP/1.1\r\nHost: s\r\nx-ms-date: %s\r\nAuthorization: Shared %s\r\nContent-Length: %d\r\n\r\n" % (target, date, signature, len(body))
if not ask(head.encode() + body).startswith(b"HTTP/1.1 204 "):
    sys.exit("the registration was refused")
with open("%s/shelf/configurations/%s.mof" % (folder, name), "rb") as file:
    content = file.read()
lines = ["HTTP/1.1 200 OK", "Connection: close", "ProtocolVersion: 2.0", "Content-Type: application/octet-stream",
         "Checksum: " + hashlib.sha256(content).hexdigest().upper(), "ChecksumAlgorithm: SHA-256", "Content-Length: %d" % len(content), "", ""]
wanted = "\r\n".join(lines).encode() + content
fetch = ("GET %s/Configurations(ConfigurationName='%s')/ConfigurationContent HTTP/1.1\r\nHost: s\r\n\r\n" % (target, name)).encode()
silent = [connect() for _ in range(idle)]
for _ in range(count):
    if ask(fetch) != wanted:
        sys.exit("another answer")

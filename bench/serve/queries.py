#!/usr/bin/env python3
"""Queries that name a content of 60 MB once and sixteen times, in turns: queries.py PORT FOLDER TURNS

It prints the least seconds of both, and ends with 1 where an answer is not the one that the content asks for."""
import base64
import hashlib
import hmac
import json
import socket
import sys
import time

port, folder, turns = int(sys.argv[1]), sys.argv[2], int(sys.argv[3])
target = "/PSDSCPullServer.svc/Nodes(AgentId='00000000-0000-0000-0000-000000000001')"


def ask(request):
    for _ in range(1000):
        try:
            conn = socket.create_connection(("127.0.0.1", port), 60)
            break
        except ConnectionRefusedError:
            time.sleep(0.01)
    with conn:
        conn.sendall(request)
        return b"".join(iter(lambda: conn.recv(1 << 18), b""))


def message(method, rest, body, headers=()):
    lines = ["%s %s%s HTTP/1.1" % (method, target, rest), "Host: s", *headers, "Content-Length: %d" % len(body), "", ""]
    return "\r\n".join(lines).encode() + body


body = json.dumps({"AgentInformation": {"LCMVersion": "2.0", "NodeName": "n", "IPAddress": ""}, "ConfigurationNames": ["Huge"]}).encode()
date = "2026-01-02T03:04:05.0000000Z"
signed = base64.b64encode(hashlib.sha256(body).digest()) + b"\n" + date.encode()
signature = base64.b64encode(hmac.new(b"bench key", signed, hashlib.sha256).digest()).decode()
if not ask(message("PUT", "", body, ["x-ms-date: " + date, "Authorization: Shared " + signature])).startswith(b"HTTP/1.1 204 "):
    sys.exit("the registration was refused")
with open(folder + "/shelf/configurations/Huge.mof", "rb") as file:
    digest = hashlib.sha256(file.read()).hexdigest().upper()


def seconds(count):
    client = {"Checksum": digest, "ChecksumAlgorithm": "SHA-256", "ConfigurationName": "Huge"}
    request = message("POST", "/GetDscAction", json.dumps({"ClientStatus": [client] * count}).encode())
    begun = time.monotonic()
    answer = ask(request)
    took = time.monotonic() - begun
    if answer.count(b'"Status":"Ok"') != count:
        sys.exit("another answer")
    return took


taken = [(seconds(1), seconds(16)) for _ in range(turns)]
print("%.4f %.4f" % tuple(min(one) for one in zip(*taken)))

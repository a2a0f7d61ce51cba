#!/usr/bin/env python3
"""Registers 350 agents at a server, has each ask what is new, and sends their reports: load.py PORT PROCESS FOLDER

It prints how many of each were answered in a second, one connection after the other, and the memory of the server; then, with 512 agents,
queries that find nothing new and the fleet's summary in turns. It ends with 1 where an answer is another one."""
import base64
import hashlib
import hmac
import json
import socket
import sys
import time

port, process, folder = int(sys.argv[1]), sys.argv[2], sys.argv[3]
AGENTS = 350
PLACES = 512  # of a store
ROUNDS = 5


def ask(method, agent, rest, body, headers=""):
    return asked(method, "Nodes(AgentId='00000000-0000-4000-8000-%012x')%s" % (agent, rest), body, headers)


def asked(method, rest, body="", headers=""):
    target = "/PSDSCPullServer.svc/" + rest
    request = "%s %s HTTP/1.1\r\nHost: s\r\n%sContent-Length: %d\r\n\r\n%s" % (method, target, headers, len(body), body)
    with socket.create_connection(("127.0.0.1", port), 60) as conn:
        conn.sendall(request.encode())
        return b"".join(iter(lambda: conn.recv(1 << 16), b""))


def register(agent):
    body = json.dumps({"AgentInformation": {"LCMVersion": "2.0", "NodeName": "n%d" % agent}, "ConfigurationNames": ["Small"]})
    date = "2026-01-02T03:04:05.0000000Z"
    signed = base64.b64encode(hashlib.sha256(body.encode()).digest()) + b"\n" + date.encode()
    signature = base64.b64encode(hmac.new(b"bench key", signed, hashlib.sha256).digest()).decode()
    return ask("PUT", agent, "", body, "x-ms-date: %s\r\nAuthorization: Shared %s\r\n" % (date, signature))


with open(folder + "/shelf/configurations/Small.mof", "rb") as file:
    DIGEST = hashlib.sha256(file.read()).hexdigest().upper()
QUERY = json.dumps({"ClientStatus": [{"Checksum": DIGEST, "ConfigurationName": "Small"}]})


def query(agent):
    return ask("POST", agent, "/GetDscAction", QUERY)


def report(agent, job):
    body = {"JobId": "00000000-0000-0000-%04x-%012x" % (job, agent), "OperationType": "Consistency", "Status": "Success", "StatusData": ["x" * 700]}
    return ask("POST", agent, "/SendReport", json.dumps(body))


def rate_of(name, calls, wanted):
    begin, count = time.monotonic(), 0
    for call in calls:
        count += 1
        if not call().startswith(wanted):
            sys.exit("another answer to a " + name)
    return count / (time.monotonic() - begin)


def rate(name, calls, wanted):
    print("%s %.0f a second" % (name, rate_of(name, calls, wanted)), flush=True)


# The best rates of queries that find nothing new and of summaries, in turns, since other work slows both.
def compare():
    agents = range(1, PLACES + 1)
    queries = [lambda agent=agent: query(agent) for agent in agents]
    summaries = [lambda: asked("GET", "Fleet") for _ in agents]
    rounds = [(rate_of("query", queries, b"HTTP/1.1 200 "), rate_of("summary", summaries, b"HTTP/1.1 200 ")) for _ in range(ROUNDS)]
    print("all-queries %.0f a second" % max(round[0] for round in rounds))
    print("summary %.0f a second" % max(round[1] for round in rounds))


agents = range(1, AGENTS + 1)
rate("registration", [lambda agent=agent: register(agent) for agent in agents], b"HTTP/1.1 204 ")
rate("query", [lambda agent=agent: query(agent) for agent in agents for _ in range(10)], b"HTTP/1.1 200 ")
rate("report", [lambda agent=agent, job=job: report(agent, job) for job in range(1, 5) for agent in agents], b"HTTP/1.1 200 ")
with open("/proc/%s/status" % process) as status:
    print("memory", next(line.split()[1] for line in status if line.startswith("VmHWM")), "KB")
rate("rest", [lambda agent=agent: register(agent) for agent in range(AGENTS + 1, PLACES + 1)], b"HTTP/1.1 204 ")
rate("rest", [lambda agent=agent: report(agent, 1) for agent in range(AGENTS + 1, PLACES + 1)], b"HTTP/1.1 200 ")
compare()

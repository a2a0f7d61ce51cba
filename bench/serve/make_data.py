#!/usr/bin/env python3
"""Makes a shelf with contents of 2 KB, 16 MB and 60 MB, a store of 512 agents with four reports of 16 KB each, and one in which 200,000
registrations of theirs come after these: make_data.py FOLDER"""
import os
import sys

folder = sys.argv[1]
os.makedirs(folder + "/shelf/configurations", exist_ok=True)
for name, size in (("Small", 2048), ("Large", 16 << 20), ("Huge", 60 << 20)):
    with open("%s/shelf/configurations/%s.mof" % (folder, name), "wb") as file:
        file.write((b"instance of OMI_ConfigurationDocument{};\n" * (size // 40 + 1))[:size])
with open(folder + "/shelf/keys", "w") as file:
    file.write("bench key\n")


def text(value):
    return len(value).to_bytes(2, "big") + value


def cell(body):
    return b"\xa5" + len(body).to_bytes(4, "big") + body


def registration(agent):
    return b"\1" + agent.to_bytes(16, "big") + text(b"2.0") + text(b"node %d" % agent) + text(b"10.0.0.1") + b"\1" + text(b"Small")


def report(agent, job):
    body = '{"JobId":"00000000-0000-0000-%04x-%012x","Status":"Success","Errors":["%s"]}' % (agent, job, "x" * 16300)
    job = (agent << 48) + job
    return b"\2" + agent.to_bytes(16, "big") + job.to_bytes(16, "big") + body.encode()


def write_store(name, more):
    registrations = [cell(registration(agent)) for agent in range(1, 513)]
    with open(folder + "/" + name, "wb") as file:
        file.write(b"DSCSTOR1")
        file.writelines(registrations)
        for job in range(4):
            for agent in range(1, 513):
                file.write(cell(report(agent, job)))
        file.writelines(registrations[at % 512] for at in range(more))
        file.write(b"\0")


write_store("full", 0)
write_store("registrations", 200000)

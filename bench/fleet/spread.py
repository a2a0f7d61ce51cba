#!/usr/bin/env python3
"""How evenly nginx spreads agents over server processes by `hash $agent consistent`, for docs/DEPLOY.md.

    spread.py                                 the fullest process, for fleets of some sizes and several numbers of processes
    spread.py HOST:PORT,HOST:PORT.. AGENT..   the process of each agent, by its address

The hash is nginx's: a point is the CRC-32 of the host, a zero byte, the port and the point before it, 160 for each process; an agent
belongs to the first point that is not below the CRC-32 of its id."""
import bisect
import random
import sys
import uuid
import zlib


def points(addresses):
    found = []
    for address in addresses:
        host, port = address.rsplit(":", 1)
        base = zlib.crc32(host.encode() + b"\0" + port.encode())
        point = 0
        for _ in range(160):
            point = zlib.crc32(point.to_bytes(4, "little"), base)
            found.append((point, address))
    return sorted(found)


def process_of(ring, agent):
    at = bisect.bisect_left(ring, (zlib.crc32(agent.encode()), ""))
    return ring[at % len(ring)][1]


def fullest(agents, processes, tries):
    ring, most = points(["127.0.8.%d:300" % number for number in range(1, processes + 1)]), 0
    for seed in range(tries):
        source, counts = random.Random(seed), {}
        for _ in range(agents):
            address = process_of(ring, str(uuid.UUID(int=source.getrandbits(128), version=4)))
            counts[address] = counts.get(address, 0) + 1
        most = max(most, max(counts.values()))
    return most


if len(sys.argv) > 1:
    ring = points(sys.argv[1].split(","))
    for agent in sys.argv[2:]:
        print(agent, process_of(ring, agent))
else:
    for agents in (100, 500, 1000, 5000, 10000, 50000):
        for processes in sorted({-(-agents // share) for share in (400, 350, 300)}):
            print("%5d agents, %3d processes: at most %3d on one" % (agents, processes, fullest(agents, processes, 10)))

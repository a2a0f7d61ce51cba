"""Stores that are made for `checks/page` and `bench/page`: a made store is a file with the lines that nimchout-fleet would print of its agents
and of their reports. And a program that prints them in its place, so that what must be shown is known from the rows that were made. A row may
have earlier ones of its machine, as `earlier`, whose reports the store then keeps too."""
import datetime
import hashlib
import json
import os
import random

CLASSES = ["Compliant", "Failed", "Other", "Silent"]
REASONS = ["NotInDesiredState", "HostFailed", "InTheWay", "Skipped"]
PLACES, REPORTS = 512, 4
# A store that is none begins so, and one that makes the program end without its last line has only rows.
PROGRAM = """#!/bin/sh
# Prints a made store as nimchout-fleet prints a real one; each call is a line of CALLS.
[ -z "${CALLS-}" ] || echo "$*" >> "$CALLS"
for store; do :; done
case $(head -c 8 "$store") in 'no store') echo 'refused NotAStore 0'; exit 5 ;; esac
case $1 in
--reports) grep -v '"stale":' "$store" ;;
*) grep -E '"(stale|places)":' "$store" ;;
esac
! grep '"stale":' "$store" | grep -qE '"class":"(Failed|Silent)"|"stale":true'
"""
# What a machine might call itself to be more than a text.
HOSTILE = "</script><img src=x onerror=\"document.title='owned'\"><b>\u202egnp.exe &amp;"


def stated(seconds):
    """A moment as a node states it."""
    return datetime.datetime.fromtimestamp(seconds, datetime.timezone.utc).strftime("%Y-%m-%dT%H:%M:%S.000Z")


def agent(number):
    return f"{hashlib.sha256(str(number).encode()).hexdigest()[:8]}-0000-4000-8000-{number:012x}"


def job(number):
    return f"{number:08x}-1111-4000-8000-000000000000"


def reason(missed):
    return REASONS[len(missed) % len(REASONS)]


def row(store, number, name, of_class, now, age, missed=(), configurations=("Base",), stale=False, run=1):
    """A row whose last report ended `age` seconds ago."""
    silent = of_class == "Silent"
    return {"store": store, "agent": agent(number), "node_name": name, "configurations": list(configurations), "class": of_class, "stale": stale,
            "job": None if silent else job(1000 * number + run), "operation": None if silent else "Consistency",
            "start": None if silent else stated(now - age - 7), "end": None if silent else stated(now - age),
            "not_in_desired_state": [{"id": each, "reason": reason(each)} for each in missed], "count": len(missed)}


def report(each):
    """The line of the last report of a row."""
    return {name: value for name, value in each.items() if name not in ("configurations", "stale", "earlier")}


def kept(each):
    """The lines of the reports that a store keeps of a row's machine, the oldest first: one that comes again takes its own place."""
    reports = {came["job"]: report(came) for came in (*each.get("earlier", ()), each) if came["job"] is not None}
    return list(reports.values())[-REPORTS:]


def made(folder, count, now, seed=1, per_store=350):
    """Makes the stores of so many machines in a folder, and gives all rows."""
    chance, rows = random.Random(seed), []
    for first in range(0, count, per_store):
        path = f"{folder}/store-{first // per_store + 1}"
        mine = [chosen(chance, path, number, now) for number in range(first, min(first + per_store, count))]
        put(path, mine)
        rows += mine
    return rows


def chosen(chance, path, number, now):
    of_class = chance.choices(CLASSES, [88, 6, 1, 5])[0]
    role = chance.choice(["web", "db", "mail", "build", "kiosk"])
    missed = [f"[{chance.choice(['File', 'Command', 'Environment'])}]{chance.choice('ABCDEFGH')}{role}" for _ in range(chance.randint(1, 6))] if of_class == "Failed" else []
    stale = of_class == "Compliant" and chance.random() < 0.03
    age = chance.randint(90000, 900000) if stale else chance.randint(10, 80000)
    name = None if chance.random() < 0.01 else f"{role}{number}"
    last = row(path, number, name, of_class, now, age, sorted(set(missed)), ["Base", role.capitalize()], stale)
    if of_class != "Silent":
        last["earlier"] = [earlier(chance, last, number, now, age + 1800 * before, before) for before in range(chance.randint(0, REPORTS), 0, -1)]
    return last


def earlier(chance, last, number, now, age, before):
    """A row of the same machine that was there so many reports before."""
    of_class = chance.choices([last["class"], *CLASSES[:3]], [70, 15, 10, 5])[0]
    missed = [f"[File]{chance.choice('ABCDEFGH')}"] if of_class == "Failed" else []
    return row(last["store"], number, last["node_name"], of_class, now, age, missed, last["configurations"], last["stale"], 1 + before)


def put(path, rows):
    """Writes a store in place of the one that was there."""
    lines = [{name: value for name, value in each.items() if name != "earlier"} for each in rows]
    lines += [line for each in rows for line in kept(each)]
    with open(path + ".new", "w", encoding="utf-8") as file:
        for line in lines:
            file.write(json.dumps(line, ensure_ascii=False, separators=(",", ":")) + "\n")
        file.write(json.dumps({"store": path, "agents": len(rows), "places": PLACES}, separators=(",", ":")) + "\n")
    os.rename(path + ".new", path)


def program(path):
    """Puts the program there."""
    with open(path, "w", encoding="ascii") as file:
        file.write(PROGRAM)
    os.chmod(path, 0o755)
    return path

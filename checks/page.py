"""The parts of checks/page, which says what is run."""
import base64
import datetime
import functools
import glob
import hashlib
import http.client
import http.server
import json
import os
import re
import shutil
import socket
import ssl
import subprocess
import sys
import tempfile
import threading
import time

import page_stores as stores
import protocol
from browser import Browser, Fault

PAGE, WRITER = "packaging/fleet/index.html", "packaging/scripts/fleet-page"
REAL = os.environ.get("NIMCHOUT_FLEET") or "crates/fleet_program/out/fleet_program"
PICTURES = os.environ.get("SCREENSHOTS") or os.path.join(tempfile.gettempdir(), "nimchout-page")
# How many seconds the browser may take for what it does, beside much other work.
WAIT = 90
passed = failed = 0


def check(name, got, wanted=True):
    global passed, failed
    if got == wanted:
        passed += 1
    else:
        failed += 1
        print(f"FAILED: {name}: {got!r:.700} in place of {wanted!r:.700}", flush=True)


def digested(page):
    """The page with the digests of its style and its script in its policy."""
    for name, tag in (("style", "style"), ("script", "script")):
        text = re.search(f"<{tag}>(.*?)</{tag}>", page, re.DOTALL)[1]
        digest = base64.b64encode(hashlib.sha256(text.encode()).digest()).decode()
        page = re.sub(f"{name}-src 'sha256-[^']*'", f"{name}-src 'sha256-{digest}'", page)
    return page


def page():
    with open(PAGE, encoding="utf-8") as file:
        return file.read()


# ---- what is written


class Fleet:
    """A folder of stores, and one that is written of them."""

    def __init__(self, scratch):
        self.stores, self.folder, self.calls = f"{scratch}/stores", f"{scratch}/fleet", f"{scratch}/calls"
        os.makedirs(self.stores)
        self.program = stores.program(f"{scratch}/nimchout-fleet")

    def put(self, name, rows, age=3600):
        """A store that was written so long ago."""
        path = f"{self.stores}/{name}"
        stores.put(path, rows)
        os.utime(path, (time.time() - age, time.time() - age))

    def write(self, program=None, pattern=None):
        """Runs the writer: its status, what it says, and how the stores were asked for."""
        open(self.calls, "w", encoding="utf-8").close()
        words = {"STORES": pattern or f"{self.stores}/store*", "OLDER": "24", "NIMCHOUT_FLEET": program or self.program, "CALLS": self.calls}
        ended = subprocess.run([sys.executable, WRITER, self.folder], env={**os.environ, **words}, stdout=subprocess.PIPE, stderr=subprocess.STDOUT, text=True, check=False)
        with open(self.calls, encoding="utf-8") as calls:
            return ended.returncode, ended.stdout, calls.read().splitlines()

    def table(self):
        with open(f"{self.folder}/data/fleet.json", encoding="ascii") as file:
            return json.load(file)

    def machines(self):
        """The rows of the table, by the names of their fields."""
        table = self.table()
        return [dict(zip(table["fields"], row)) for row in table["machines"]]

    def reports(self, machine):
        with open(f"{self.folder}/data/machines/{machine['key'][:2]}/{machine['key']}.json", encoding="ascii") as file:
            return json.load(file)["reports"]

    def files(self):
        return glob.glob(f"{self.folder}/data/machines/*/*")


def history(scratch):
    """The reports of one machine over runs: those of the store, which keeps four, also those that came between two runs; and since when it is in
    its class."""
    fleet, now, came = Fleet(scratch), 1795000000, []
    row = functools.partial(stores.row, f"{fleet.stores}/store-1", 7, "web7")

    def seen(*rows):
        """The machine, once the writer has run after these reports of it."""
        came.extend(rows)
        fleet.put("store-1", [{**rows[-1], "earlier": came[:-1]}] if rows else [], 3600 + len(came))
        check("a run of the writer", fleet.write()[:2], (0, ""))
        for machine in fleet.machines():
            check("its reports are those of the store", listed(fleet, machine), newest_first({**rows[-1], "earlier": came[:-1]}))
            return machine

    check("a machine that sent none has no file", (seen(row("Silent", now, 0))["last"], fleet.files()), (None, []))
    machine = seen(row("Failed", now, 900, ["[File]A"], run=1))
    check("its first report", (machine["class"], machine["since"], machine["last"], machine["count"]), ("Failed", now - 900, now - 900, 1))
    machine = seen(row("Failed", now, 600, ["[File]A", "[File]B"], run=2))
    check("the class is since the report that first said so", (machine["since"], machine["last"], machine["count"]), (now - 900, now - 600, 2))
    check("a later one of the same job", seen(row("Compliant", now, 500, run=2))["since"], now - 500)
    check("takes its place", [report["class"] for report in fleet.reports(machine)], ["Compliant", "Failed"])
    check("the class is since one that came between", seen(row("Compliant", now, 490, run=3), row("Failed", now, 480, ["[File]C"], run=4), row("Compliant", now, 470, run=5))["since"], now - 470)
    check("which is listed", [report["job"] for report in fleet.reports(machine)], [stores.job(7000 + run) for run in (5, 4, 3, 2)])
    check("with its resources", fleet.reports(machine)[1]["not_in_desired_state"], [{"id": "[File]C", "reason": stores.reason("[File]C")}])
    check("and its times", [(report["started"], report["ended"]) for report in fleet.reports(machine)], [(now - age - 7, now - age) for age in (470, 480, 490, 500)])
    check("the class is since then", seen(row("Compliant", now, 460, run=6), row("Compliant", now, 450, run=7))["since"], now - 470)
    check("also where more came than are kept", seen(*(row("Compliant", now, 440 - run, run=run) for run in (8, 9, 10, 11, 12)))["since"], now - 470)
    came.clear()
    check("one that was forgotten and came back has no file", (seen(row("Silent", now, 0))["class"], fleet.files()), ("Silent", []))
    seen()
    came.clear()
    check("the first sight of one that sent many", seen(*(row("Failed", now, 440 - run, ["[File]D"], run=run) for run in (13, 14, 15, 16, 17)))["since"], now - 426)
    seen()
    check("one that has left has no file", (fleet.machines(), fleet.files()), ([], []))
    came.clear()
    odd = {**row("Other", now, 0), "job": stores.job(1), "start": "yesterday", "end": "9" * 40}
    machine = seen(odd)
    check("a time that is none", (machine["last"], fleet.reports(machine)[0]["started"]), (None, None))


def newest_first(row):
    """The reports that the store keeps of a row's machine as the page has them, but for the times that are read of them."""
    return [{name: value for name, value in report.items() if name not in ("store", "agent", "node_name")} for report in reversed(stores.kept(row))]


def listed(fleet, machine):
    """The reports of a machine, without the times that were read of them; a machine that has none has no file."""
    if machine["class"] == "Silent":
        return []
    return [{name: value for name, value in report.items() if name not in ("started", "ended")} for report in fleet.reports(machine)]


def reading(scratch):
    """Which stores are read, and what comes of one that cannot be."""
    fleet, now = Fleet(scratch), int(time.time())
    one = stores.row(f"{fleet.stores}/store-1", 1, "web1", "Compliant", now, 60)
    two = stores.row(f"{fleet.stores}/store-2", 2, "web2", "Failed", now, 60, ["[File]A"])
    fleet.put("store-1", [one])
    fleet.put("store-2", [two])
    first = [f"{words} {fleet.stores}/store-{number}" for number in (1, 2) for words in ("--reports", "--older 24")]
    check("each store is read", fleet.write(), (0, "", first))
    check("one that was not written to is not read again", fleet.write(), (0, "", []))
    fleet.put("store-2", [two, stores.row(f"{fleet.stores}/store-2", 3, "web3", "Silent", now, 0)], 1800)
    check("one that was is", fleet.write(), (0, "", first[2:]))
    check("its machines are there", [(machine["name"], machine["class"]) for machine in fleet.machines()], [("web1", "Compliant"), ("web2", "Failed"), ("web3", "Silent")])
    whole = {path: open(path, encoding="utf-8").read() for path in fleet.files() + [f"{fleet.folder}/data/fleet.json"]}
    check("no file that is served has a whole id", [path for path, text in whole.items() if stores.agent(1) in text or stores.agent(2) in text], [])
    check("the rows are for the owner alone", oct(os.stat(f"{fleet.folder}/rows.json").st_mode & 0o777), "0o600")
    for name, text, fault in (("no store", "no store", "nimchout-fleet ended with status 5: refused NotAStore 0"), ("cut", json.dumps(two) + "\n", "what it printed is not whole"),
                              ("short", json.dumps(two) + "\n" + json.dumps({"store": "", "agents": 2, "places": 512}) + "\n", "1 of 2 rows came"), ("empty", "", "what it printed is not whole")):
        with open(f"{fleet.stores}/store-2", "w", encoding="utf-8") as file:
            file.write(text)
        status, said, _ = fleet.write()
        check(f"{name}: it is said", (status, said), (1, f"fleet-page: {fleet.stores}/store-2 could not be read: {fault}\n"))
        check(f"{name}: on the page too", [(store["agents"], store["fault"]) for store in fleet.table()["stores"]], [(1, None), (2, fault)])
        check(f"{name}: its machines stay", len(fleet.machines()), 3)
    check("a program that is not there", fleet.write(f"{scratch}/none")[:2], (1, f"fleet-page: {fleet.stores}/store-2 could not be read: none: No such file or directory\n"))
    check("a store that is not there", fleet.write(pattern=f"{fleet.stores}/store-9")[:2], (1, f"fleet-page: {fleet.stores}/store-9 could not be read: No such file or directory\n"))
    check("no store that fits", (fleet.write(pattern=f"{fleet.stores}/none*")[:2], fleet.machines(), fleet.files()), ((0, ""), [], []))


def real_store(scratch):
    """The real program over a store with three agents, in the form of nimchout-store(5). Of six reports of one, five are of different jobs."""
    if not os.access(REAL, os.X_OK) and not shutil.which(REAL):
        print("skipped: the real program over a real store, since NIMCHOUT_FLEET names none and crates/fleet_program is not built")
        return
    fleet = Fleet(scratch)

    def cell(body):
        return b"\xa5" + len(body).to_bytes(4, "big") + body

    def registered(number):
        texts = b"".join(len(text).to_bytes(2, "big") + text for text in (b"2.0", b"web%d" % number, b"::1", ))
        return b"\1" + bytes(12) + number.to_bytes(4, "big") + texts + b"\1" + b"\0\3Web"

    def reported(number, job, status):
        return b"\2" + bytes(12) + number.to_bytes(4, "big") + bytes(12) + job.to_bytes(4, "big") + protocol.report_body(job, status)

    came = [(11, "Success"), (12, "Failure"), (13, "Failure"), (14, "InProgress"), (12, "Success"), (15, "Success")]
    with open(f"{fleet.stores}/store-1", "wb") as file:
        file.write(b"DSCSTOR1" + b"".join(map(cell, [registered(1), registered(2), registered(3), *(reported(1, *each) for each in came), reported(2, 21, "Failure")])) + b"\0")
    check("a real store is read", fleet.write(os.path.abspath(REAL) if os.path.exists(REAL) else REAL)[:2], (0, ""))
    check("its machines", [(machine["name"], machine["class"], machine["agent"]) for machine in fleet.machines()],
          [(f"web{number}", of_class, "00000000") for number, of_class in ((1, "Compliant"), (2, "Failed"), (3, "Silent"))])
    check("their reports", [[(int(report["job"][-8:], 16), report["class"]) for report in fleet.reports(machine)] for machine in fleet.machines()[:2]],
          [[(15, "Compliant"), (14, "Other"), (13, "Failed"), (12, "Compliant")], [(21, "Failed")]])
    check("its places", [(store["agents"], store["places"]) for store in fleet.table()["stores"]], [(3, 512)])


def by_nginx(scratch):
    """The page as packaging/nginx.conf serves it: for nobody without a password, and without the rows that have whole ids."""
    if not shutil.which("nginx") or not shutil.which("openssl"):
        print("skipped: the page by nginx, since nginx or openssl is missing")
        return
    fleet, port = Fleet(scratch), protocol.free_port()
    fleet.put("store-1", [stores.row(f"{fleet.stores}/store-1", 1, "web1", "Compliant", int(time.time()), 60)])
    fleet.write()
    subprocess.run(["openssl", "req", "-x509", "-newkey", "ec", "-pkeyopt", "ec_paramgen_curve:P-256", "-nodes", "-days", "2", "-subj", "/CN=pull.example.org",
                    "-keyout", f"{scratch}/key", "-out", f"{scratch}/cert"], stderr=subprocess.DEVNULL, check=True)
    with open("packaging/nginx.conf", encoding="utf-8") as file:
        text = file.read()
    for old, new in (("listen 443", f"listen 127.0.0.1:{port}"), ("/etc/ssl/certs/pull.example.org.pem", f"{scratch}/cert"), ("/etc/ssl/private/pull.example.org.key", f"{scratch}/key"),
                     ("/var/log/nginx", scratch), ("/var/cache/nimchout-proxy", scratch), ("/usr/share/nimchout/fleet", os.path.abspath("packaging/fleet")),
                     ("/var/lib/nimchout/fleet", fleet.folder), ("/etc/nginx/nimchout-fleet.users", f"{scratch}/users")):
        check(f"{old} is in nginx.conf", old in text)
        text = text.replace(old, new)
    text = re.sub(r"listen \[.*", "", text)
    temporary = " ".join(f"{name}_temp_path {scratch}/{name};" for name in ("fastcgi", "uwsgi", "scgi"))
    user = "user root;" if os.geteuid() == 0 else ""
    with open(f"{scratch}/nginx.conf", "w", encoding="utf-8") as file:
        file.write(f"daemon off; {user} pid {scratch}/pid; error_log {scratch}/errors; events {{ }} http {{ {temporary} {text} }}")
    with subprocess.Popen(["nginx", "-c", f"{scratch}/nginx.conf"], stderr=subprocess.DEVNULL) as running:
        try:
            if listens(port):
                served(port, scratch, fleet)
            else:
                check("nginx listens", open(f"{scratch}/errors", encoding="utf-8").read(), "")
        finally:
            running.terminate()


def listens(port):
    """Whether something does, within some seconds."""
    for _ in range(300):
        with socket.socket() as link:
            if link.connect_ex(("127.0.0.1", port)) == 0:
                return True
        time.sleep(0.1)
    return False


def served(port, scratch, fleet):
    def asked(path, password=None):
        """The code of an answer, and the answer."""
        link = http.client.HTTPSConnection("127.0.0.1", port, timeout=WAIT, context=ssl._create_unverified_context())  # pylint: disable=protected-access
        words = {} if password is None else {"Authorization": "Basic " + base64.b64encode(f"admin:{password}".encode()).decode()}
        link.request("GET", path, headers={"Host": "pull.example.org", **words})
        answer = link.getresponse()
        answer.text = answer.read()
        link.close()
        return answer

    check("nobody has it before there are passwords", [asked(path, "secret").status for path in ("/fleet/", "/fleet/data/fleet.json")], [403, 403])
    with open(f"{scratch}/users", "w", encoding="ascii") as file:
        file.write("admin:" + subprocess.run(["openssl", "passwd", "-6", "secret"], stdout=subprocess.PIPE, text=True, check=True).stdout)
    check("nobody has it without one", [asked(path).status for path in ("/fleet/", "/fleet/index.html", "/fleet/data/fleet.json")], [401, 401, 401])
    check("nor with a wrong one", asked("/fleet/data/fleet.json", "secrets").status, 401)
    answer = asked("/fleet/", "secret")
    check("the page", (answer.status, answer.text.decode() == page(), answer.getheader("Content-Type")), (200, True, "text/html; charset=utf-8"))
    check("no other page has it in a frame", answer.getheader("Content-Security-Policy"), "frame-ancestors 'none'")
    answer = asked("/fleet/data/fleet.json", "secret")
    check("the data", (answer.status, json.loads(answer.text), answer.getheader("Content-Type").split(";")[0]), (200, fleet.table(), "application/json"))
    key = fleet.machines()[0]["key"]
    check("a machine", asked(f"/fleet/data/machines/{key[:2]}/{key}.json", "secret").status, 200)
    check("and nothing else", [asked(path, "secret").status for path in ("/fleet/rows.json", "/fleet/data/rows.json", "/fleet/data../rows.json", "/fleet/data/machines/", "/fleet/lock")], [404, 404, 404, 403, 404])
    check("the log names it", re.findall(r" - GET (\w+) 200 ", open(f"{scratch}/nimchout.log", encoding="utf-8").read()), ["Page"] * 3)


# ---- the page in a browser


class Site:
    """Serves a folder; `late` is how far the clock of the server is from this one, and with `broken` it gives no data."""

    def __init__(self, folder):
        self.late, self.broken = 0, False
        site = self

        class Handler(http.server.SimpleHTTPRequestHandler):
            protocol_version = "HTTP/1.1"

            def log_message(self, *_):
                pass

            def date_time_string(self, timestamp=None):
                return super().date_time_string(timestamp or time.time() + site.late)

            def do_GET(self):
                if site.broken and self.path.startswith("/data/"):
                    self.send_error(502)
                else:
                    # Moments of files have seconds, and a check writes one more than once in a second.
                    del self.headers["If-Modified-Since"]
                    super().do_GET()

        self.server = http.server.ThreadingHTTPServer(("127.0.0.1", 0), functools.partial(Handler, directory=folder))
        self.address = f"http://127.0.0.1:{self.server.server_port}/"
        threading.Thread(target=self.server.serve_forever, daemon=True).start()


ROWS = """[...document.querySelectorAll('tr.machine')].map(row => [row.querySelector('.name bdi').textContent, row.querySelector('.id').textContent,
    row.cells[1].querySelector('.class').lastChild.textContent, row.cells[1].querySelector('.stale') !== null,
    ...[2, 3].map(place => row.cells[place].querySelector('time')?.dateTime ?? null), row.cells[4].querySelector('b')?.textContent ?? '0',
    [...row.cells[4].querySelectorAll('bdi')].map(id => id.textContent)])"""
# Of all pages of the table the agents, and then the first page again.
LISTED = """(() => { const all = [], next = document.getElementById('next'), previous = document.getElementById('previous');
    for (;;) { all.push(...[...document.querySelectorAll('tr.machine .id')].map(id => id.textContent)); if (next.disabled) break; next.click(); }
    while (!previous.disabled) previous.click();
    return all; })()"""
# The texts whose contrast with what is behind them is less than 4.5 to 1.
FAINT = """(() => { const bright = color => { const [r, g, b] = color.map(part => { part /= 255; return part <= 0.04045 ? part / 12.92 : ((part + 0.055) / 1.055) ** 2.4; }); return 0.2126 * r + 0.7152 * g + 0.0722 * b; };
    const parts = color => color.match(/[0-9.]+/g).map(Number);
    const behind = element => { for (; element; element = element.parentElement) { const color = parts(getComputedStyle(element).backgroundColor); if (color.length < 4 || color[3] === 1) return color.slice(0, 3); } return [255, 255, 255]; };
    return [...document.querySelectorAll('body *')].filter(element => [...element.childNodes].some(node => node.nodeType === 3 && node.data.trim()) && element.checkVisibility() && !element.disabled && !['SCRIPT', 'NOSCRIPT', 'OPTION'].includes(element.tagName))
        .flatMap(element => { const [one, two] = [parts(getComputedStyle(element).color).slice(0, 3), behind(element)].map(bright).sort((a, b) => b - a); const ratio = (one + 0.05) / (two + 0.05); return ratio < 4.5 ? [`${element.className || element.tagName} ${element.textContent.slice(0, 20)} ${ratio.toFixed(2)}`] : []; }); })()"""


def shown(row):
    """A row of the table as the page has to show it, for a machine that was seen once."""
    ids = [missed["id"] for missed in row["not_in_desired_state"]]
    return [row["node_name"] or "(no name)", row["agent"][:8], row["class"], row["stale"], since(row), row["end"], str(row["count"]), ids[:3]]


def since(row):
    """When the first of a machine's newest reports ended that are of its class."""
    moment = None
    for report in reversed(stores.kept(row)):
        if report["class"] != row["class"]:
            break
        moment = report["end"]
    return moment


def by_name(row):
    """Made names are letters and a number; a machine without one comes last."""
    parts = re.fullmatch(r"([a-z]+)(\d+)", row["node_name"] or "")
    return (0, parts[1], int(parts[2])) if parts else (1, "", 0, row["agent"][:8])


def ordered(rows, column, down):
    """The rows in the order of a column, those that are equal by name. A machine whose time is not known is before all times."""
    rank = {"Failed": 0, "Other": 2, "Silent": 4, "Compliant": 6}
    keys = {"name": lambda row: 0, "class": lambda row: rank[row["class"]] + (not row["stale"]), "last": lambda row: row["end"] or "", "count": lambda row: row["count"]}
    rows = sorted(rows, key=by_name, reverse=column == "name" and down)
    return rows if column == "name" else sorted(rows, key=keys[column], reverse=down)


def click(browser, selector):
    browser.value(f"document.querySelector({json.dumps(selector)}).click()")


def fill(browser, field, text):
    browser.value(f"(() => {{ const field = document.getElementById('{field}'); field.value = {json.dumps(text)}; field.dispatchEvent(new Event('input')); }})()")


def text_of(browser, selector):
    return browser.value(f"document.querySelector({json.dumps(selector)}).textContent")


def opened(browser, site, hash_=""):
    browser.open(site.address + hash_)
    browser.until("typeof state !== 'undefined' && (state.data !== null || state.fault !== null)", WAIT)


def again(browser):
    """Has the page fetch its data once more, as it does each minute."""
    browser.value("refresh()")


def counted(browser):
    return dict(browser.value("[...document.querySelectorAll('#chips button')].map(chip => [chip.dataset.chip, chip.querySelector('b').textContent])"))


def site_of(fleet):
    shutil.copy(PAGE, f"{fleet.folder}/index.html")
    return Site(fleet.folder)


def no_machine(browser, scratch):
    fleet = Fleet(scratch)
    fleet.write()
    opened(browser, site_of(fleet))
    check("no machine", text_of(browser, "#headline"), "No machine has registered yet.")
    check("no row", browser.value(ROWS), [])
    check("all counts are 0", counted(browser), {name: "0" for name in ("Compliant", "Failed", "Other", "Silent", "Stale")})
    check("what will be listed", text_of(browser, "#empty"), "A machine is listed here once it has registered with a pull server.")
    browser.picture(f"{PICTURES}/none.png")


def without_reports(browser, scratch):
    """A machine that sent none, and one whose last report is none that can be read."""
    fleet, now = Fleet(scratch), int(time.time())
    path = f"{fleet.stores}/store-1"
    fleet.put("store-1", [stores.row(path, 1, "web1", "Silent", now, 0), {**stores.row(path, 2, "web2", "Silent", now, 0), "class": "Other"}])
    fleet.write()
    opened(browser, site_of(fleet))
    for name, text in (("web2", "No report of it was seen that can be read."), ("web1", "It has sent no report yet.")):
        browser.value(f"[...document.querySelectorAll('.name')].find(button => button.textContent === '{name}').click()")
        browser.until("document.querySelector('.detail .facts') !== null", WAIT)
        check(f"{name} is opened", text_of(browser, ".detail td > p"), text)
    browser.complaints[:] = [said for said in browser.complaints if "404" not in said]


def three_machines(browser, scratch):
    """What is hostile is shown as it is; the reports of a machine, while more come; how old the data is."""
    fleet, now = Fleet(scratch), int(time.time())
    row = functools.partial(stores.row, f"{fleet.stores}/store-1")
    bad = row(1, stores.HOSTILE, "Failed", now, 4000, [stores.HOSTILE, "[File]B"], [stores.HOSTILE])
    bad["not_in_desired_state"][0]["reason"] = bad["operation"] = stores.HOSTILE
    rows = [bad, row(2, "web2", "Compliant", now, 60), row(3, None, "Silent", now, 0)]
    fleet.put("store-1", rows)
    fleet.write()
    site = site_of(fleet)
    opened(browser, site)
    # what a report cannot say is when the machine that sent none was first seen
    found = {row[1]: row for row in browser.value(ROWS)}
    for each in rows[:2]:
        check("a machine of three", found[each["agent"][:8]], shown(each)[:4] + [each["end"]] * 2 + shown(each)[6:])
    check("a silent one", found[rows[2]["agent"][:8]][:4], ["(no name)", rows[2]["agent"][:8], "Silent", False])
    check("counts of three", counted(browser), {"Compliant": "1", "Failed": "1", "Other": "0", "Silent": "1", "Stale": "0"})
    check("the headline", text_of(browser, "#headline"), "1 of 3 machines is compliant by a report of the last 24 hours.")
    key = next(machine["key"] for machine in fleet.machines() if machine["class"] == "Failed")
    click(browser, f'tr[data-key="{key}"] button')
    browser.until("document.querySelector('.detail table') !== null", WAIT)
    check("its report", browser.value("[...document.querySelectorAll('.detail tbody tr')].map(row => [row.cells[2].textContent, [...row.querySelectorAll('.missed bdi')].map(each => each.textContent)])"),
          [["7 seconds", [stores.HOSTILE, stores.HOSTILE, "[File]B", bad["not_in_desired_state"][1]["reason"]]]])
    check("its configuration", browser.value("document.querySelector('.detail dd bdi').textContent"), stores.HOSTILE)
    check("nothing of it is more than text", browser.value("[document.querySelectorAll('main img, main script, main b b').length, document.title.startsWith('Fleet')]"), [0, True])
    browser.picture(f"{PICTURES}/hostile.png")
    more_reports(browser, fleet, now, rows, key)
    ages(browser, fleet, site)


def more_reports(browser, fleet, now, rows, key):
    """Reports that come while the machine's are open: they are listed, the key stays where it is."""
    browser.value(f"document.querySelector('tr[data-key=\"{key}\"] button').focus()")
    for run in range(2, 7):
        before = [*rows[0].get("earlier", ()), rows[0]]
        rows[0] = {**stores.row(f"{fleet.stores}/store-1", 1, "web1", "Failed", now, 4000 - run, [f"[File]{run}"], run=run), "earlier": before}
        fleet.put("store-1", rows, 3600 - run)
        fleet.write()
    # the page takes what was written in another second
    browser.value("state.data.written--")
    again(browser)
    browser.until("document.querySelectorAll('.detail .missed').length === 4", WAIT)
    check("the last four of six", browser.value("[...document.querySelectorAll('.detail .missed bdi:first-child')].map(each => each.textContent)"), [f"[File]{run}" for run in (6, 5, 4, 3)])
    check("the keys are where they were", browser.value("document.activeElement.closest('tr')?.dataset.key"), key)
    click(browser, f'tr[data-key="{key}"] button')
    check("it is closed again", browser.value("[document.querySelectorAll('.detail').length, document.querySelectorAll('[aria-expanded=true]').length]"), [0, 0])


def ages(browser, fleet, site):
    """How old the data is, by the server's clock; a server that does not answer, and a store that could not be read."""
    table = fleet.table()

    def written(ago, late=0, **more):
        site.late = late
        with open(f"{fleet.folder}/data/fleet.json", "w", encoding="ascii") as file:
            json.dump({**table, **more, "written": int(time.time()) + late - ago}, file)
        opened(browser, site)
        return browser.value("[document.getElementById('age').className, document.querySelector('#age [role=status]').textContent, document.querySelectorAll('#warnings li').length]")

    check("new data", written(2), ["age fresh", "Up to date", 0])
    for late in (-7200, 7200):
        check("new data, where the clocks differ", written(2, late), ["age fresh", "Up to date", 0])
    check("data of some minutes", written(400), ["age late", "Late", 0])
    check("its age in words", text_of(browser, "#age span:last-child"), "written 6 minutes ago")
    check("data of an hour", written(3700), ["age old", "Old", 1])
    browser.picture(f"{PICTURES}/old.png")
    store = {**table["stores"][0], "fault": "<i>disk</i>"}
    check("a store that was not read", written(2, stores=[store]), ["age fresh", "Up to date", 1])
    check("is a warning", text_of(browser, "#warnings li").startswith(f"A store could not be read: {store['store']}, <i>disk</i>. Its 3 machines are shown as of "))
    check("a store that is nearly full", written(2, stores=[{**store, "fault": None, "agents": 500}]), ["age fresh", "Up to date", 1])
    site.broken = True
    again(browser)
    check("a server that fails", browser.value("[document.getElementById('age').className, document.querySelectorAll('tr.machine').length, document.getElementById('warnings').textContent.includes('the server answered 502')]"), ["age late", 3, True])
    browser.complaints[:] = [text for text in browser.complaints if "502" not in text]
    site.broken = False


def many_machines(browser, scratch):
    """5,000 machines: counts, orders and filters as the made rows say."""
    fleet, now = Fleet(scratch), int(time.time())
    rows = stores.made(fleet.stores, 5000, now)
    check("5,000 are written", fleet.write()[:2], (0, ""))
    wanted = {row["agent"][:8]: newest_first(row) for row in rows}
    check("the reports of each are those of its store", [machine["name"] for machine in fleet.machines() if listed(fleet, machine) != wanted[machine["agent"]]], [])
    check("some have four", sum(len(reports) == 4 for reports in wanted.values()) > 1000)
    opened(browser, site_of(fleet))
    classes = {name: sum(row["class"] == name for row in rows) for name in stores.CLASSES}
    check("counts of 5,000", counted(browser), {**{name: f"{count:,}" for name, count in classes.items()}, "Stale": str(sum(row["stale"] for row in rows))})
    check("the bar in words", browser.value("document.getElementById('bar').getAttribute('aria-label')").startswith(f"Compliant {classes['Compliant']:,} ("))
    silent = [row["agent"][:8] for row in rows if row["class"] == "Silent"]
    found = [row for row in browser.value(ROWS) if row[1] not in silent]
    check("the first page", found, [shown(row) for row in ordered(rows, "class", False)[:50]])
    check("all pages", browser.value(LISTED), [row["agent"][:8] for row in ordered(rows, "class", False)])
    for column, first in (("name", False), ("count", True), ("last", True), ("class", False)):
        for down in (first, not first):
            click(browser, f"[data-sort={column}]")
            check(f"by {column}{', down' if down else ''}", browser.value("[...document.querySelectorAll('tr.machine .id')].map(id => id.textContent)"), [row["agent"][:8] for row in ordered(rows, column, down)[:50]])
    check("the column says so", browser.value("[...document.querySelectorAll('#heads th')].map(head => head.getAttribute('aria-sort'))"), [None, "descending", None, None, None])
    click(browser, "[data-sort=class]")
    browser.picture(f"{PICTURES}/many.png")
    filters(browser, rows, now)
    kept_address(browser, rows)
    looks(browser)


def filters(browser, rows, now):
    def is_listed(name, test):
        wanted = [row["agent"][:8] for row in ordered(rows, "class", False) if test(row)]
        check(f"{name}: the machines", browser.value(LISTED), wanted)
        check(f"{name}: how many", text_of(browser, "#found"), f"{len(wanted):,} of 5,000 machines" if len(wanted) < 5000 else "all 5,000 machines")

    def age(row):
        return now - datetime.datetime.fromisoformat(since(row)).timestamp() if row["end"] else 0

    click(browser, "[data-chip=Failed]")
    is_listed("failed", lambda row: row["class"] == "Failed")
    click(browser, "[data-chip=Other]")
    is_listed("failed and others", lambda row: row["class"] in ("Failed", "Other"))
    fill(browser, "resource", "[file]B")
    is_listed("with a resource", lambda row: any("[file]b" in missed["id"].lower() for missed in row["not_in_desired_state"]))
    fill(browser, "text", "WEB1")
    is_listed("with a name", lambda row: "web1" in (row["node_name"] or "") and any("[file]b" in missed["id"].lower() for missed in row["not_in_desired_state"]))
    click(browser, "#filters [type=reset]")
    browser.until("document.getElementById('found').textContent.startsWith('all')", WAIT)
    check("no class is chosen", browser.value("document.querySelectorAll('#chips [aria-pressed=true]').length"), 0)
    click(browser, "[data-chip=Stale]")
    is_listed("stale", lambda row: row["stale"])
    click(browser, "[data-chip=Stale]")
    click(browser, "[data-chip=Silent]")
    fill(browser, "text", "mail")
    is_listed("by a configuration", lambda row: row["class"] == "Silent" and "Mail" in row["configurations"])
    click(browser, "[data-chip=Silent]")
    fill(browser, "text", rows[4]["agent"][:8])
    is_listed("by an agent", lambda row: row["agent"].startswith(rows[4]["agent"][:8]))
    fill(browser, "text", "nobody")
    check("none that fits", text_of(browser, "#empty"), "No machine fits these filters.")
    fill(browser, "text", "")
    # the page looks some time after the ages were made
    fill(browser, "since", "3600")
    found, passed_since = set(browser.value(LISTED)), time.time() - now
    check("for less than an hour: none that is older", found - {row["agent"][:8] for row in rows if age(row) < 3600}, set())
    check("and each that is younger", {row["agent"][:8] for row in rows if age(row) + passed_since < 3600} - found, set())
    fill(browser, "since", "-86400")
    is_listed("for a day or more", lambda row: age(row) >= 86400)
    fill(browser, "since", "")


def kept_address(browser, rows):
    """The address has the filters and the order, and what else may stand there is ignored."""
    click(browser, "[data-chip=Failed]")
    fill(browser, "text", "kiosk")
    click(browser, "[data-sort=count]")
    address = browser.value("location.href")
    wanted = [row["agent"][:8] for row in ordered(rows, "count", True) if row["class"] == "Failed" and "Kiosk" in row["configurations"]]
    check("before", browser.value(LISTED), wanted)
    browser.picture(f"{PICTURES}/filtered.png")
    browser.open(address)
    browser.until("typeof state !== 'undefined' && state.data !== null", WAIT)
    check("the same from the address", browser.value(LISTED), wanted)
    browser.open(address.partition("#")[0] + "#class=%3Cb%3E&sort=toString&since=1e9&page=-3")
    browser.until("typeof state !== 'undefined' && state.data !== null", WAIT)
    check("an address that says nothing", (text_of(browser, "#found"), browser.value("[state.sort, document.getElementById('since').selectedIndex]")), ("all 5,000 machines", ["class", 0]))


def looks(browser):
    """In light and in dark, wide and narrow, with a machine open; each text can be read."""
    click(browser, "tr.machine button")
    browser.until("document.querySelector('.detail table') !== null", WAIT)
    for scheme in ("light", "dark"):
        browser.looks(1280, 1000, scheme)
        check(f"{scheme}: no text is faint", browser.value(FAINT), [])
        browser.picture(f"{PICTURES}/open-{scheme}.png")
    backs = browser.value("getComputedStyle(document.body).backgroundColor")
    browser.looks(420, 900)
    check("light is not dark", browser.value("getComputedStyle(document.body).backgroundColor") != backs)
    check("a narrow page is not wider than its window", browser.value("document.documentElement.scrollWidth <= 420"))
    browser.picture(f"{PICTURES}/narrow.png")
    browser.looks()


def by_keys(browser, scratch):
    """The page by keys alone, and what a screen reader is told."""
    fleet, now = Fleet(scratch), int(time.time())
    row = functools.partial(stores.row, f"{fleet.stores}/store-1")
    fleet.put("store-1", [row(1, "web1", "Failed", now, 4000, ["[File]A"]), row(2, "web2", "Compliant", now, 90000, stale=True), row(3, "db3", "Silent", now, 0)])
    fleet.write()
    opened(browser, site_of(fleet))
    where = "(({id, dataset, tagName, textContent}) => id || dataset.chip || dataset.sort || (tagName === 'BUTTON' ? textContent : tagName))(document.activeElement)"

    def go(to, back=False):
        """Goes on by Tab until the keys are there."""
        for _ in range(25):
            browser.key("Tab", back)
            if browser.value(where) == to:
                return
        raise Fault(f"no stop at {to}")

    stops = []
    for _ in range(20):
        browser.key("Tab")
        stops.append(browser.value(where))
    chips, heads = ["Compliant", "Silent", "Other", "Failed", "Stale"], ["name", "class", "since", "last", "count"]
    check("each control has a stop, in their order", stops, ["A", *chips, "text", "resource", "since", "Show all", "DIV", *heads, "web1", "db3", "web2", "SUMMARY"])
    heard(browser)
    go("web2", back=True)
    browser.key("Enter")
    browser.until("document.querySelector('.detail table') !== null", WAIT)
    check("Enter opens a machine", browser.value("[document.activeElement.textContent, document.activeElement.getAttribute('aria-expanded'), document.activeElement.getAttribute('aria-controls') === document.querySelector('.detail').id]"), ["web2", "true", True])
    browser.key(" ")
    check("and the space bar closes it", browser.value("[document.activeElement.textContent, document.activeElement.getAttribute('aria-expanded')]"), ["web2", "false"])
    go("name", back=True)
    browser.key("Enter")
    check("Enter sorts", browser.value("[document.activeElement.closest('th').getAttribute('aria-sort'), ...[...document.querySelectorAll('.name')].map(name => name.textContent)]"), ["ascending", "db3", "web1", "web2"])
    go("text", back=True)
    browser.type("web")
    check("what is typed filters", text_of(browser, "#found"), "2 of 3 machines")
    go("Stale", back=True)
    browser.key(" ")
    check("the space bar chooses a class", (browser.value("document.activeElement.getAttribute('aria-pressed')"), text_of(browser, "#found")), ("true", "1 of 3 machines"))
    go("Show all")
    browser.key("Enter")
    browser.until("document.getElementById('found').textContent === 'all 3 machines'", WAIT)


def heard(browser):
    """What a screen reader has of the page."""
    nodes = browser.heard()
    check("what takes the keys has a name", [node for node in nodes if node[2].get("focusable") and not node[1]], [])
    names = {}
    for role, name, _ in nodes:
        names.setdefault(role, []).append(name)
    check("the heads", names.get("heading"), ["Fleet", "Summary", "Machines"])
    check("the bar", names.get("image") or names.get("img"), ["Compliant 1 (1 stale), Silent 1, Other 0, Failed 1"])
    check("the fields", (names.get("searchbox"), names.get("combobox")), (["Machine or configuration", "Resource not in the desired state"], ["In its class"]))
    check("the table", names.get("table"), ["Machines by class, page 1 of 1"])
    check("its columns", names.get("columnheader"), ["Machine", "Class", "In its class since", "Last report", "Not in the desired state"])
    check("its rows begin with the machine", [name.split()[0] for name in names.get("rowheader", [])], ["web1", "db3", "web2"])
    check("its classes are words", [name for name in names.get("cell", names.get("gridcell", [])) if name in ("Failed", "Silent", "Compliant stale")], ["Failed", "Silent", "Compliant stale"])
    pressed = [(name, each["pressed"]) for role, name, each in nodes if "pressed" in each]
    check("the classes can be chosen", pressed, [("Compliant 1", "false"), ("Silent 1", "false"), ("Other 0", "false"), ("Failed 1", "false"), ("Stale 1", "false")])


PARTS = [no_machine, without_reports, three_machines, many_machines, by_keys]


def main():
    if sys.argv[1:] == ["digests"]:
        text = digested(page())
        with open(PAGE, "w", encoding="utf-8") as file:
            file.write(text)
        return 0
    scratch = tempfile.mkdtemp()
    try:
        check("the page has the digests of its style and its script: checks/page digests", page() == digested(page()))
        check("the page names nothing from elsewhere", re.findall(r"(?:src|href|url)\s*[=(]\s*[\"']?(?!data:|#)[^\s\"')]+", page().replace("w3.org", "")), [])
        for part in (history, reading, real_store, by_nginx):
            part(f"{scratch}/{part.__name__}")
        in_browser(scratch)
    finally:
        shutil.rmtree(scratch, ignore_errors=True)
    print(f"{passed} passed, {failed} failed")
    return 1 if failed else 0


def in_browser(scratch):
    if not shutil.which("chromium"):
        print("skipped: the page in a browser, since there is no chromium, and it could not be installed")
        return
    os.makedirs(PICTURES, exist_ok=True)
    browser = Browser(timeout=WAIT)
    try:
        browser.looks()
        for part in PARTS:
            try:
                part(browser, f"{scratch}/{part.__name__}")
            except Fault as fault:
                check(f"{part.__name__} ends", str(fault), "its end")
        check("nothing from elsewhere was asked for", {address.split("/")[2].split(":")[0] for address in browser.requests if address.startswith("http")}, {"127.0.0.1"})
        check("the browser complains of nothing", [text for text in browser.complaints if "favicon" not in text], [])
    finally:
        browser.close()


if __name__ == "__main__":
    sys.exit(main())

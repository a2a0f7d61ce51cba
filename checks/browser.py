"""A headless Chromium that is driven through two pipes, by the messages of its own protocol for tools: a page is opened, asked and used by keys,
and pictures are taken of it. It reaches nothing but this machine."""
import base64
import json
import os
import select
import shutil
import subprocess
import tempfile
import time

WORDS = ["--headless=new", "--no-sandbox", "--disable-gpu", "--disable-ipc-flooding-protection", "--disable-dev-shm-usage", "--no-first-run", "--disable-background-networking", "--disable-component-update",
         "--disable-sync", "--disable-extensions", "--hide-scrollbars", "--host-resolver-rules=MAP * ~NOTFOUND, EXCLUDE 127.0.0.1", "--remote-debugging-pipe", "about:blank"]
KEYS = {"Tab": 9, "Enter": 13, "Escape": 27, " ": 32}


class Fault(Exception):
    """What the browser did not do."""


class Browser:
    """One page of a browser. `requests` are the addresses that it asked for, `complaints` what its console says."""

    def __init__(self, program="chromium", timeout=60):
        self.folder = tempfile.mkdtemp()
        self.timeout, self.number, self.left, self.events = timeout, 0, b"", []
        self.requests, self.complaints = [], []
        taken, self.out = os.pipe()
        self.into, given = os.pipe()
        # the browser reads at descriptor 3 and writes at 4
        command = ["sh", "-c", 'exec 3<&"$1" 4>&"$2"; shift 2; exec "$@"', "browser", str(taken), str(given), program, *WORDS, f"--user-data-dir={self.folder}/profile"]
        with open(f"{self.folder}/log", "wb") as log:
            self.process = subprocess.Popen(command, pass_fds=[taken, given], stdin=subprocess.DEVNULL, stdout=log, stderr=log)
        os.close(taken)
        os.close(given)
        target = self.call("Target.createTarget", url="about:blank", session=None)["targetId"]
        self.session = self.call("Target.attachToTarget", targetId=target, flatten=True, session=None)["sessionId"]
        for part in ("Page", "Runtime", "Network", "Log", "Accessibility"):
            self.call(f"{part}.enable")

    def message(self):
        """The next message of the browser."""
        end = time.monotonic() + self.timeout
        while b"\0" not in self.left:
            if not select.select([self.into], [], [], max(0, end - time.monotonic()))[0]:
                raise Fault("the browser does not answer")
            piece = os.read(self.into, 1 << 20)
            if not piece:
                raise Fault("the browser ended")
            self.left += piece
        first, _, self.left = self.left.partition(b"\0")
        return json.loads(first)

    def note(self, message):
        given = message.get("params", {})
        if message.get("method") == "Network.requestWillBeSent":
            self.requests.append(given["request"]["url"])
        elif message.get("method") == "Log.entryAdded":
            self.complaints.append(given["entry"]["text"])
        elif message.get("method") == "Runtime.exceptionThrown":
            self.complaints.append(given["exceptionDetails"].get("exception", {}).get("description") or given["exceptionDetails"]["text"])

    def call(self, method, session=..., **params):
        self.number += 1
        words = {"id": self.number, "method": method, "params": params}
        if session is ...:
            words["sessionId"] = self.session
        os.write(self.out, json.dumps(words).encode() + b"\0")
        while (message := self.message()).get("id") != self.number:
            self.note(message)
        if "error" in message:
            raise Fault(f"{method}: {message['error']['message']}")
        return message["result"]

    def value(self, expression):
        """What an expression of the page comes to, in the world of its scripts."""
        found = self.call("Runtime.evaluate", expression=expression, returnByValue=True, awaitPromise=True)
        if "exceptionDetails" in found:
            raise Fault(found["exceptionDetails"]["exception"].get("description", "an exception"))
        return found["result"].get("value")

    def until(self, expression, seconds=30):
        """Waits until an expression is true."""
        end = time.monotonic() + seconds
        while not self.value(expression):
            if time.monotonic() > end:
                raise Fault(f"after {seconds} seconds not so: {expression}")
            time.sleep(0.02)

    def open(self, address):
        """Opens a page anew, also where the same one is open."""
        self.call("Page.navigate", url="about:blank")
        self.call("Page.navigate", url=address)

    def key(self, key, shift=False):
        text = {"Enter": "\r", " ": " "}.get(key, key if len(key) == 1 else "")
        words = {"key": key, "code": "Space" if key == " " else key, "windowsVirtualKeyCode": KEYS.get(key, 0), "modifiers": 8 if shift else 0}
        self.call("Input.dispatchKeyEvent", type="keyDown", text=text, **words)
        self.call("Input.dispatchKeyEvent", type="keyUp", **words)

    def type(self, text):
        self.call("Input.insertText", text=text)

    def looks(self, width=1280, height=900, scheme="light"):
        self.call("Emulation.setDeviceMetricsOverride", width=width, height=height, deviceScaleFactor=1, mobile=False)
        self.call("Emulation.setEmulatedMedia", features=[{"name": "prefers-color-scheme", "value": scheme}])

    def picture(self, path):
        with open(path, "wb") as file:
            file.write(base64.b64decode(self.call("Page.captureScreenshot", format="png")["data"]))

    def heard(self):
        """What a screen reader is told: the role, the name and the properties of each thing."""
        nodes = self.call("Accessibility.getFullAXTree")["nodes"]
        return [(node["role"]["value"], node.get("name", {}).get("value", ""), {each["name"]: each["value"].get("value") for each in node.get("properties", [])})
                for node in nodes if not node["ignored"]]

    def close(self):
        self.process.terminate()
        try:
            self.process.wait(10)
        except subprocess.TimeoutExpired:
            self.process.kill()
            self.process.wait()
        for descriptor in (self.out, self.into):
            os.close(descriptor)
        shutil.rmtree(self.folder, ignore_errors=True)

"""Drives Chromium by the WebDriver protocol, without a library."""
import base64
import json
import shutil
import socket
import subprocess
import tempfile
import time
import urllib.request

KEYS = {"ArrowLeft": "\ue012", "ArrowUp": "\ue013", "ArrowRight": "\ue014", "ArrowDown": "\ue015", "PageUp": "\ue00e", "PageDown": "\ue00f",
        "End": "\ue010", "Home": "\ue011", "Escape": "\ue00c", "Shift": "\ue008", "Tab": "\ue004", "Space": " ",
        "Enter": "\ue007"}


class Driver:
    def __init__(self, width=1600, height=1000):
        self.folder = tempfile.mkdtemp(prefix="page-test-")
        with socket.socket() as s:
            s.bind(("127.0.0.1", 0))
            port = s.getsockname()[1]
        self.root = "http://127.0.0.1:%d" % port
        self.process = subprocess.Popen(["chromedriver", "--port=%d" % port], stdout=subprocess.DEVNULL, stderr=subprocess.DEVNULL)
        for _ in range(300):
            try:
                self.call("GET", "/status")
                break
            except OSError:
                time.sleep(.1)
        args = ["--headless=new", "--no-sandbox", "--disable-gpu", "--disable-dev-shm-usage", "--no-first-run", "--disable-extensions",
                "--disable-background-networking", "--hide-scrollbars=false", "--force-device-scale-factor=1",
                "--user-data-dir=" + self.folder, "--window-size=%d,%d" % (width, height)]
        wanted = {"browserName": "chrome", "goog:chromeOptions": {"args": args, "binary": shutil.which("chromium") or "chromium"},
                  "goog:loggingPrefs": {"browser": "ALL"}}
        answer = self.call("POST", "/session", {"capabilities": {"alwaysMatch": wanted}})
        self.session = "/session/" + answer["sessionId"]

    def call(self, method, path, data=None):
        """Returns the value that the driver answers."""
        body = None if data is None else json.dumps(data).encode()
        request = urllib.request.Request(self.root + path, body, {"Content-Type": "application/json"}, method=method)
        try:
            with urllib.request.urlopen(request, timeout=180) as answer:
                return json.loads(answer.read())["value"]
        except urllib.error.HTTPError as error:
            raise RuntimeError("%s %s: %s" % (method, path, error.read().decode()[:500]))

    def post(self, path, data):
        return self.call("POST", self.session + path, data)

    def open(self, url):
        """Loads a page, also if only the part after # differs from the one that is open."""
        self.post("/url", {"url": "about:blank"})
        self.post("/url", {"url": url})

    def script(self, text, *args):
        return self.post("/execute/sync", {"script": text, "args": list(args)})

    def size(self, width, height):
        """Sets the size of the page itself."""
        self.command("Emulation.setDeviceMetricsOverride", width=width, height=height, deviceScaleFactor=1, mobile=False)

    def command(self, name, **params):
        """Calls the DevTools protocol."""
        return self.post("/goog/cdp/execute", {"cmd": name, "params": params})

    def key(self, key, shift=False):
        k = KEYS.get(key, key)
        actions = [{"type": "keyDown", "value": k}, {"type": "keyUp", "value": k}]
        if shift:
            s = KEYS["Shift"]
            actions = [{"type": "keyDown", "value": s}] + actions + [{"type": "keyUp", "value": s}]
        self.post("/actions", {"actions": [{"type": "key", "id": "keys", "actions": actions}]})

    def shot(self, path):
        with open(path, "wb") as f:
            f.write(base64.b64decode(self.call("GET", self.session + "/screenshot")))

    def pdf(self, path):
        """Prints the page. Calls what a browser calls before it prints."""
        data = self.command("Page.printToPDF", landscape=True, printBackground=True, preferCSSPageSize=True)["data"]
        with open(path, "wb") as f:
            f.write(base64.b64decode(data))

    def log(self):
        """Returns what the console got since the last call."""
        return ["%(level)s %(message)s" % e for e in self.post("/se/log", {"type": "browser"})]

    def close(self):
        try:
            self.call("DELETE", self.session)
        finally:
            self.process.terminate()
            self.process.wait()
            shutil.rmtree(self.folder, ignore_errors=True)

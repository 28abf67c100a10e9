"""Browsers that a script drives: Chromium by the WebDriver protocol of `chromedriver`, and Firefox by its own protocol, Marionette. Both have
no window, a folder of their own for their profile, and end with the `with` in which they stand."""
import base64
import json
import os
import pathlib
import re
import shutil
import signal
import socket
import subprocess
import tempfile
import time
import urllib.error
import urllib.request

SECONDS = 120
# Debian's packages, by the commands that have to be there
PACKAGES = {"chromium": "chromium", "chromedriver": "chromium-driver", "firefox-esr": "firefox-esr"}
ELEMENT = "element-6066-11e4-a52e-4f735466cecf"
KEYS = {"Tab": "\ue004", "Enter": "\ue007", "Space": " ", "Left": "\ue012", "Up": "\ue013", "Right": "\ue014", "Down": "\ue015",
        "Escape": "\ue00c", "Shift": "\ue008", "Control": "\ue009", "Home": "\ue011", "End": "\ue010"}


class Failed(Exception):
    """What a browser could not do, in its words."""


def missing(*commands):
    """The packages of Debian that would bring commands that are not there."""
    return [PACKAGES[it] for it in commands if not shutil.which(it)]


class Browser:
    """A browser without a window. `script` runs a function's body in the page, and `awaited` one that calls its last argument in the end."""

    def __init__(self):
        self.folder = tempfile.mkdtemp(prefix="browser-")
        self.process = None

    def __enter__(self):
        return self

    def __exit__(self, *_):
        self.quit()
        if self.process and self.process.poll() is None:
            os.killpg(self.process.pid, signal.SIGTERM)
            try:
                self.process.wait(10)
            except subprocess.TimeoutExpired:
                os.killpg(self.process.pid, signal.SIGKILL)
                self.process.wait()
        shutil.rmtree(self.folder, ignore_errors=True)

    def quit(self):
        """Ends the session, if there is one."""

    def start(self, words, **how):
        """Starts a process in a group of its own."""
        env = {**os.environ, "HOME": self.folder, "TMPDIR": self.folder}
        self.process = subprocess.Popen(words, start_new_session=True, env=env, stdin=subprocess.DEVNULL, **how)

    def until(self, condition, *given, seconds=SECONDS):
        """Waits until an expression is true in the page, and returns it."""
        end = time.monotonic() + seconds
        while time.monotonic() < end:
            found = self.script(f"return {condition}", *given)
            if found:
                return found
            time.sleep(0.03)
        raise Failed(f"{condition} was not true within {seconds} s")


class Chromium(Browser):
    """Chromium, by `chromedriver`."""

    def __init__(self, size=(1280, 800), downloads=None):
        super().__init__()
        self.start(["chromedriver", "--port=0", "--log-level=SEVERE"], stdout=subprocess.PIPE, stderr=subprocess.DEVNULL, text=True)
        self.port = None
        for line in self.process.stdout:
            found = re.search(r"started successfully on port (\d+)", line)
            if found:
                self.port = int(found[1])
                break
        if self.port is None:
            raise Failed("chromedriver doesn't start")
        words = ["--headless=new", "--no-sandbox", "--disable-gpu", "--hide-scrollbars", "--disable-dev-shm-usage", f"--window-size={size[0]},{size[1]}",
                 f"--user-data-dir={self.folder}/profile"]
        options = {"binary": shutil.which("chromium"), "args": words}
        if downloads:
            options["prefs"] = {"download.default_directory": str(downloads), "download.prompt_for_download": False,
                                "profile.default_content_setting_values.automatic_downloads": 1}
        # performance entries have each request, also those that a policy refuses
        logged = {"browser": "ALL", "performance": "ALL"}
        asked = {"browserName": "chrome", "goog:loggingPrefs": logged, "goog:chromeOptions": options, "timeouts": {"script": SECONDS * 1000}}
        self.session = self.call("POST", "/session", {"capabilities": {"alwaysMatch": asked}})["sessionId"]
        self.size(*size)

    def call(self, method, path, body=None):
        """A call of the protocol."""
        data = None if body is None else json.dumps(body).encode()
        request = urllib.request.Request(f"http://127.0.0.1:{self.port}{path}", data, {"Content-Type": "application/json"}, method=method)
        try:
            with urllib.request.urlopen(request, timeout=SECONDS + 30) as answer:
                return json.loads(answer.read())["value"]
        except urllib.error.HTTPError as error:
            raise Failed(json.loads(error.read())["value"]["message"].split("\n")[0]) from error

    def do(self, method, path, body=None):
        """A call about the session."""
        return self.call(method, f"/session/{self.session}{path}", body)

    def cdp(self, command, **params):
        """A command of Chromium's own protocol."""
        return self.do("POST", "/goog/cdp/execute", {"cmd": command, "params": params})

    def size(self, wide, high, scale=1):
        """How large the page is shown."""
        self.cdp("Emulation.setDeviceMetricsOverride", width=wide, height=high, deviceScaleFactor=scale, mobile=wide < 500)

    def dark(self, on):
        """Whether the page is told that dark colours are wanted."""
        self.cdp("Emulation.setEmulatedMedia", features=[{"name": "prefers-color-scheme", "value": "dark" if on else "light"}])

    def go(self, url):
        """Opens an address anew, also if only its fragment is another."""
        self.do("POST", "/url", {"url": "about:blank"})
        self.do("POST", "/url", {"url": url})

    def script(self, text, *given):
        return self.do("POST", "/execute/sync", {"script": text, "args": list(given)})

    def awaited(self, text, *given):
        return self.do("POST", "/execute/async", {"script": text, "args": list(given)})

    def press(self, *keys):
        """Presses keys one after another; a list of keys is pressed together."""
        actions = []
        for key in keys:
            together = [KEYS.get(it, it) for it in (key if isinstance(key, list) else [key])]
            actions += [{"type": "keyDown", "value": it} for it in together] + [{"type": "keyUp", "value": it} for it in reversed(together)]
        self.do("POST", "/actions", {"actions": [{"type": "key", "id": "keys", "actions": actions}]})

    def click(self, selector):
        """Clicks an element as a person does: it has to be in view, and nothing above it."""
        found = self.do("POST", "/element", {"using": "css selector", "value": selector})[ELEMENT]
        self.do("POST", f"/element/{found}/click", {})

    def upload(self, selector, path):
        """Chooses a file."""
        found = self.do("POST", "/element", {"using": "css selector", "value": selector})[ELEMENT]
        self.do("POST", f"/element/{found}/value", {"text": str(path)})

    def picture(self):
        """What the page looks like, as PNG."""
        return base64.b64decode(self.do("GET", "/screenshot"))

    def logged(self, kind="browser"):
        """What was logged since the last call: messages of the console, or with "performance" events such as requests."""
        found = self.do("POST", "/se/log", {"type": kind})
        return [json.loads(it["message"])["message"] for it in found] if kind == "performance" else [f"{it['level']} {it['message']}" for it in found]

    def requests(self):
        """The addresses of all requests since the last call, but those of the page's own data."""
        sent = [it["params"]["request"]["url"] for it in self.logged("performance") if it["method"] == "Network.requestWillBeSent"]
        return [it for it in sent if not it.startswith(("blob:", "data:", "about:"))]

    def quit(self):
        try:
            self.do("DELETE", "")
        except (Failed, OSError, AttributeError):
            pass


class Firefox(Browser):
    """Firefox, by Marionette: a text of JSON behind its length for each message."""

    def __init__(self):
        super().__init__()
        profile = pathlib.Path(self.folder) / "profile"
        profile.mkdir()
        with socket.socket() as free:
            free.bind(("127.0.0.1", 0))
            port = free.getsockname()[1]
        (profile / "user.js").write_text(f'user_pref("marionette.port", {port});\nuser_pref("browser.shell.checkDefaultBrowser", false);\n'
                                         'user_pref("datareporting.policy.dataSubmissionEnabled", false);\nuser_pref("app.update.enabled", false);\n')
        self.start(["firefox-esr", "--headless", "--marionette", "--no-remote", "--profile", str(profile)], stdout=subprocess.DEVNULL, stderr=subprocess.DEVNULL)
        end = time.monotonic() + SECONDS
        while True:
            try:
                self.socket = socket.create_connection(("127.0.0.1", port), SECONDS)
                break
            except OSError as error:
                if time.monotonic() > end or self.process.poll() is not None:
                    raise Failed(f"firefox-esr doesn't listen: {error}") from error
                time.sleep(0.2)
        self.received, self.number = b"", 0
        self.receive()
        self.call("WebDriver:NewSession", {"capabilities": {"alwaysMatch": {"timeouts": {"script": SECONDS * 1000}}}})

    def receive(self):
        """The next message."""
        while b":" not in self.received:
            self.more()
        length, self.received = self.received.split(b":", 1)
        while len(self.received) < int(length):
            self.more()
        text, self.received = self.received[:int(length)], self.received[int(length):]
        return json.loads(text)

    def more(self):
        """Reads on."""
        data = self.socket.recv(1 << 16)
        if not data:
            raise Failed("firefox-esr has ended")
        self.received += data

    def call(self, name, params):
        """A command, and what it answers."""
        self.number += 1
        text = json.dumps([0, self.number, name, params]).encode()
        self.socket.sendall(b"%d:%s" % (len(text), text))
        _, _, error, found = self.receive()
        if error:
            raise Failed(f"{error['error']}: {error['message']}")
        return found.get("value", found) if isinstance(found, dict) else found

    def go(self, url):
        self.call("WebDriver:Navigate", {"url": "about:blank"})
        self.call("WebDriver:Navigate", {"url": url})

    def script(self, text, *given):
        return self.call("WebDriver:ExecuteScript", {"script": text, "args": list(given)})

    def awaited(self, text, *given):
        return self.call("WebDriver:ExecuteAsyncScript", {"script": text, "args": list(given)})

    def picture(self):
        return base64.b64decode(self.call("WebDriver:TakeScreenshot", {"full": False}))

    def quit(self):
        try:
            self.call("Marionette:Quit", {"flags": ["eForceQuit"]})
        except (Failed, OSError, AttributeError):
            pass

"""A headless Chromium that is driven by chromedriver: Debian's packages chromium and chromium-driver."""
from __future__ import annotations

import base64
import contextlib
import http.client
import json
import os
import re
import shutil
import signal
import subprocess
import time

WAIT = 60
STARTED = re.compile(r"started successfully on port (\d+)")
KEYS = {"Tab": "\ue004", "Enter": "\ue007", "End": "\ue010", "Home": "\ue011", "ArrowLeft": "\ue012",
        "ArrowUp": "\ue013", "ArrowRight": "\ue014", "ArrowDown": "\ue015"}
# The browser does nothing by itself, and knows no address but that of this machine.
WORDS = ["--headless=new", "--no-first-run", "--disable-background-networking", "--disable-component-update",
         "--disable-default-apps", "--disable-sync", "--disable-gpu", "--disable-dev-shm-usage", "--no-proxy-server",
         "--hide-scrollbars",
         "--force-color-profile=srgb", "--lang=en", "--host-resolver-rules=MAP * ~NOTFOUND , EXCLUDE 127.0.0.1"]


class Browser:
    """A browser whose files are in a folder. As a context it is ended at the end."""

    def __init__(self, folder):
        if shutil.which("chromedriver") is None:
            raise RuntimeError("chromedriver isn't there: it comes by Debian's package chromium-driver")
        folder.mkdir()
        more = dict.fromkeys(["HOME", "TMPDIR", "XDG_CACHE_HOME", "XDG_CONFIG_HOME"], str(folder))
        self.driver = subprocess.Popen(["chromedriver", "--port=0"], stdin=subprocess.DEVNULL, stdout=subprocess.PIPE,
                                       stderr=subprocess.DEVNULL, text=True, env={**os.environ, **more},
                                       start_new_session=True)
        self.session = None
        try:
            self.start(folder)
        except BaseException:
            self.end()
            raise

    def start(self, folder):
        found = next(filter(None, map(STARTED.search, self.driver.stdout)), None)
        if found is None:
            raise RuntimeError("chromedriver doesn't start")
        self.port = int(found[1])
        words = [*WORDS, f"--user-data-dir={folder / 'profile'}", *["--no-sandbox"] * (os.geteuid() == 0)]
        wanted = {"browserName": "chrome", "goog:chromeOptions": {"args": words},
                  "goog:loggingPrefs": {"browser": "ALL", "performance": "ALL"}}
        self.session = self.call("POST", "/session", {"capabilities": {"alwaysMatch": wanted}})["sessionId"]
        self.open("about:blank")
        self.addresses()

    def __enter__(self):
        return self

    def __exit__(self, *_):
        self.end()

    def end(self):
        """Ends the browser and its driver."""
        with contextlib.suppress(OSError, RuntimeError, http.client.HTTPException):
            if self.session:
                self.ask("DELETE", "")
        with contextlib.suppress(ProcessLookupError):
            os.killpg(self.driver.pid, signal.SIGKILL)
        self.driver.wait(WAIT)
        self.driver.stdout.close()

    def call(self, method, path, body=None):
        """The value that the driver answers. What it refuses is an error."""
        with contextlib.closing(http.client.HTTPConnection("127.0.0.1", self.port, timeout=2 * WAIT)) as client:
            text = None if body is None else json.dumps(body)
            client.request(method, path, text, {"Content-Type": "application/json"})
            value = json.loads(client.getresponse().read())["value"]
        if isinstance(value, dict) and "error" in value:
            raise RuntimeError(f"{path}: {value['error']}: {value['message'][:500]}")
        return value

    def ask(self, method, path, body=None):
        return self.call(method, f"/session/{self.session}{path}", body)

    # ---- what is done

    def open(self, address):
        """Opens an address anew."""
        for each in ("about:blank", address):
            self.ask("POST", "/url", {"url": each})

    def back(self):
        self.ask("POST", "/back", {})

    def resize(self, width, height, scale=1):
        """Gives the page a size in pixels of its own, and of so many of the screen each."""
        self.debug("Emulation.setDeviceMetricsOverride", width=width, height=height, deviceScaleFactor=scale,
                   mobile=width < 500)

    def press(self, *names):
        """Presses keys one after the other, as named in `KEYS` or as they are."""
        actions = [{"type": kind, "value": KEYS.get(name, name)} for name in names for kind in ("keyDown", "keyUp")]
        self.ask("POST", "/actions", {"actions": [{"type": "key", "id": "keys", "actions": actions}]})

    def write(self, selector, text):
        """Writes a text into a field in the place of what is there."""
        place = f"/element/{self.element(selector)}"
        self.ask("POST", f"{place}/clear", {})
        self.ask("POST", f"{place}/value", {"text": text})

    def click(self, selector, text=""):
        """Clicks on the first element of a selector, or on one with a text: the first that has no other, or has it."""
        self.ask("POST", f"/element/{self.element(selector, text)}/click", {})

    def element(self, selector, text=""):
        found = self.run("const found = [...document.querySelectorAll(arguments[0])]; "
                         "return found.find(each => each.textContent === arguments[1]) "
                         "?? found.find(each => each.textContent.includes(arguments[1]))", selector, text)
        if found is None:
            raise RuntimeError(f"there is no {selector} with {text!r}")
        return next(iter(found.values()))

    # ---- what is seen

    def run(self, script, *values):
        """What a script returns, also one that has to be waited for."""
        return self.ask("POST", "/execute/sync", {"script": script, "args": list(values)})

    def wait_for(self, script, *values):
        """Waits until a script returns something that holds, and returns it."""
        end = time.monotonic() + WAIT
        while not (value := self.run(script, *values)):
            if time.monotonic() > end:
                raise RuntimeError(f"never came: {script} {values}")
            time.sleep(0.03)
        return value

    def debug(self, command, **values):
        """What a command of the debugger's protocol answers."""
        return self.ask("POST", "/goog/cdp/execute", {"cmd": command, "params": values})

    def picture(self):
        """What is seen of the page as a picture in PNG, down to its end."""
        width, height = self.run("return [innerWidth, "
                                 "Math.min(innerHeight, document.body.getBoundingClientRect().bottom)]")
        clip = {"x": 0, "y": 0, "width": width, "height": height, "scale": 1}
        return base64.b64decode(self.debug("Page.captureScreenshot", format="png", clip=clip)["data"])

    def log(self, kind):
        """What was logged since the last call: messages of the console for `browser`, and events of the network for
        `performance`."""
        return self.ask("POST", "/se/log", {"type": kind})

    def addresses(self):
        """All addresses that were asked for since the last call."""
        events = [json.loads(entry["message"])["message"] for entry in self.log("performance")]
        return [event["params"]["request"]["url"] for event in events if event["method"] == "Network.requestWillBeSent"]

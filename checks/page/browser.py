"""A browser without a window, over a pipe: Chromium and its protocol, with no library beside Python's own."""
import base64
import json
import os
import select
import shutil
import subprocess
import tempfile
import time

NAMES = ("chromium", "chromium-browser", "google-chrome", "google-chrome-stable")
LIMIT = 30


def found():
    """Returns the path of a browser, or None if there is none."""
    return next((path for name in NAMES if (path := shutil.which(name))), None)


class Browser:
    """A browser with one tab."""

    def __init__(self, path, width=1600, height=1000, dark=False):
        self.folder = tempfile.TemporaryDirectory(ignore_cleanup_errors=True)
        theirs, self.out = os.pipe()
        self.into, ours = os.pipe()

        def move():
            # The browser reads its protocol from 3 and writes it to 4.
            low, high = os.dup(theirs), os.dup(ours)
            os.dup2(low, 3)
            os.dup2(high, 4)

        words = [path, "--headless=new", "--no-sandbox", "--disable-gpu", "--remote-debugging-pipe", "--no-first-run", "--hide-scrollbars",
                 "--disable-background-networking", "--disable-component-update", "--disable-sync", f"--user-data-dir={self.folder.name}",
                 f"--window-size={width},{height}"]
        self.process = subprocess.Popen(words, pass_fds=(3, 4), preexec_fn=move, stdout=subprocess.DEVNULL, stderr=subprocess.DEVNULL)
        os.close(theirs)
        os.close(ours)
        self.rest, self.count, self.events = b"", 0, []
        target = self.call("Target.createTarget", url="about:blank")["targetId"]
        self.tab = None
        self.tab = self.call("Target.attachToTarget", targetId=target, flatten=True)["sessionId"]
        for name in ("Page", "Runtime", "Log", "Network"):
            self.call(f"{name}.enable")
        self.call("Emulation.setDeviceMetricsOverride", width=width, height=height, deviceScaleFactor=1, mobile=False)
        self.call("Emulation.setEmulatedMedia", features=[{"name": "prefers-color-scheme", "value": "dark" if dark else "light"}])

    def message(self, limit):
        """Returns the next message."""
        until = time.monotonic() + limit
        while b"\0" not in self.rest:
            if not select.select([self.into], [], [], max(0, until - time.monotonic()))[0]:
                raise TimeoutError("the browser says nothing")
            part = os.read(self.into, 1 << 20)
            if not part:
                raise EOFError("the browser has ended")
            self.rest += part
        one, self.rest = self.rest.split(b"\0", 1)
        return json.loads(one)

    def call(self, method, **params):
        """Calls a method, and returns its result."""
        self.count += 1
        sent = {"id": self.count, "method": method, "params": params}
        if getattr(self, "tab", None):
            sent["sessionId"] = self.tab
        os.write(self.out, json.dumps(sent).encode() + b"\0")
        while True:
            message = self.message(LIMIT)
            if message.get("id") == self.count:
                if "error" in message:
                    raise RuntimeError(message["error"])
                return message["result"]
            self.events.append(message)

    def open(self, address):
        """Opens an address."""
        return self.call("Page.navigate", url=address)

    def value(self, script):
        """Returns the value of a script, which may be a promise."""
        result = self.call("Runtime.evaluate", expression=script, awaitPromise=True, returnByValue=True)
        if "exceptionDetails" in result:
            raise RuntimeError(json.dumps(result["exceptionDetails"])[:2000])
        return result["result"].get("value")

    def wait(self, script, limit=LIMIT):
        """Waits until a script is true."""
        until = time.monotonic() + limit
        while not self.value(f"(() => {{ try {{ return Boolean({script}); }} catch {{ return false; }} }})()"):
            if time.monotonic() > until:
                raise TimeoutError(script)
            time.sleep(0.05)

    def picture(self, path):
        """Saves what the tab shows."""
        with open(path, "wb") as file:
            file.write(base64.b64decode(self.call("Page.captureScreenshot", format="png")["data"]))

    def mouse(self, kind, x, y, **more):
        """Moves or presses the mouse."""
        self.call("Input.dispatchMouseEvent", type=kind, x=x, y=y, **more)

    def click(self, x, y):
        """Clicks at a point."""
        self.mouse("mouseMoved", x, y)
        for kind in ("mousePressed", "mouseReleased"):
            self.mouse(kind, x, y, button="left", clickCount=1)

    def box(self, element):
        """Returns left, top, width and height of an element, given by a script."""
        return self.value(f"(() => {{ const r = ({element}).getBoundingClientRect(); return [r.left, r.top, r.width, r.height]; }})()")

    def middle(self, element):
        """Returns the middle of an element, given by a script, once it has been scrolled into view."""
        return self.value(f"""(() => {{ const e = {element}; e.scrollIntoView({{ block: "nearest" }}); const r = e.getBoundingClientRect();
            return [r.left + r.width / 2, r.top + r.height / 2]; }})()""")

    def click_on(self, element):
        """Clicks on an element, given by a script, once it is there."""
        self.wait(f"({element}).getBoundingClientRect().width > 0")
        self.click(*self.middle(element))

    def wheel(self, x, y, by):
        """Turns the wheel at a point: away from the user if `by` is negative."""
        self.mouse("mouseWheel", x, y, deltaX=0, deltaY=by)

    def key(self, name, shift=False):
        """Presses a key, with Shift or without."""
        codes = {"Enter": 13, "ArrowDown": 40, "ArrowUp": 38, "ArrowLeft": 37, "ArrowRight": 39, "Backspace": 8, "Escape": 27, "Tab": 9}
        more = {"windowsVirtualKeyCode": codes[name]} if name in codes else {"text": name}
        more["modifiers"] = 8 if shift else 0
        if name == "Enter":
            more["text"] = "\r"
        self.call("Input.dispatchKeyEvent", type="keyDown", key=name, **more)
        self.call("Input.dispatchKeyEvent", type="keyUp", key=name)

    def size(self, width, height):
        """Gives the window another size."""
        self.call("Emulation.setDeviceMetricsOverride", width=width, height=height, deviceScaleFactor=1, mobile=False)

    def downloaded(self, folder, act, limit=LIMIT):
        """Does an act that saves a file, and returns the file once it is whole."""
        self.call("Page.setDownloadBehavior", behavior="allow", downloadPath=str(folder))
        act()
        until = time.monotonic() + limit
        while time.monotonic() < until:
            self.value("1")
            if any(e.get("method", "").endswith("downloadProgress") and e["params"]["state"] == "completed" for e in self.events):
                return next(path for path in folder.iterdir() if path.suffix != ".crdownload")
            time.sleep(0.05)
        raise TimeoutError("nothing was saved")

    def faults(self):
        """Returns what the page or the browser complained of."""
        self.value("1")
        told = [e for e in self.events if e.get("method") in ("Runtime.exceptionThrown", "Log.entryAdded")]
        return [json.dumps(e["params"])[:400] for e in told]

    def close(self):
        """Ends the browser."""
        os.write(self.out, json.dumps({"id": self.count + 1, "method": "Browser.close"}).encode() + b"\0")
        try:
            self.process.wait(LIMIT)
        except subprocess.TimeoutExpired:
            self.process.kill()
            self.process.wait()
        os.close(self.out)
        os.close(self.into)
        self.folder.cleanup()

"""Drives headless Chromium by its debugging pipe: opens pages, clicks, asks, takes pictures."""

import base64
import json
import os
import subprocess
import tempfile
import time

FLAGS = [
    "--headless=new",
    "--no-sandbox",
    "--disable-gpu",
    "--hide-scrollbars",
    "--host-resolver-rules=MAP * ~NOTFOUND",
    "--remote-debugging-pipe",
]


class Browser:
    """One page of a browser. Every address that it asks for is noted."""

    def __init__(self, width=1280, height=900):
        down, self.into = os.pipe()
        self.out, up = os.pipe()
        self.folder = tempfile.TemporaryDirectory()

        def ends():
            """The browser reads from 3 and writes to 4."""
            a, b = os.dup(down), os.dup(up)
            os.dup2(a, 3)
            os.dup2(b, 4)

        command = [
            "chromium",
            *FLAGS,
            f"--user-data-dir={self.folder.name}",
            f"--window-size={width},{height}",
            "about:blank",
        ]
        quiet = subprocess.DEVNULL
        self.process = subprocess.Popen(command, preexec_fn=ends, pass_fds=(3, 4), stdout=quiet, stderr=quiet)
        os.close(down)
        os.close(up)
        self.rest, self.count, self.session = b"", 0, None
        self.asked, self.faults, self.loads = [], [], 0
        target = self.call("Target.createTarget", url="about:blank")["targetId"]
        self.session = self.call("Target.attachToTarget", targetId=target, flatten=True)["sessionId"]
        for domain in ("Page", "Runtime", "Network"):
            self.call(domain + ".enable")
        self.size(width, height)

    # ---- the protocol

    def receive(self):
        """The next message of the browser."""
        while b"\0" not in self.rest:
            part = os.read(self.out, 1 << 20)
            if not part:
                raise RuntimeError("the browser has gone")
            self.rest += part
        message, self.rest = self.rest.split(b"\0", 1)
        message = json.loads(message)
        method, given = message.get("method"), message.get("params", {})
        if method == "Network.requestWillBeSent":
            self.asked.append(given["request"]["url"])
        elif method == "Page.loadEventFired":
            self.loads += 1
        elif method == "Runtime.exceptionThrown":
            self.faults.append(given["exceptionDetails"].get("exception", {}).get("description", "an exception"))
        return message

    def call(self, method, **params):
        """Calls a method of the protocol: its result."""
        self.count += 1
        message = {"id": self.count, "method": method, "params": params}
        if self.session:
            message["sessionId"] = self.session
        os.write(self.into, json.dumps(message).encode() + b"\0")
        while True:
            answer = self.receive()
            if answer.get("id") == self.count:
                if "error" in answer:
                    raise RuntimeError(f"{method}: {answer['error']['message']}")
                return answer["result"]

    # ---- what a reader does

    def size(self, width, height, phone=False):
        scale = 2 if phone else 1
        self.call(
            "Emulation.setDeviceMetricsOverride", width=width, height=height, deviceScaleFactor=scale, mobile=phone
        )

    def open(self, address):
        """Opens a page, and waits until it is there."""
        loads = self.loads
        self.call("Page.navigate", url=address)
        while self.loads == loads:
            self.receive()

    def ask(self, expression):
        """What an expression of the page's own language gives, promises awaited."""
        answer = self.call("Runtime.evaluate", expression=expression, awaitPromise=True, returnByValue=True)
        if "exceptionDetails" in answer:
            raise RuntimeError(answer["exceptionDetails"]["exception"].get("description", "an exception"))
        return answer["result"].get("value")

    def holds(self, expression, seconds=20):
        """Waits until an expression holds; answers whether it did."""
        until = time.time() + seconds
        while time.time() < until:
            if self.ask(f"!!({expression})"):
                return True
            time.sleep(0.05)
        return False

    def mouse(self, selector, click):
        """Moves the mouse to the middle of what a selector finds, and clicks."""
        x, y = self.ask(
            "(() => "
            f"{{ const e = document.querySelector({json.dumps(selector)}); e.scrollIntoView({{block: 'center'}}); "
            "const r = e.getClientRects()[0]; return [r.x + r.width / 2, r.y + r.height / 2]; })()"
        )
        self.call("Input.dispatchMouseEvent", type="mouseMoved", x=x, y=y)
        for kind in ("mousePressed", "mouseReleased") if click else ():
            self.call("Input.dispatchMouseEvent", type=kind, x=x, y=y, button="left", clickCount=1)

    def follow(self, selector):
        """Clicks a link and waits until the page that it leads to is there; answers its address."""
        to = self.ask(f"document.querySelector({json.dumps(selector)}).href")
        same = self.ask("location.href").split("#")[0] == to.split("#")[0]
        loads = self.loads
        self.mouse(selector, True)
        while self.loads == loads and not same:
            self.receive()
        self.holds(f"location.href === {json.dumps(to)}")
        return self.ask("decodeURIComponent(location.href)")

    def picture(self, path):
        with open(path, "wb") as file:
            file.write(base64.b64decode(self.call("Page.captureScreenshot", format="png")["data"]))

    def printed(self):
        """The page as it is printed: the bytes of a PDF."""
        return base64.b64decode(self.call("Page.printToPDF", preferCSSPageSize=True)["data"])

    def close(self):
        self.process.terminate()
        self.process.wait()
        os.close(self.into)
        os.close(self.out)
        self.clear(self.folder)

    @staticmethod
    def clear(folder, seconds=20):
        """Takes away a folder that the browser wrote to; its helpers may still write there as they end."""
        until = time.time() + seconds
        while os.path.exists(folder.name):
            try:
                folder.cleanup()
            except OSError:
                if time.time() > until:
                    raise
                time.sleep(0.05)

"""The sketch page in headless Chromium: real mouse, keys, drops and downloads, and the command beside it."""

import glob
import json
import os
import subprocess
import sys
import tempfile
import time

ROOT = os.path.dirname(os.path.dirname(os.path.dirname(os.path.abspath(__file__))))
sys.path.insert(0, os.path.join(ROOT, "tests", "book"))
from browser import Browser  # noqa: E402

ADDRESS = "file://" + os.path.join(ROOT, "target/page/pattern.html")
COMMAND = os.path.join(ROOT, "target/cargo/release/pattern")
#: The keys that have names: the code and number by which the browser knows them.
NAMED = {
    "Enter": ("Enter", 13), "Escape": ("Escape", 27), "Tab": ("Tab", 9), "Space": ("Space", 32), "Delete": ("Delete", 46),
    "Backspace": ("Backspace", 8), "ArrowLeft": ("ArrowLeft", 37), "ArrowUp": ("ArrowUp", 38), "F1": ("F1", 112),
    "ArrowRight": ("ArrowRight", 39), "ArrowDown": ("ArrowDown", 40), "Home": ("Home", 36), "End": ("End", 35),
    "PageUp": ("PageUp", 33), "PageDown": ("PageDown", 34), "F2": ("F2", 113),
}  # fmt: skip
MODIFIERS = {"Alt": 1, "Ctrl": 2, "Shift": 8}
failed = []


def must(holds, what):
    """Notes what does not hold."""
    if not holds:
        failed.append(what)
        print("FAILED: " + what)
    return holds


def pattern(*words, files=None):
    """What the command answers on some files: its status, what it prints, what it tells beside that, what it wrote."""
    files = files or {}
    with tempfile.TemporaryDirectory() as folder:
        for name, content in files.items():
            with open(os.path.join(folder, name), "wb") as file:
                file.write(content.encode() if isinstance(content, str) else content)
        done = subprocess.run([COMMAND, *words], cwd=folder, capture_output=True)
        written = {}
        for name in sorted(set(os.listdir(folder)) - set(files)):
            with open(os.path.join(folder, name), "rb") as file:
                written[name] = file.read()
    return done.returncode, done.stdout, done.stderr.decode(), written


def data(*words, files=None):
    """What the command answers for programs: the object of --json."""
    return json.loads(pattern(*words, "--json", files=files)[1])


class Page(Browser):
    """The page, as someone at a desk uses it."""

    def __init__(self, width=1280, height=800):
        self.errors, self.chosen = [], None
        super().__init__(width, height)
        self.call("Log.enable")
        self.call("DOM.enable")
        self.downloads = tempfile.TemporaryDirectory()
        self.call("Page.setDownloadBehavior", behavior="allow", downloadPath=self.downloads.name)
        self.call("Page.setInterceptFileChooserDialog", enabled=True)

    def receive(self):
        """The next message: errors in the console are noted, and a chooser of files."""
        message = super().receive()
        method, given = message.get("method"), message.get("params", {})
        if method == "Log.entryAdded" and given["entry"]["level"] == "error":
            self.errors.append(given["entry"]["text"])
        elif method == "Runtime.consoleAPICalled" and given["type"] in ("error", "assert"):
            self.errors.append(str(given["args"]))
        elif method == "Page.fileChooserOpened":
            self.chosen = given["backendNodeId"]
        return message

    def start(self, text=None, name="sheet"):
        """Opens the page anew, with nothing kept from before; with a text as its sheet, if one is given."""
        self.open(ADDRESS)
        self.ask("localStorage.clear()")
        if text is not None:
            self.ask(f"localStorage.setItem('pattern.sheet', JSON.stringify({json.dumps({'name': name, 'text': text})}))")
        self.open(ADDRESS)
        must(self.holds("document.body.dataset.ready"), "the page starts")

    # ---- the mouse

    def middle(self, selector):
        """The middle of what a selector finds, brought into sight."""
        return self.ask(
            f"(() => {{ const e = document.querySelector({json.dumps(selector)}); if (!e) return null;"
            "e.scrollIntoView({block: 'nearest'}); const r = e.getBoundingClientRect(); return [r.x + r.width / 2, r.y + r.height / 2]; })()"
        )

    def at(self, where):
        """A place on the screen: itself, or the middle of what a selector finds."""
        if not isinstance(where, str):
            return where
        place = self.middle(where)
        if place is None:
            raise RuntimeError(f"nothing is {where}")
        return place

    def hover(self, where):
        x, y = self.at(where)
        self.call("Input.dispatchMouseEvent", type="mouseMoved", x=x, y=y)

    def click(self, where, count=1, keys=0):
        """Clicks, with modifiers held."""
        x, y = self.at(where)
        self.call("Input.dispatchMouseEvent", type="mouseMoved", x=x, y=y, modifiers=keys)
        for number in range(1, count + 1):
            for kind in ("mousePressed", "mouseReleased"):
                self.call(
                    "Input.dispatchMouseEvent", type=kind, x=x, y=y, button="left", clickCount=number, modifiers=keys
                )

    def drag(self, start, end, steps=8, keys=0):
        """Drags from one place to another, in so many moves."""
        (x, y), (z, w) = self.at(start), self.at(end)
        self.call("Input.dispatchMouseEvent", type="mouseMoved", x=x, y=y)
        self.call("Input.dispatchMouseEvent", type="mousePressed", x=x, y=y, button="left", clickCount=1, modifiers=keys)
        for k in range(1, steps + 1):
            to = {"x": x + (z - x) * k / steps, "y": y + (w - y) * k / steps}
            self.call("Input.dispatchMouseEvent", type="mouseMoved", button="left", buttons=1, modifiers=keys, **to)
        self.call("Input.dispatchMouseEvent", type="mouseReleased", x=z, y=w, button="left", clickCount=1, modifiers=keys)

    # ---- the keyboard

    def press(self, *keys):
        """Presses keys, each as it is written in the help: "Ctrl+S", "ArrowRight", "a"."""
        for key in keys:
            *held, last = key.split("+") if len(key) > 1 else [key]
            modifiers = sum(MODIFIERS[name] for name in held)
            code, number = NAMED.get(last, ("Key" + last.upper() if last.isalpha() else "", ord(last[0].upper()) if last.isalnum() else 0))
            given = {"key": " " if last == "Space" else last, "code": code, "windowsVirtualKeyCode": number}
            text = "\r" if last == "Enter" else " " if last == "Space" else last if len(last) == 1 else None
            if text and not modifiers & 3:
                given["text"] = text
            self.call("Input.dispatchKeyEvent", type="keyDown", modifiers=modifiers, **given)
            given.pop("text", None)
            self.call("Input.dispatchKeyEvent", type="keyUp", modifiers=modifiers, **given)

    def type(self, text):
        """Types a text, letter by letter."""
        for letter in text:
            self.press("Enter" if letter == "\n" else "Space" if letter == " " else letter)

    # ---- files

    def drop(self, *paths, where="#canvas"):
        """Drops files on the page."""
        x, y = self.at(where)
        given = {"items": [], "files": list(paths), "dragOperationsMask": 1}
        for kind in ("dragEnter", "dragOver", "drop"):
            self.call("Input.dispatchDragEvent", type=kind, x=x, y=y, data=given)

    def choose(self, path):
        """Chooses a file where the page has asked for one."""
        until = time.time() + 10
        while self.chosen is None and time.time() < until:
            self.ask("0")
        node, self.chosen = self.chosen, None
        self.call("DOM.setFileInputFiles", files=[path], backendNodeId=node)

    def downloaded(self, name, seconds=10):
        """The bytes of a file that the page saved, or none."""
        path = os.path.join(self.downloads.name, name)
        until = time.time() + seconds
        while time.time() < until:
            if os.path.exists(path) and not glob.glob(path + "*.crdownload"):
                with open(path, "rb") as file:
                    content = file.read()
                os.remove(path)
                return content
            time.sleep(0.05)
        return None

    # ---- what is on the screen

    def text(self, selector):
        """The text of what a selector finds."""
        return self.ask(f"document.querySelector({json.dumps(selector)})?.textContent ?? null")

    def texts(self, selector):
        """The texts of all that a selector finds."""
        return self.ask(f"[...document.querySelectorAll({json.dumps(selector)})].map(node => node.textContent)")

    @property
    def sheet(self):
        """The text of the sheet, as the page has it."""
        return self.ask("store.text")

    def silent(self, what):
        """No script failed, the console has no error, and nothing was asked of another machine; what is noted of them begins anew."""
        must(not self.faults and not self.errors, f"{what}: the console has errors: {(self.faults + self.errors)[:3]}")
        outside = [address for address in self.asked if not address.startswith(("file:", "about:", "data:", "blob:"))]
        must(not outside, f"{what}: another machine was asked: {outside[:3]}")
        self.faults.clear()
        self.errors.clear()

    def close(self):
        super().close()
        self.clear(self.downloads)

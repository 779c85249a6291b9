"""Loads the JavaScript module in headless Chromium over HTTP, and compares what it says of the example sheet: module.py"""

import functools
import html
import http.server
import os
import re
import subprocess
import threading

ROOT = os.path.abspath(os.path.join(os.path.dirname(__file__), "..", ".."))
PAGE = b"""<!doctype html>
<script type="module">
import * as pattern from '/target/targets/js/pattern.mjs';
const sheet = new Uint8Array(await (await fetch('/tests/programs/report/example.sheet')).arrayBuffer());
let refusal;
try { pattern.report(sheet.subarray(1)); } catch (error) { refusal = error.message; }
document.body.append(Object.assign(document.createElement('pre'), {textContent: pattern.report(sheet) + refusal}));
</script>
"""


class Handler(http.server.SimpleHTTPRequestHandler):
    """Serves the repository, and the page at its root; prints nothing."""

    def do_GET(self):
        if self.path != "/":
            return super().do_GET()
        self.send_response(200)
        self.send_header("Content-Type", "text/html")
        self.end_headers()
        self.wfile.write(PAGE)

    def log_message(self, *words):
        pass


server = http.server.ThreadingHTTPServer(("127.0.0.1", 0), functools.partial(Handler, directory=ROOT))
threading.Thread(target=server.serve_forever, daemon=True).start()
flags = ["--headless=new", "--no-sandbox", "--disable-gpu", "--virtual-time-budget=20000", "--dump-dom"]
command = ["chromium", *flags, f"http://127.0.0.1:{server.server_port}/"]
page = subprocess.run(command, check=True, capture_output=True, timeout=120).stdout.decode()
server.shutdown()
with open(os.path.join(ROOT, "tests", "programs", "report", "example.out"), encoding="ascii") as file:
    wanted = file.read() + "refused by rule 1: the opening is short or different"
shown = html.unescape(re.search(r"<pre>(.*?)</pre>", page, re.DOTALL)[1])
assert shown == wanted, shown
print("browser: the JavaScript module reports the example sheet")

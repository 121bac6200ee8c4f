#!/usr/bin/env python3
"""Opens the page in a headless Firefox, by its Marionette protocol, and asks it what breaks.

    tests/firefox.py PAGE

The status is 0 if it has the eight lines of the first example, and the fault of the third one's message is marked."""

import json
import os
import pathlib
import signal
import socket
import subprocess
import sys
import tempfile
import time

STARTS, ANSWERS = 60, 90
"""How many seconds Firefox may take to start, and the page to answer."""

LINES, FAULT = 8, "5005 missing Started"
ASK = """
const done = arguments[arguments.length - 1], end = Date.now() + arguments[0] * 1000;
const found = () => ({ lines: document.querySelectorAll('#lines .row').length, refused: document.getElementById('refused').textContent,
  faults: [...document.querySelectorAll('#line-detail .why')].map(it => it.textContent) });
(function wait() {
  const { lines, refused, faults } = found();
  if (lines && !faults.length) document.querySelectorAll('#lines .row')[2].click();
  if (faults.length || refused || Date.now() > end) done(found());
  else setTimeout(wait, 200);
})();
"""


class Marionette:
    """Messages are [kind, number, name, words], as JSON after its length."""

    def __init__(self, port):
        self.link, self.left, self.number = self.connected(port), b"", 0
        self.receive()

    @staticmethod
    def connected(port):
        for _ in range(2 * STARTS):
            try:
                return socket.create_connection(("127.0.0.1", port), timeout=2 * ANSWERS)
            except OSError:
                time.sleep(0.5)
        raise SystemExit("Firefox doesn't start")

    def more(self):
        piece = self.link.recv(1 << 20)
        if not piece:
            raise SystemExit("Firefox has ended")
        self.left += piece

    def receive(self):
        while b":" not in self.left:
            self.more()
        size, self.left = self.left.split(b":", 1)
        while len(self.left) < int(size):
            self.more()
        text, self.left = self.left[:int(size)], self.left[int(size):]
        return json.loads(text)

    def ask(self, name, **words):
        self.number += 1
        data = json.dumps([0, self.number, name, words]).encode()
        self.link.sendall(str(len(data)).encode() + b":" + data)
        _, _, error, answer = self.receive()
        if error:
            raise SystemExit(f"{name}: {error}")
        return answer


def free_port():
    with socket.socket() as it:
        it.bind(("127.0.0.1", 0))
        return it.getsockname()[1]


def main():
    page, port = pathlib.Path(sys.argv[1]).resolve(), free_port()
    with tempfile.TemporaryDirectory(ignore_cleanup_errors=True) as home:
        (pathlib.Path(home) / "user.js").write_text(f'user_pref("marionette.port", {port});\n', encoding="ascii")
        words = ["firefox-esr", "--headless", "--marionette", "--no-remote", "--profile", home]
        how = {"stdout": subprocess.DEVNULL, "stderr": subprocess.DEVNULL, "start_new_session": True}
        with subprocess.Popen(words, env={**os.environ, "HOME": home}, **how) as child:
            try:
                browser = Marionette(port)
                browser.ask("WebDriver:NewSession", capabilities={})
                browser.ask("WebDriver:SetTimeouts", script=2 * ANSWERS * 1000)
                browser.ask("WebDriver:Navigate", url=page.as_uri())
                found = browser.ask("WebDriver:ExecuteAsyncScript", script=ASK, args=[ANSWERS])["value"]
            finally:
                os.killpg(child.pid, signal.SIGTERM)
    print(found)
    return 0 if found["lines"] == LINES and FAULT in found["faults"] else 1


sys.exit(main())

"""Firefox without a window, driven by its own protocol, Marionette: there is no geckodriver in Debian."""

import json
import os
import socket
import subprocess
from pathlib import Path

from processes import SECONDS, until

# How many seconds it may take to end.
PATIENCE = 60

# It takes a port that is free, and writes which into a file of the profile.
PORT = "MarionetteActivePort"
PREFERENCES = """user_pref("marionette.port", 0);
user_pref("toolkit.telemetry.enabled", false);
user_pref("datareporting.policy.dataSubmissionEnabled", false);
user_pref("browser.shell.checkDefaultBrowser", false);
user_pref("app.update.enabled", false);
user_pref("network.captive-portal-service.enabled", false);
user_pref("network.connectivity-service.enabled", false);
"""


class Fault(Exception):
    """What the browser answers that it could not do."""


class Firefox:
    def __init__(self, folder):
        profile = Path(folder) / "profile"
        profile.mkdir()
        (profile / "user.js").write_text(PREFERENCES)
        words = ["firefox-esr", "--headless", "--marionette", "--no-remote", "--profile", profile]
        how = {"stdin": subprocess.DEVNULL, "stdout": subprocess.DEVNULL, "stderr": subprocess.DEVNULL}
        # It refuses a home of another user.
        how["env"] = {**os.environ, "HOME": str(folder)}
        self.process, self.number = subprocess.Popen(words, **how), 0
        self.held = b""
        try:
            self.socket = self.connected(profile / PORT)
            self.read()
            limits = {"script": SECONDS * 1000, "pageLoad": SECONDS * 1000}
            self.ask("WebDriver:NewSession", capabilities={"alwaysMatch": {"timeouts": limits}})
        except BaseException:
            self.end()
            raise

    def connected(self, port):
        is_there = until(lambda: port.is_file() and port.read_text() or self.process.poll() is not None)
        if not is_there or self.process.poll() is not None:
            raise Fault(f"Firefox did not begin: {self.process.poll()}")
        return socket.create_connection(("127.0.0.1", int(port.read_text())), SECONDS)

    def __enter__(self):
        return self

    def __exit__(self, *_):
        self.socket.close()
        self.end()

    def end(self):
        self.process.terminate()
        try:
            self.process.wait(PATIENCE)
        except subprocess.TimeoutExpired:
            self.process.kill()
            self.process.wait()

    def received(self):
        data = self.socket.recv(1 << 20)
        if not data:
            raise Fault("Firefox ended")
        return data

    def read(self):
        """One message: its length, a colon, and JSON."""
        while b":" not in self.held:
            self.held += self.received()
        length, _, self.held = self.held.partition(b":")
        while len(self.held) < int(length):
            self.held += self.received()
        message, self.held = self.held[: int(length)], self.held[int(length) :]
        return json.loads(message)

    def ask(self, command, **given):
        self.number += 1
        data = json.dumps([0, self.number, command, given]).encode()
        self.socket.sendall(b"%d:%b" % (len(data), data))
        _, number, error, result = self.read()
        if error is not None or number != self.number:
            raise Fault(error)
        return result

    def open(self, path):
        self.ask("WebDriver:Navigate", url=Path(path).resolve().as_uri())

    def run(self, script, *values):
        return self.ask("WebDriver:ExecuteScript", script=script, args=list(values))["value"]

    def wait_for(self, script, *values):
        """What a promise gives."""
        script = f"const done = arguments[arguments.length - 1]; ({script}).then(done)"
        return self.ask("WebDriver:ExecuteAsyncScript", script=script, args=list(values))["value"]

"""A server to test at: the program that TUCSON names, or `./tucson` of this repository."""

import os
import socket
import subprocess
import tempfile
import time
from pathlib import Path

import tucson

TOP = Path(__file__).resolve().parents[3]
PROGRAM = os.environ.get("TUCSON") or str(TOP / "tucson")
PRIMITIVES = ("out", "in", "rd", "inp", "rdp", "no", "nop", "set_spec", "get_spec")


def configuration(agents, more=""):
    """A centre `c`, a role that may do all there, and so many agents of it."""
    grants = "".join(f"grant(r,c,{primitive}). " for primitive in PRIMITIVES)
    names = "".join(f"agent(a{number},r). " for number in range(agents))
    return f"centre(c). role(r). {grants}{names}{more}\n"


class Server:
    """A server that listens, up to its end. What runs on behind the test is stopped."""

    def __init__(self, agents=1, more="", text=None):
        self._configuration = configuration(agents, more) if text is None else text
        self._written = tempfile.TemporaryFile()
        self._said = tempfile.TemporaryFile()

    def __enter__(self):
        for _ in range(5):
            if self._starts():
                return self
        told = self._read(self._said) + self._read(self._written)
        raise RuntimeError(f"{PROGRAM} can't be started: {told}")

    def __exit__(self, *_):
        self.stop()
        self._written.close()
        self._said.close()

    def _starts(self):
        with socket.socket() as free:
            free.bind(("127.0.0.1", 0))
            self.port = free.getsockname()[1]
        self._process = subprocess.Popen(
            [PROGRAM, "serve", str(self.port)],
            stdin=subprocess.PIPE,
            stdout=self._written,
            stderr=self._said,
        )
        self._process.stdin.write(self._configuration.encode("utf-8", "surrogateescape"))
        self._process.stdin.close()
        while self._process.poll() is None:
            if f"listening at 127.0.0.1:{self.port}" in self._read(self._said):
                return True
            time.sleep(0.01)
        return False

    @staticmethod
    def _read(file):
        file.seek(0)
        return file.read().decode("utf-8", "surrogateescape")

    def connect(self):
        return tucson.connect("127.0.0.1", self.port)

    def wait(self, seconds=30):
        """Its status, and the text that it has written, once it ends."""
        status = self._process.wait(seconds)
        return status, self._read(self._written)

    def stop(self):
        """Stops it, if it runs on."""
        if self._process.poll() is None:
            self._process.terminate()
            self._process.wait()

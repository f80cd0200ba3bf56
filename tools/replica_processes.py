"""The processes of replicas on one machine, a log server, writers and readers: for tools/replicas and
bench/replicas.py.

Each runs in a session of its own, so that a signal from a terminal does not reach it; whoever starts them ends them.
They end too where that process is killed, by `setpriv` of util-linux, where it is installed.
"""

import os
import re
import shutil
import signal
import socket
import subprocess
import time
from contextlib import suppress
from pathlib import Path

from replica_log import Log, LogFault

TOOLS = Path(__file__).resolve().parent
SERVER = "redis-server"
SECONDS = 120
PAUSE = 0.02


class NotStarted(Exception):
    """A process did not start as it is to; the text says which."""


def is_installed():
    """Whether a log server can be started."""
    return shutil.which(SERVER) is not None


def bound(words):
    """The words of a process that is killed when the one that starts it ends."""
    return [*(("setpriv", "--pdeathsig", "KILL") if shutil.which("setpriv") else ()), *words]


def started(words, **files):
    """A process of these words."""
    return subprocess.Popen(bound(words), stdin=subprocess.DEVNULL, start_new_session=True, **files)


def free_port():
    """A port of this machine's own address that nobody listens on."""
    with socket.socket() as found:
        found.bind(("127.0.0.1", 0))
        return found.getsockname()[1]


def wait_until(is_so, what):
    """Waits until something is so, for two minutes at most."""
    until = time.monotonic() + SECONDS
    while not is_so():
        if time.monotonic() > until:
            raise NotStarted(what)
        time.sleep(PAUSE)


class Process:
    """A process that is started, and started again."""

    child = None

    def is_running(self):
        return self.child is not None and self.child.poll() is None

    def send(self, number):
        """Sends a signal to the process and to those that it started."""
        if self.is_running():
            with suppress(ProcessLookupError):
                os.killpg(self.child.pid, number)

    def end(self, number=signal.SIGKILL):
        """Ends it by a signal, which it gets alone but for SIGKILL; answers its status."""
        if self.child is None:
            return None
        if number == signal.SIGKILL:
            self.send(signal.SIGKILL)
        elif self.is_running():
            self.child.send_signal(number)
        try:
            return self.child.wait(SECONDS)
        except subprocess.TimeoutExpired:
            self.send(signal.SIGKILL)
            return self.child.wait()


class LogServer(Process):
    """A Redis server at 127.0.0.1, which stores what it takes in a folder before it says so."""

    def __init__(self, folder, when_stored="always"):
        self.folder, self.port, self.when_stored = folder, free_port(), when_stored
        self.address = f"127.0.0.1:{self.port}"

    def start(self):
        """Starts it with what it has stored, and waits until it answers."""
        options = {
            "bind": "127.0.0.1", "port": self.port, "protected-mode": "yes", "dir": self.folder, "save": "",
            "appendonly": "yes", "appendfsync": self.when_stored, "logfile": self.folder / "server.log",
        }  # fmt: skip
        words = [word for name, value in options.items() for word in (f"--{name}", str(value))]
        self.child = started([SERVER, *words])
        wait_until(lambda: self.answers() or not self.is_running(), SERVER)
        if not self.is_running():
            raise NotStarted(f"{SERVER}: {(self.folder / 'server.log').read_text()[-500:]}")

    def answers(self):
        try:
            with Log(self.address, seconds=1) as log:
                return log.ask("PING") == "PONG"
        except LogFault:
            return False


class Writer(Process):
    """A writer of the lines of a file."""

    def __init__(self, log, path, rate):
        self.words = [TOOLS / "replica_writer", "--log", log, *(["--rate", str(rate)] if rate else []), path]

    def start(self):
        self.child = started(self.words, stdout=subprocess.DEVNULL, stderr=subprocess.DEVNULL)


class Replica(Process):
    """A reader with its `serve`, and the files of a machine: its record, the replies to messages, and its errors."""

    def __init__(self, name, log, folder, serve):
        self.name, self.log, self.serve = name, log, serve
        self.record, self.replies, self.errors = (folder / f"{name}.{kind}" for kind in ("record", "replies", "errors"))
        self.address = str(folder / f"{name}.socket")

    def start(self):
        """Starts it, or its successor."""
        Path(self.address).unlink(missing_ok=True)
        files = ["--record", self.record, "--replies", self.replies, "--clients", self.address]
        words = [TOOLS / "replica_reader", "--log", self.log, *files, *bound(self.serve)]
        with self.errors.open("ab") as errors:
            self.child = started(words, stderr=errors)

    def serve_process(self):
        """The number of its `serve` process, or None where none runs."""
        found = re.findall(r"serve is process (\d+)", self.errors.read_text())
        return int(found[-1]) if found and parent_of(found[-1]) == self.child.pid else None


def parent_of(process):
    """The number of the process that started one, or None where that has ended."""
    try:
        return int(Path(f"/proc/{process}/stat").read_text().rpartition(")")[2].split()[1])
    except OSError:
        return None


def listening_addresses(process):
    """The internet addresses at which a process listens, each with its port."""
    links = (os.readlink(link) for link in Path(f"/proc/{process}/fd").iterdir())
    sockets = {link[8:-1] for link in links if link.startswith("socket:[")}
    for table in ("tcp", "tcp6"):
        path = Path(f"/proc/{process}/net/{table}")
        rows = [row.split() for row in path.read_text().splitlines()[1:]] if path.exists() else []
        yield from (row[1] for row in rows if row[3] == "0A" and row[9] in sockets)

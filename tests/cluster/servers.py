"""The servers and the balancer, each on a machine of its own."""

from __future__ import annotations

import os
import re
import signal
import socket
import subprocess
import time
from typing import Dict, Optional

from network import ADDRESSES, BALANCER, SERVERS, inside

PORT = 7879
TLS_PORT = 7880
ADMIN_PORT = 9879
AT_ONCE = 160
#: For how many seconds a drain waits for streams at most.
DRAIN = 20
#: Two servers have to take the streams of three.
MAXCONN = 156
_HERE = os.path.dirname(os.path.abspath(__file__))
_SHIPPED = os.path.join(_HERE, "..", "..", "contrib", "haproxy", "haproxy.cfg")
_RUNTIME = "/run/haproxy/admin.sock"
_CERTIFICATE = "/run/iconvd.pem"


class Server:
    """An iconvd on a machine of its own."""

    def __init__(self, name: str, program: str) -> None:
        self.name = name
        self.program = program
        self._admin = f"{ADDRESSES[name]}:{ADMIN_PORT}"
        self._process: Optional["subprocess.Popen[bytes]"] = None

    def start(self) -> None:
        """Starts it, and waits until it listens."""
        words = [self.program, "listen", f"{ADDRESSES[self.name]}:{PORT}", "--at-once", str(AT_ONCE), "--admin", self._admin]
        words += ["--when-full", "close", "--drain", str(DRAIN)]
        self._process = subprocess.Popen(inside(self.name, words), stdout=subprocess.PIPE, stderr=subprocess.DEVNULL)
        assert self._process.stdout is not None
        if not self._process.stdout.readline().startswith(b"listening"):
            raise RuntimeError(f"server {self.name} does not listen")

    def send(self, number: signal.Signals) -> None:
        assert self._process is not None
        self._process.send_signal(number)

    def end(self, number: signal.Signals) -> None:
        """Sends it a signal, and waits until it has ended."""
        self.send(number)
        assert self._process is not None and self._process.stdout is not None
        self._process.wait()
        self._process.stdout.close()

    def ask(self, page: str) -> str:
        """Asks its admin address, from its own machine, and returns the answer."""
        words = [self.program, "admin", self._admin, page]
        return subprocess.run(inside(self.name, words), stdout=subprocess.PIPE, stderr=subprocess.STDOUT, text=True).stdout

    def drain(self) -> int:
        """Stops it as the unit's ExecStop= does, and returns its exit status. If it does not end, it is killed."""
        self.ask("drain")
        assert self._process is not None and self._process.stdout is not None
        try:
            status = self._process.wait(10 * DRAIN)
        except subprocess.TimeoutExpired:
            self._process.kill()
            status = self._process.wait()
        self._process.stdout.close()
        return status

    def runs(self, program: str) -> bool:
        """Whether the process that serves runs this file."""
        assert self._process is not None
        return os.path.samefile(f"/proc/{self._process.pid}/exe", program)


def _replaced(text: str, pattern: str, by: str) -> str:
    """Replaces all matches of a pattern. There has to be at least one."""
    text, count = re.subn(pattern, by, text, flags=re.MULTILINE)
    if count == 0:
        raise RuntimeError(f"haproxy.cfg has no {pattern}")
    return text


def configuration() -> str:
    """The shipped configuration, with the addresses of these machines, and without the lines that need the system's users."""
    with open(_SHIPPED, encoding="utf-8") as file:
        text = file.read()
    text = _replaced(text, r"^    (user|group|chroot|log /dev/log) .*\n", "")
    text = _replaced(text, r" mode 660 group haproxy$", " mode 660")
    text = _replaced(text, r"^    bind 127\.0\.0\.1:7879$", f"    bind {ADDRESSES[BALANCER]}:{PORT}")
    text = _replaced(text, r"^    # bind :7880 ssl crt \S+ (.*) ca-file \S+ ", f"    bind :{TLS_PORT} ssl crt {_CERTIFICATE} \\1 ca-file {_CERTIFICATE} ")
    text = _replaced(text, r"\bmaxconn 120\b", f"maxconn {MAXCONN}")
    for number, name in enumerate(SERVERS, 1):
        text = _replaced(text, rf"^    server {name} 192\.0\.2\.{number}:7879", f"    server {name} {ADDRESSES[name]}:{PORT}")
    return text


def make_certificate() -> str:
    """Makes a self-signed certificate for the balancer and for its clients, and returns its file, or "" if there is no openssl."""
    words = ["openssl", "req", "-x509", "-newkey", "rsa:2048", "-nodes", "-days", "2", "-subj", "/CN=iconvd", "-keyout", _CERTIFICATE,
             "-out", "/run/certificate"]  # fmt: skip
    try:
        subprocess.run(words, check=True, stderr=subprocess.DEVNULL)
    except (FileNotFoundError, subprocess.CalledProcessError):
        return ""
    with open("/run/certificate", encoding="ascii") as certificate, open(_CERTIFICATE, "a", encoding="ascii") as file:
        file.write(certificate.read())
    return _CERTIFICATE


class Balancer:
    """HAProxy with the shipped configuration."""

    def __init__(self) -> None:
        os.makedirs("/run/haproxy", exist_ok=True)
        self.has_tls = bool(make_certificate())
        text = configuration()
        if not self.has_tls:
            text = _replaced(text, rf"^    bind :{TLS_PORT} .*\n", "")
        with open("/run/haproxy.cfg", "w", encoding="utf-8") as file:
            file.write(text)
        subprocess.run(["haproxy", "-c", "-q", "-f", "/run/haproxy.cfg"], check=True)
        self._process = subprocess.Popen(inside(BALANCER, ["haproxy", "-db", "-f", "/run/haproxy.cfg"]), stderr=subprocess.DEVNULL)
        deadline = time.monotonic() + 30
        while not os.path.exists(_RUNTIME) and time.monotonic() < deadline:
            time.sleep(0.05)

    @staticmethod
    def command(text: str) -> str:
        """Runs a command of the runtime socket."""
        with socket.socket(socket.AF_UNIX) as runtime:
            runtime.connect(_RUNTIME)
            runtime.sendall(text.encode() + b"\n")
            said = b""
            while piece := runtime.recv(65536):
                said += piece
        return said.decode()

    def owners(self) -> Dict[int, str]:
        """Returns for each stream of the machine of the clients, by its port there, the server that has it."""
        found = re.findall(r"src=10\.79\.0\.1:(\d+) fe=iconvd be=iconvd srv=(\w+)", self.command("show sess"))
        return {int(port): server for port, server in found}

    def status(self, server: str) -> str:
        """Returns HAProxy's status of a server: UP, DOWN, DRAIN, ..."""
        for line in self.command("show stat").splitlines():
            columns = line.split(",")
            if columns[:2] == ["iconvd", server]:
                return columns[17]
        return ""

    def shares(self) -> str:
        """Returns HAProxy's status of each server, how many streams it has, and how many wait."""
        rows = [line.split(",") for line in self.command("show stat").splitlines()]
        return ", ".join(f"{row[1]} {row[17]} {row[4]} ({row[2]} wait)" for row in rows if row[0] == "iconvd")

    def metrics(self) -> str:
        """Returns the metrics page, read on the balancer's machine."""
        fetch = "import urllib.request; print(urllib.request.urlopen('http://127.0.0.1:8404/metrics').read().decode())"
        return subprocess.run(inside(BALANCER, ["python3", "-c", fetch]), check=True, capture_output=True, text=True).stdout

    def end(self) -> None:
        self._process.kill()
        self._process.wait()

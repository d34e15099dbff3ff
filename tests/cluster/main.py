"""main.py PROGRAM LIBRARY: runs the check on the machine of the clients, as process 1 of its namespaces (see check)."""

from __future__ import annotations

import asyncio
import os
import signal
import ssl
import subprocess
import sys
from typing import Dict, List

TOP = os.path.join(os.path.dirname(os.path.abspath(__file__)), "..", "..")
sys.path.insert(0, os.path.join(TOP, "clients", "python"))

# ruff: noqa: E402
from cases import Cases, Results
from conversation import PING, PONG, record
from network import ADDRESSES, BALANCER, SERVERS, Network
from servers import PORT, TLS_PORT, Balancer, Server
from streams import Crowd

STREAMS = 300
CONVERSATIONS = 12


class Library:
    """A client by a library, which has to recover by itself."""

    def __init__(self, name: str, words: List[str]) -> None:
        self._name = name
        environment = {**os.environ, "PYTHONPATH": os.path.join(TOP, "clients", "python")}
        self._process = subprocess.Popen(words, stdin=subprocess.PIPE, stdout=subprocess.PIPE, text=True, env=environment)

    def end(self, results: Results) -> None:
        said, _ = self._process.communicate()
        numbers = [int(word) for word in said.split()]
        if self._process.returncode != 0 or len(numbers) != 4:
            results.check(False, f"{self._name}: it ends well", f"status {self._process.returncode}: {said}")
            return
        conversions, wrong, failed, connections = numbers
        results.check(conversions > 100 and wrong == 0, f"{self._name}: each of {conversions} conversions is right", f"{wrong} are not")
        results.check(failed == 0, f"{self._name}: no conversion fails", f"{failed} did")
        results.check(connections > 4, f"{self._name}: it went on by {connections} streams")


async def ping(reader: asyncio.StreamReader, writer: asyncio.StreamWriter) -> bool:
    """Sends a ping, and closes the stream."""
    writer.write(PING)
    said = await reader.readexactly(len(PONG))
    writer.close()
    return said == PONG


async def frontends(balancer: Balancer, results: Results) -> None:
    """The Unix socket, TLS with certificates on both sides, and the metrics."""
    results.check(await ping(*await asyncio.open_unix_connection("/run/haproxy/iconvd.sock")), "a stream by the Unix socket")
    if balancer.has_tls:
        context = ssl.create_default_context(cafile="/run/iconvd.pem")
        context.check_hostname = False
        try:
            refused = not await ping(*await asyncio.open_connection(ADDRESSES[BALANCER], TLS_PORT, ssl=context))
        except (OSError, asyncio.IncompleteReadError):
            refused = True
        results.check(refused, "by TLS a client without a certificate is refused")
        context.load_cert_chain("/run/iconvd.pem")
        results.check(await ping(*await asyncio.open_connection(ADDRESSES[BALANCER], TLS_PORT, ssl=context)), "a stream by TLS")
    metrics = await asyncio.to_thread(balancer.metrics)
    missing = [name for name in SERVERS if f'haproxy_server_status{{proxy="iconvd",server="{name}",state="UP"}} 1' not in metrics]
    results.check(not missing, "the metrics say that each server is up", str(missing))


async def check(program: str, library: str) -> Results:
    results = Results()
    network = Network()
    servers: Dict[str, Server] = {name: Server(name, program) for name in SERVERS}
    for server in servers.values():
        server.start()
    conversations = [record((ADDRESSES["one"], PORT), seed) for seed in range(CONVERSATIONS)]
    results.check(True, f"{sum(map(len, conversations))} exchanges of an undisturbed server are what Python's codecs say")
    balancer = Balancer()
    where = f"tcp:{ADDRESSES[BALANCER]}:{PORT}"
    await frontends(balancer, results)
    crowd = Crowd(conversations, STREAMS)
    crowd.start(ADDRESSES[BALANCER], PORT)
    cases = Cases(network, servers, balancer, crowd, results)
    await cases.spread()
    here = os.path.dirname(os.path.abspath(__file__))
    libraries = [
        Library("C library", [sys.executable, os.path.join(here, "c_library.py"), library, where]),
        Library("Python library", [sys.executable, os.path.join(here, "goes_on.py"), where]),
    ]
    await cases.run()
    await crowd.end()
    for client in libraries:
        client.end(results)
    print(f"{crowd.replies()} replies to {STREAMS} streams were compared")
    for server in servers.values():
        server.end(signal.SIGKILL)
    balancer.end()
    return results


def main() -> int:
    results = asyncio.run(check(sys.argv[1], sys.argv[2]))
    print(f"{results.passed} passed, {results.failed} failed")
    return results.failed > 0


if __name__ == "__main__":
    sys.exit(main())

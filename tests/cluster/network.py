"""Five machines on one switch, as network namespaces of this run."""

from __future__ import annotations

import subprocess
from typing import Dict, List, Sequence

CLIENTS = "clients"
BALANCER = "balancer"
SERVERS = ("one", "two", "three")
ADDRESSES: Dict[str, str] = {CLIENTS: "10.79.0.1", BALANCER: "10.79.0.2", "one": "10.79.0.11", "two": "10.79.0.12", "three": "10.79.0.13"}
_SWITCH = "switch"

#: One packet in twenty is lost, and each is late by five milliseconds.
_NETEM = ("netem", "delay", "5ms", "3ms", "loss", "5%")
#: If the kernel has no netem: a narrow link, on which packets wait, and a filter that drops one in twenty.
_NARROW = ("tbf", "rate", "4mbit", "burst", "16kb", "latency", "200ms")
_LOSS = "table inet loss {\n chain input {\n  type filter hook input priority 0;\n  numgen random mod 100 < 5 drop\n }\n}\n"


def run(words: Sequence[str], text: str = "") -> bool:
    """Runs a command, and drops its output. Returns whether its status was 0."""
    return subprocess.run(words, input=text.encode(), stdout=subprocess.DEVNULL, stderr=subprocess.DEVNULL, check=False).returncode == 0


def must_run(*words: str) -> None:
    """Runs a command whose status has to be 0."""
    subprocess.run(words, check=True)


def inside(node: str, words: Sequence[str]) -> List[str]:
    """Returns the command that runs `words` on a machine, as the same process."""
    return list(words) if node == CLIENTS else ["nsenter", f"--net=/run/netns/{node}", *words]


class Network:
    """The switch and its five links. This process is on the machine of the clients."""

    def __init__(self) -> None:
        must_run("mount", "-t", "tmpfs", "none", "/run")
        must_run("ip", "netns", "add", _SWITCH)
        must_run("ip", "-n", _SWITCH, "link", "add", "bridge", "type", "bridge")
        must_run("ip", "-n", _SWITCH, "link", "set", "bridge", "up")
        for node, address in ADDRESSES.items():
            self._connect(node, address)

    @staticmethod
    def _connect(node: str, address: str) -> None:
        if node == CLIENTS:
            other_end = "1"  # the namespace of process 1, which is this one
        else:
            must_run("ip", "netns", "add", node)
            other_end = node
        must_run("ip", "link", "add", node, "netns", _SWITCH, "type", "veth", "peer", "name", "eth0", "netns", other_end)
        must_run("ip", "-n", _SWITCH, "link", "set", node, "master", "bridge", "up")
        must_run(*inside(node, ["ip", "address", "add", f"{address}/24", "dev", "eth0"]))
        must_run(*inside(node, ["ip", "link", "set", "eth0", "up"]))
        must_run(*inside(node, ["ip", "link", "set", "lo", "up"]))

    @staticmethod
    def cut(node: str) -> None:
        """Pulls the machine's cable."""
        must_run("ip", "-n", _SWITCH, "link", "set", node, "down")

    @staticmethod
    def mend(node: str) -> None:
        """Puts the cable back."""
        must_run("ip", "-n", _SWITCH, "link", "set", node, "up")

    @staticmethod
    def disturb(nodes: Sequence[str]) -> str:
        """Delays packets to and from these machines, and loses some. Returns which of these the kernel could do."""
        done = set()
        for node in nodes:
            replace = ["tc", "qdisc", "replace", "dev", "eth0", "root"]
            if run(inside(node, [*replace, *_NETEM])):
                done.add("netem: loss and delay")
                continue
            if run(inside(node, [*replace, *_NARROW])):
                done.add("tbf: a narrow link")
            if run(inside(node, ["nft", "-f", "-"]), _LOSS):
                done.add("nft: loss")
        return ", ".join(sorted(done))

    @staticmethod
    def calm(nodes: Sequence[str]) -> None:
        """Ends the disturbance."""
        for node in nodes:
            run(inside(node, ["tc", "qdisc", "del", "dev", "eth0", "root"]))
            run(inside(node, ["nft", "delete", "table", "inet", "loss"]))

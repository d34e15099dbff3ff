"""What happens to the servers and to the network, and what each stream may notice of it."""

from __future__ import annotations

import asyncio
import os
import shutil
import signal
from typing import Callable, Dict, List

from network import ADDRESSES, BALANCER, SERVERS, Network
from servers import AT_ONCE, PORT, Balancer, Server
from streams import Crowd, Stream, until


class Results:
    """Counts what passed, and prints each check."""

    def __init__(self) -> None:
        self.passed = 0
        self.failed = 0

    def check(self, holds: bool, what: str, why: str = "") -> None:
        self.passed += holds
        self.failed += not holds
        print(f"{'ok' if holds else 'FAILED'}: {what}{'' if holds or not why else ': ' + why}", flush=True)


class Cases:
    """All cases, with one crowd of streams that run all the time."""

    def __init__(self, network: Network, servers: Dict[str, Server], balancer: Balancer, crowd: Crowd, results: Results) -> None:
        self._network = network
        self._servers = servers
        self._balancer = balancer
        self._crowd = crowd
        self._results = results

    async def run(self) -> None:
        await self._killed("one")
        await self._stopped("two")
        await self._paused("one")
        await self._filled("two")
        await self._drained_by_stop("three")
        await self._drained("three")
        await self._upgraded("one")
        await self._cut_short("two")
        await self._cut_long("three")
        await self._disturbed()

    # ---- shared by the cases

    def _streams_of(self, name: str) -> List[Stream]:
        owners = self._balancer.owners()
        return [stream for stream in self._crowd.streams if owners.get(stream.port) == name]

    def _status_is(self, name: str, *wanted: str) -> Callable[[], bool]:
        return lambda: self._balancer.status(name).split(" ")[0] in wanted

    async def _all_go_on(self, case: str) -> None:
        """Each stream gets replies to requests that it sends from now on."""
        before = {stream: stream.replies for stream in self._crowd.streams}
        went_on = await until(lambda: all(stream.replies > count + 8 for stream, count in before.items()))
        silent = sum(stream.replies <= count + 8 for stream, count in before.items())
        self._results.check(went_on, f"{case}: each stream goes on", f"{silent} do not; {self._balancer.shares()}")
        self._results.check(not self._crowd.wrong(), f"{case}: each reply is right", "; ".join(self._crowd.wrong()[:3]))

    async def _lose(self, case: str, name: str, act: Callable[[], object]) -> None:
        """Does something that ends the streams of one server, and of no other."""
        theirs = self._streams_of(name)
        before = {stream: stream.losses for stream in self._crowd.streams}
        await asyncio.to_thread(act)
        lost = await until(lambda: all(stream.losses > before[stream] for stream in theirs))
        self._results.check(lost and len(theirs) > 0, f"{case}: its {len(theirs)} streams end")
        others = [stream for stream in self._crowd.streams if stream not in theirs]
        disturbed = sum(stream.losses > before[stream] for stream in others)
        self._results.check(disturbed == 0, f"{case}: the {len(others)} streams of other servers see nothing", f"{disturbed} were lost")
        await self._all_go_on(case)

    async def _come_back(self, case: str, name: str) -> None:
        """The server is up again, and gets streams."""
        up = await until(self._status_is(name, "UP"))
        self._results.check(up, f"{case}: the server is taken back")

    async def _level(self) -> None:
        """Gives each server a third of the streams again, by moving streams of servers that have more. This tests nothing."""
        await until(lambda: all(self._status_is(name, "UP", "NOLB")() for name in SERVERS))
        for name in SERVERS:
            self._balancer.command(f"set server iconvd/{name} weight 100")
        owners = self._balancer.owners()
        third = len(self._crowd.streams) // len(SERVERS)
        for name in SERVERS:
            ports = [port for port, owner in owners.items() if owner == name]
            for stream in [stream for stream in self._crowd.streams if stream.port in ports][third:]:
                stream.move()
        await until(lambda: all(stream.port for stream in self._crowd.streams))

    # ---- the cases

    async def spread(self) -> None:
        await until(lambda: all(stream.port for stream in self._crowd.streams))
        counts = {name: len(self._streams_of(name)) for name in SERVERS}
        third = len(self._crowd.streams) // len(SERVERS)
        self._results.check(set(counts.values()) == {third}, "each server has a third of the streams", str(counts))

    async def _killed(self, name: str) -> None:
        await self._lose("killed", name, lambda: self._servers[name].end(signal.SIGKILL))
        self._results.check(await until(self._status_is(name, "DOWN")), "killed: the balancer knows")
        self._servers[name].start()
        await self._come_back("killed", name)
        await self._level()

    async def _stopped(self, name: str) -> None:
        await self._lose("stopped", name, lambda: self._servers[name].send(signal.SIGSTOP))
        self._servers[name].send(signal.SIGCONT)
        await self._come_back("stopped", name)
        await self._level()

    async def _paused(self, name: str) -> None:
        """A stop of 0.3 s, as by a debugger that attaches."""
        before = {stream: stream.losses for stream in self._crowd.streams}
        self._servers[name].send(signal.SIGSTOP)
        await asyncio.sleep(0.3)
        self._servers[name].send(signal.SIGCONT)
        await self._all_go_on("stopped for 0.3 s")
        lost = sum(stream.losses > before[stream] for stream in self._crowd.streams)
        self._results.check(lost == 0, "stopped for 0.3 s: no stream is lost", f"{lost} were")

    async def _filled(self, name: str) -> None:
        """Other clients take all places of a server."""
        before = {stream: stream.losses for stream in self._crowd.streams}
        others = []
        said = "ok\n"
        while said == "ok\n" and len(others) < 2 * AT_ONCE:
            others.append(await asyncio.open_connection(ADDRESSES[name], PORT))
            await asyncio.sleep(0.02)
            said = await asyncio.to_thread(self._servers[name].ask, "health")
        self._results.check(said == "full\n", f"full: its health says so after {len(others)} more streams", said)
        self._results.check(await until(self._status_is(name, "NOLB")), "full: the balancer sends it no new stream")
        await self._all_go_on("full")
        lost = sum(stream.losses > before[stream] for stream in self._crowd.streams)
        self._results.check(lost == 0, "full: no stream is lost", f"{lost} were")
        for _, writer in others:
            writer.close()
        await self._come_back("full", name)
        await self._level()

    async def _drained_by_stop(self, name: str) -> None:
        """The server is stopped as by ExecStop= of its unit, while its clients first send and then are silent. Later it is started again."""
        theirs = self._streams_of(name)
        before = {stream: stream.losses for stream in self._crowd.streams}
        unanswered = self._crowd.unanswered()
        stop = asyncio.create_task(asyncio.to_thread(self._servers[name].drain))
        await asyncio.sleep(2)
        for stream in theirs:
            stream.is_silent = stream.losses == before[stream]
        status = await stop
        self._results.check(status == 0, "stopped by a drain: its exit status is 0", str(status))
        others = sum(stream.losses > before[stream] for stream in self._crowd.streams if stream not in theirs)
        self._results.check(others == 0, "stopped by a drain: the streams of other servers see nothing", f"{others} were lost")
        await self._all_go_on("stopped by a drain")
        lost = self._crowd.unanswered() - unanswered
        self._results.check(lost == 0, f"stopped by a drain: no request of its {len(theirs)} streams is lost", f"{lost} were")
        self._servers[name].start()
        await self._come_back("stopped by a drain", name)
        await self._level()

    async def _drained(self, name: str) -> None:
        before = {stream: stream.losses for stream in self._crowd.streams}
        theirs = self._streams_of(name)
        self._balancer.command(f"set server iconvd/{name} state drain")
        others = [stream for stream in self._crowd.streams if stream not in theirs][:20]
        for stream in others:
            stream.move()
        await self._all_go_on("drained")
        now = self._streams_of(name)
        stayed = all(stream.losses == before[stream] for stream in theirs)
        self._results.check(stayed and set(now) == set(theirs), "drained: its streams stay, and no new one comes")
        await self._lose("drained, streams ended", name, lambda: self._balancer.command(f"shutdown sessions server iconvd/{name}"))
        self._results.check(not self._streams_of(name), "drained: it is empty")
        self._balancer.command(f"set server iconvd/{name} state ready")
        await self._come_back("drained", name)
        await self._level()

    async def _upgraded(self, name: str) -> None:
        server = self._servers[name]
        upgraded = "/run/iconvd-upgraded"
        shutil.copy(server.program, upgraded)

        def upgrade() -> None:
            self._balancer.command(f"set server iconvd/{name} state drain")
            self._balancer.command(f"shutdown sessions server iconvd/{name}")
            server.end(signal.SIGTERM)
            server.program = upgraded
            server.start()
            self._balancer.command(f"set server iconvd/{name} state ready")

        await self._lose("upgraded", name, upgrade)
        await self._come_back("upgraded", name)
        await self._level()
        self._results.check(server.runs(upgraded) and len(self._streams_of(name)) > 0, "upgraded: the new program serves")
        os.remove(upgraded)

    async def _cut_short(self, name: str) -> None:
        before = {stream: stream.losses for stream in self._crowd.streams}
        self._network.cut(name)
        await asyncio.sleep(1)
        self._network.mend(name)
        await self._all_go_on("cable out for a second")
        lost = sum(stream.losses > before[stream] for stream in self._crowd.streams)
        self._results.check(lost == 0, "cable out for a second: no stream is lost", f"{lost} were")

    async def _cut_long(self, name: str) -> None:
        await self._lose("cable out", name, lambda: self._network.cut(name))
        self._network.mend(name)
        await self._come_back("cable out", name)

    async def _disturbed(self) -> None:
        before = {stream: stream.losses for stream in self._crowd.streams}
        how = self._network.disturb([BALANCER, *SERVERS])
        case = f"bad network ({how})"
        self._results.check(bool(how), "the network can be disturbed")
        await asyncio.sleep(5)
        await self._all_go_on(case)
        self._network.calm([BALANCER, *SERVERS])
        lost = sum(stream.losses > before[stream] for stream in self._crowd.streams)
        self._results.check(lost == 0, f"{case}: no stream is lost", f"{lost} were")

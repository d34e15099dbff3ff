#!/usr/bin/env python3
"""sweep.py LIBRARY PROGRAM REFUSALS: makes each allocation fail in turn, for each command of iconvd and for the program gate_refusals.

Each runs with its Nth allocation failing (refuse.c), for N from 1 until a run has fewer. A run may end in one of these ways:
- the ample answer, which is that of a run in which no allocation fails;
- replies of which some are ENOMEM, and the others are those of the same requests without these;
- status 1 and the line `iconvd: out of memory`, with nothing printed or, if replies are written as they come, a prefix of the ample ones that
  ends with a whole one; a stream of `listen` may end so while the others are served whole, and the status is 0;
- the ample answers of `listen`, and one line that it serves fewer streams at once than it was asked to.
`gate_refusals` may have only the ample answer; it prints on standard error which call it made again, and that is counted. It runs once more with
its large allocations failing in turn. Some of these are for a guess of what may come, and no call may fail for them: only calls in NEEDY are
made again.
Any other run is printed, and the status is then 1. The last line is `N passed, N failed`, and counts the runs.
"""
import collections
import concurrent.futures
import functools
import itertools
import os
import re
import socket
import subprocess
import sys
import tempfile
import time

LIBRARY, PROGRAM, REFUSALS = map(os.path.abspath, sys.argv[1:])
SAYS = b"iconvd: out of memory\n"
OF_STREAM = re.compile(rb"iconvd: stream from [0-9.]+:[0-9]+: out of memory, after [0-9]+ requests?\n")
FEWER_THREADS = re.compile(rb"iconvd: only [0-9]+ streams at once: cannot start more threads\n")
OUTCOMES = AMPLE, FEWER, ENOMEM, NOTHING, FRONT = ["ample", "fewer threads", "ENOMEM", "no memory", "after replies"]
SECONDS = 20  # a run that takes longer hangs
LARGE = 16384  # the least size of a large allocation, in bytes
# Calls of `gate_refusals` that need large allocations: for what a stream or a part brought, and not for a guess of what may come.
NEEDY = {"what calls are given", "World::answer", *(f"{engine}::{call}" for engine in ("World", "WorldWith", "Pool") for call in ("batch", "batch_into")),
         "serve", "serve, WorldWith", "serve, Pool", "serve, a text held", "serve_bytes"}
CHARMAP = rb"<code_set_name> TOY|CHARMAP|<question-mark> \x3F|<U0100> \x80|END CHARMAP".replace(b"|", b"\n")

Run = collections.namedtuple("Run", "status printed said streams", defaults=[()])
# A command: its words and its input; the form and the bytes of the requests that it answers, and the command that answers them if no allocation
# fails; its status if it ends after some of its replies; and the least size of an allocation that fails, in bytes.
Case = collections.namedtuple("Case", "words given form requests answering broken least", defaults=[None, b"", (), None, 0])


class Lines:
    """Scripts and reply lines."""
    @staticmethod
    def cut(data):
        return data.splitlines(keepends=True)

    @staticmethod
    def is_refusal(reply):
        return reply.split()[2:3] == [b"ENOMEM"]

    @staticmethod
    def refusal_of(request):
        return b" ".join(request.split()[:2]) + b" ENOMEM -\n"


class Frames:
    """Streams of frames."""
    @staticmethod
    def cut(data):
        found = []
        while data:
            size = 4 + int.from_bytes(data[:4], "big")
            found.append(data[:size])
            data = data[size:]
        return found

    @staticmethod
    def is_refusal(reply):
        return reply[12:13] == b"\x06"

    @staticmethod
    def refusal_of(request):
        return b"\0\0\0\x09" + request[4:12] + b"\x06"


def served(words, given, nth=0, least=0):
    """A run whose Nth allocation fails, and how many it had. Allocations of fewer bytes than the least are not counted."""
    with tempfile.NamedTemporaryFile() as count:
        refusing = dict(os.environ, FAIL_NTH=str(nth), FAIL_FROM=str(least), COUNT_TO=count.name, LD_PRELOAD=LIBRARY)
        child = subprocess.Popen(words, stdin=subprocess.PIPE, stdout=subprocess.PIPE, stderr=subprocess.PIPE, env=refusing)
        try:
            run = given(child) if callable(given) else Run(None, *child.communicate(given, SECONDS))
        except (subprocess.TimeoutExpired, OSError):
            child.kill()
            run = Run(None, *child.communicate())
        return run._replace(status=child.returncode), int.from_bytes(count.read(), sys.byteorder)


@functools.cache
def ample(words, given):
    """What a command of iconvd prints if no allocation fails."""
    return served([PROGRAM, *words], given)[0].printed


def ask_stream(address, frames):
    """What a client receives that sends these frames, and then reads to the end."""
    replies = b""
    try:
        with socket.create_connection(address, SECONDS) as stream:
            stream.sendall(frames)
            stream.shutdown(socket.SHUT_WR)
            while part := stream.recv(65536):
                replies += part
    except TimeoutError:
        raise
    except OSError:
        pass  # the stream was reset or refused, which any of these calls may report
    return replies


def streams(ask_all, frames, child):
    """Runs clients of `listen`, once it has printed its address. `ask_all` asks at the address and returns what each client received."""
    line, told = child.stdout.readline(), ()
    if line.startswith(b"listening "):
        host, port = line.split()[1].decode().rsplit(":", 1)
        line, told = b"", ask_all((host, int(port)), frames)
    rest, said = child.communicate(timeout=SECONDS)
    return Run(None, line + rest, said, told)


def one_after_the_other(address, frames):
    """Two streams, the second when the first has ended."""
    return ask_stream(address, frames), ask_stream(address, frames)


def at_once(address, frames):
    """Three streams at the same time."""
    with concurrent.futures.ThreadPoolExecutor(3) as pool:
        return tuple(pool.map(functools.partial(ask_stream, address), 3 * [frames]))


def has_refusals(case, told):
    """Whether some of these replies are refusals, and the others are as if the refused requests had not been sent."""
    form, requests, replies = case.form, case.form.cut(case.requests), case.form.cut(told)
    if len(requests) != len(replies) or not any(map(form.is_refusal, replies)):
        return False
    others = b"".join(request for request, reply in zip(requests, replies) if not form.is_refusal(reply))
    others = iter(form.cut(ample(case.answering, others)))
    return replies == [form.refusal_of(request) if form.is_refusal(reply) else next(others, b"")
                       for request, reply in zip(requests, replies)]


def judge(case, whole, run):
    """The outcome of a run, compared with the one in which no allocation fails, or None."""
    if run == whole:
        return AMPLE
    if run._replace(said=whole.said) == whole and FEWER_THREADS.fullmatch(run.said):
        return FEWER
    if run._replace(streams=()) == Run(1, b"", SAYS) and not any(run.streams):
        return NOTHING
    pairs = zip([run.printed, *run.streams], [whole.printed, *whole.streams])
    others = [(told, wanted) for told, wanted in pairs if told != wanted]
    if len(others) != 1 or len(run.streams) != len(whole.streams) or case.form is None:
        return None
    told, wanted = others[0]
    # If streams end and the command goes on, the line names the stream.
    says = OF_STREAM.fullmatch(run.said) if case.broken == 0 else run.said == SAYS
    if run.status == case.broken and says:
        replies = case.form.cut(told)
        return FRONT if replies == case.form.cut(wanted)[:len(replies)] else None
    return ENOMEM if (run.status, run.said) == (0, b"") and case.answering and has_refusals(case, told) else None


def sweep(name, case):
    """Makes each allocation of a command fail in turn, and prints the outcomes. Returns the number of runs, and of bad ones."""
    start, counts, again, bad = time.perf_counter(), collections.Counter(), collections.Counter(), 0
    whole, asked = served(case.words, case.given, 0, case.least)
    if asked == 0:
        sys.exit(f"{name}: no request was counted: {LIBRARY} is not loaded")
    for nth in itertools.count(1):
        run, asked = served(case.words, case.given, nth, case.least)
        if case.words == [REFUSALS]:
            said = run.said.decode(errors="replace").splitlines()
            again.update(said)
            if not case.least or NEEDY.issuperset(said):
                run = run._replace(said=whole.said)
        outcome = judge(case, whole, run)
        counts[outcome] += 1
        if outcome is None:
            bad += 1
            print(f"BAD: {name}, request {nth} of {asked}: {run}")
        if asked < nth:
            break
    spent = time.perf_counter() - start
    print(f"{name:18}{nth:7}" + "".join(f"{counts[outcome]:15}" for outcome in OUTCOMES) + f"{bad:6}{spent:10.1f}")
    print("".join(f"    {line:30}{count:6}\n" for line, count in again.items()), end="", flush=True)
    return nth, bad


def main():
    with open(os.path.join(os.path.dirname(os.path.abspath(__file__)), "script"), "rb") as opened:
        short = b"".join(line for line in opened if not line.startswith(b"#"))
    # With this many comments the two uploads run in threads.
    long = short.replace(b"#|", 170 * (b"#" + 98 * b"-" + b"|"))
    # With this many requests a stream has several batches, and is written in parts.
    frames = 3 * ample(("ask",), short)
    # A conversion whose reply buffer the stream keeps, and then a request that needs nothing large except the stream's read buffer.
    grows = b"7 1 open UTF-8 ISO-8859-1\n7 2 conv 0 99999 " + 40_000 * b"e9" + b"\n7 3 raw 9 " + 300_000 * b"00" + b"\n7 4 bye\n"
    grows = ample(("ask",), grows)
    server = subprocess.Popen([PROGRAM, "listen", "127.0.0.1:0", "--streams", "1000000"], stdout=subprocess.PIPE, stderr=subprocess.DEVNULL)
    address = server.stdout.readline().split()[1].decode()
    two = ["run", "--workers", "2"]
    listen = [PROGRAM, "listen", "127.0.0.1:0"]
    print(f"{'command':18}{'runs':>7}" + "".join(f"{outcome:>15}" for outcome in OUTCOMES) + f"{'bad':>6}{'seconds':>10}")
    swept = list(itertools.starmap(sweep, [
        ("run", Case([PROGRAM, "run"], short, Lines, short, ("run",))),
        ("run --workers 2", Case([PROGRAM, *two], long, Lines, long, tuple(two))),
        ("ask", Case([PROGRAM, "ask"], short)),
        ("pipe", Case([PROGRAM, "pipe"], frames, Frames, frames, ("pipe",), 1)),
        ("pipe, large", Case([PROGRAM, "pipe"], grows, Frames, grows, ("pipe",), least=LARGE)),
        ("show", Case([PROGRAM, "show"], ample(("pipe",), frames))),
        ("checkmap", Case([PROGRAM, "checkmap", "-"], CHARMAP)),
        ("checkmap, faulty", Case([PROGRAM, "checkmap", "-"], b"CHARMAP\n")),
        ("listen", Case([*listen, "--streams", "2"], functools.partial(streams, one_after_the_other, frames), Frames, frames, ("pipe",), 0)),
        ("listen --at-once", Case([*listen, "--streams", "3", "--at-once", "3"], functools.partial(streams, at_once, frames), Frames, frames, ("pipe",), 0)),
        ("call", Case([PROGRAM, "call", address], short, Lines, broken=1)),
        ("gate_refusals", Case([REFUSALS], b"")),
        ("gate_refusals, large", Case([REFUSALS], b"", least=LARGE)),
    ]))
    server.terminate()
    server.wait()
    runs, bad = map(sum, zip(*swept))
    print(f"{runs - bad} passed, {bad} failed")
    return 1 if bad else 0


if __name__ == "__main__":
    sys.exit(main())

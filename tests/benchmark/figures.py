"""The output: the figures of a row, comma-separated values, and refused requests."""

from __future__ import annotations

import csv
import os
import re
import tempfile
from typing import Dict, List, Optional

from runs import Benchmark
from servers import BADMAP, CONV, DROP, ENOCHAR, ENOMEM, NONAME, OK, OPEN, PUT, ToldServer

COLUMNS = """where from to text streams callers depth seconds seconds_away server_lost unreachable kind size requests requests_per_second
    minimum_us mean_us p50_us p95_us p99_us p99.9_us maximum_us lost unanswered refused stopped wrong statuses""".split()
MIX = ["-n", "300", "-c", "3", "-m", "conv:2,open,upload", "-b", "40,2000"]


def rows_of(text: str) -> List[Dict[str, str]]:
    return list(csv.DictReader(text.splitlines()))


def figures_of_a_row(benchmark: Benchmark) -> None:
    for one in [(figures := benchmark.figures(MIX))["all"], *figures["kinds"]]:
        times = one["microseconds"]
        in_order = [times.get(name, -1) for name in ("minimum", "p50", "p95", "p99", "p99.9", "maximum")]
        holds = 0 < in_order[0] and in_order == sorted(in_order) and in_order[0] <= times["mean"] <= in_order[-1]
        benchmark.check(holds, f"{one['name']}: minimum, median, p95, p99, p99.9 and maximum are in order, and the mean is between")
    said = benchmark.run(MIX).stdout.splitlines()
    named = "microseconds a second minimum mean p50 p95 p99 p99.9 maximum".split()
    in_line = len({len(line) for line in said[2:8]}) == 1
    benchmark.check(said[2].split() == named and in_line, "the table names its columns, which are in line")


def values(benchmark: Benchmark) -> None:
    done = benchmark.run(["--csv", *MIX])
    rows = rows_of(done.stdout)
    benchmark.check(done.stdout.splitlines()[:1] == [",".join(COLUMNS)], "--csv: a header with these names")
    kinds = [(row["kind"], row["size"]) for row in rows]
    wanted = [("conv", "40"), ("conv", "2000"), ("open", ""), ("upload", "256"), ("all", "")]
    benchmark.check(kinds == wanted and done.returncode == 0, "--csv: a row for each kind and size, and one for all")
    whole = all(None not in row and None not in row.values() and row["streams"] == "3" for row in rows)
    counted = sum(int(row["requests"]) for row in rows[:-1]) == int(rows[-1]["requests"]) >= 300 if rows else False
    benchmark.check(whole and counted, "--csv: whole rows, whose requests are those of all")
    server = ToldServer(lambda stream, asked, op: OK)
    rows = rows_of(benchmark.run(["--csv", "-n", "5", "-c", "1"], server.where).stdout)
    benchmark.check([row["where"] for row in rows] == [server.where] * 2, "--csv: of one kind too there are its row and that of all")
    benchmark.check(benchmark.run(["--csv", "--json"]).returncode == 2, "--csv --json: status 2")
    with tempfile.TemporaryDirectory() as folder:
        path = os.path.join(folder, 'a "text", of letters')
        with open(path, "w", encoding="utf-8") as file:
            file.write("letters")
        rows = rows_of(benchmark.run(["--csv", "-n", "5", "-c", "1", "-x", path]).stdout)
    benchmark.check([row["text"] for row in rows] == [path] * 2, "--csv: a value with a comma and quotes is quoted")


def refused_requests(benchmark: Benchmark) -> None:
    """Refusals are counted by their names, and are not in the figures."""
    told = {PUT: BADMAP, DROP: NONAME}
    server = ToldServer(lambda stream, asked, op: told.get(op, OK))
    words = ["-n", "200", "-c", "2", "-m", "conv,upload"]
    figures = benchmark.figures(words, server.where)
    conv, upload = figures["kinds"]
    refused = figures["errors"]["refused"]
    benchmark.check(refused > 0 and figures.get("statuses") == {"BADMAP": refused // 2, "NONAME": refused // 2}, "refusals are named")
    benchmark.check(upload["requests"] == 0 and upload["requests_per_second"] is None, "what was refused has no rate")
    benchmark.check(figures["all"]["requests"] == conv["requests"] > 0, "refused requests are not among all")
    done = benchmark.run(words, server.where)
    line: List[str] = next((line.split()[3:] for line in done.stdout.splitlines() if line.startswith("  upload")), [])
    benchmark.check(set(line) == {"-"} and done.returncode == 1, "the table has no figures of them, and the status is 1")
    named = re.search(r" refused \(\d+ BADMAP: the text is no charmap; \d+ NONAME: no charmap has this name\), ", done.stdout)
    benchmark.check(named is not None, "the line of errors has their names and counts")
    row = rows_of(benchmark.run(["--csv", *words], server.where).stdout)[1]
    benchmark.check(row["requests_per_second"] == row["p50_us"] == "" and row["statuses"].startswith("BADMAP:"), "--csv: likewise")
    server = ToldServer(lambda stream, asked, op: ENOMEM if op == CONV and asked > 50 else OK)
    figures = benchmark.figures(["-n", "200", "-c", "2"], server.where)
    refused = figures["errors"]["refused"]
    benchmark.check(figures["all"]["requests"] == 200 - refused and 0 < refused < 200, "ENOMEM in the middle: the others are counted")


def stops_and_openings(benchmark: Benchmark) -> None:
    server = ToldServer(lambda stream, asked, op: ENOCHAR if op == CONV and asked > 2 else OK)
    figures = benchmark.figures(["-n", "200", "-c", "2"], server.where)
    benchmark.check(figures["errors"]["refused"] == 0 and figures["errors"].get("stopped") == 200, "a CONV that stops is no refusal")
    benchmark.check(figures["all"]["requests"] == 200, "and its time counts")

    done = benchmark.run(["-n", "300", "-c", "2", "--strict", "-x", "cyrillic", "-t", "US-ASCII"])
    named = "300 stopped (300 ENOCHAR: the target lacks the next character)" in done.stdout and "0.0 MB of text" in done.stdout
    benchmark.check(named and done.returncode == 1, "strict conversions that stop are measured and named")

    def end_once(stream: int, asked: int, op: int) -> Optional[int]:
        if stream < 2:
            return None if asked == 20 else OK
        return ENOMEM if stream == 2 and op == OPEN else OK

    figures = benchmark.figures(["-n", "200", "-c", "2"], ToldServer(end_once).where)
    named = figures.get("statuses") == {"ENOMEM": 1} and figures["errors"]["lost"] > 0
    benchmark.check(named and figures["all"]["requests"] > 100, "a stream whose OPEN is refused in the middle is counted and replaced")
    done = benchmark.run(["-n", "200", "-c", "2"], ToldServer(lambda stream, asked, op: ENOMEM).where)
    benchmark.check(done.returncode == 1 and "ENOMEM" in done.stderr and not done.stdout, "one that is refused at the start is named")


def cases(benchmark: Benchmark) -> None:
    figures_of_a_row(benchmark)
    values(benchmark)
    refused_requests(benchmark)
    stops_and_openings(benchmark)

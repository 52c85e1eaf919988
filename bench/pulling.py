#!/usr/bin/env python3
"""Times `pull` from `serve` and from nginx, beside `curl`: bench/pulling.py [--runs N] [--feed FILE] [PROGRAM..]

Needs the built program (tools/run builds it), or other builds of it that are named, and nginx and curl, Debian's
packages; it says which is missing. Every connection goes over 127.0.0.1. It is no part of the gate, since it only
times.

The feed is generated, 42 MB, unless one is given. `serve` takes it as its input. What that answers is then a file
that nginx serves at the same path, in one process. All pairs run in turns, N of each (9), and the median counts. What
a client held is polled in one further run of each, since the system counts its caller's memory as the least of a
child."""
import argparse
import os
import shutil
import socket
import statistics
import subprocess
import sys
import tempfile
import time
from pathlib import Path

from measuring import BUILT, HERE

from common import free_port

CONTEST, NOTIFICATIONS = "wf", "200000"
PATH = f"/contests/{CONTEST}/event-feed"
NGINX = """daemon off; master_process off; pid {folder}/pid; error_log {folder}/errors;
events {{}}
http {{
  access_log off; sendfile on; default_type application/x-ndjson;
  client_body_temp_path {folder}/body; proxy_temp_path {folder}/proxy; fastcgi_temp_path {folder}/fastcgi;
  uwsgi_temp_path {folder}/uwsgi; scgi_temp_path {folder}/scgi;
  server {{ listen 127.0.0.1:{port}; location = {path} {{ alias {file}; }} }}
}}
"""


def processor(pid):
    """The seconds of a processor that a process with one thread has had."""
    return int(Path(f"/proc/{pid}/schedstat").read_text().split()[0]) / 1e9


def megabytes(pid, name):
    """What a process holds, or has held at most; nothing once it is gone."""
    for line in Path(f"/proc/{pid}/status").read_text().splitlines():
        if line.startswith(f"{name}:"):
            return int(line.split()[1]) / 1024
    return 0


class Serve:
    """`serve` of a feed, from its start on."""

    def __init__(self, program, feed, count):
        self.port, start = free_port(), time.perf_counter()
        words = [program, "serve", "--port", self.port, "--contest", CONTEST, "--count", count, "--verbose"]
        with open(feed, "rb") as source:
            self.process = subprocess.Popen([str(it) for it in words], stdin=source, stderr=subprocess.PIPE, text=True)
        line = self.process.stderr.readline()
        if "listening" not in line:
            sys.exit(f"pulling.py: {line}")
        self.waited, self.pid = time.perf_counter() - start, self.process.pid
        self.began = processor(self.pid)
        self.held, self.most = megabytes(self.pid, "VmRSS"), megabytes(self.pid, "VmHWM")


class Nginx:
    """nginx with one file, once it takes connections."""

    def __init__(self, folder, file):
        self.port = free_port()
        (folder / "conf").write_text(NGINX.format(folder=folder, port=self.port, path=PATH, file=file))
        self.process = subprocess.Popen(["nginx", "-p", folder, "-e", folder / "errors", "-c", folder / "conf"])
        self.pid = self.process.pid
        for _ in range(200):
            try:
                socket.create_connection(("127.0.0.1", self.port)).close()
                return
            except OSError:
                time.sleep(0.02)
        sys.exit("pulling.py: nginx does not listen")


def words_of(client, port):
    if client == "curl":
        return ["curl", "-s", "-o", "/dev/null", f"http://127.0.0.1:{port}{PATH}"]
    return [str(client), "pull", "--host", "127.0.0.1", "--port", str(port), "--contest", CONTEST]


def run(words, server=None, feed=os.devnull):
    """Seconds of the server's processor, of the client's, and of the clock."""
    before, start = processor(server.pid) if server else 0, time.perf_counter()
    with open(feed, "rb") as source:
        child = subprocess.Popen(words, stdin=source, stdout=subprocess.DEVNULL)
    _, status, used = os.wait4(child.pid, 0)
    took, child.returncode = time.perf_counter() - start, status
    if status != 0:
        sys.exit(f"pulling.py: {' '.join(words)}: status {os.waitstatus_to_exitcode(status)}")
    # A server may close its end after the client is gone.
    time.sleep(0.05)
    return (processor(server.pid) - before if server else 0), used.ru_utime + used.ru_stime, took


def most_held(words, feed=os.devnull):
    """The most that a process held, polled."""
    most = 0
    with open(feed, "rb") as source:
        child = subprocess.Popen(words, stdin=source, stdout=subprocess.DEVNULL)
    while child.poll() is None:
        most = max(most, megabytes(child.pid, "VmHWM"))
        time.sleep(0.002)
    return most


def missing(programs):
    yield from (str(it) for it in programs if not Path(it).exists())
    yield from (f"{name} (apt-get install {name})" for name in ("nginx", "curl") if not shutil.which(name))


def label(program, programs):
    """The name of a build where there are several."""
    return f", {program.name}" if len(programs) > 1 else ""


def pairs_of(programs, serves, nginx):
    """Who asks whom."""
    for program in programs:
        serve, which = serves[program], label(program, programs)
        yield f"`pull` from nginx{which}", program, nginx
        yield f"`pull` from `serve`{which}", program, serve
        yield f"`curl` from `serve`{which}", "curl", serve
    yield "`curl` from nginx", "curl", nginx


def measured(asked, folder, served):
    programs, feed = asked.programs, asked.feed
    # One more than are made, so that it stays.
    count = 2 * asked.runs + 4
    serves = {program: Serve(program, feed, count) for program in programs}
    first = serves[programs[0]]
    subprocess.run(["curl", "-s", "-o", served, f"http://127.0.0.1:{first.port}{PATH}"], check=True)
    nginx = Nginx(folder, served)
    pairs = list(pairs_of(programs, serves, nginx))
    tables = {f"`tables` of the same bytes{label(it, programs)}": [str(it), "tables"] for it in programs}
    rows = {name: [] for name in [*(name for name, _, _ in pairs), *tables]}
    for _ in range(asked.runs):
        for name, client, server in pairs:
            rows[name].append(run(words_of(client, server.port), server))
        for name, words in tables.items():
            rows[name].append(run(words, feed=served))
    held = {name: most_held(words_of(client, server.port)) for name, client, server in pairs}
    held |= {name: most_held(words, served) for name, words in tables.items()}
    return serves, nginx, rows, held


def show(serves, nginx, rows, held, size):
    print(f"{size / 1e6:.1f} MB are sent; load {os.getloadavg()[0]:.1f} on {os.cpu_count()} processors\n")
    print("| | the server's processor | the client's | clock | MB held by the client |\n|---|---|---|---|---|")
    for name, found in rows.items():
        server, client, clock = (statistics.median(column) for column in zip(*found))
        print(f"| {name} | {server:.3f} | {client:.3f} | {clock:.3f} | {held[name]:.0f} |")
    print("\n| | listens after | processor until then | MB held then | most until then | most at all |\n|---|---|---|---|---|---|")
    for program, it in serves.items():
        most = megabytes(it.pid, "VmHWM")
        print(f"| {program.name} | {it.waited:.3f} | {it.began:.3f} | {it.held:.0f} | {it.most:.0f} | {most:.0f} |")
    print(f"\nnginx held {megabytes(nginx.pid, 'VmHWM'):.0f} MB")


def main():
    words = argparse.ArgumentParser(
        prog="bench/pulling.py", description=__doc__, formatter_class=argparse.RawDescriptionHelpFormatter
    )
    words.add_argument("--runs", type=int, default=9)
    words.add_argument("--feed", type=Path)
    words.add_argument("programs", nargs="*", type=Path)
    asked = words.parse_args()
    asked.programs = [it.resolve() for it in asked.programs] or [BUILT]
    lacking = list(missing(asked.programs))
    if lacking:
        sys.exit(f"pulling.py: missing: {', '.join(lacking)}")
    with tempfile.TemporaryDirectory(prefix="tunygarop-pulling-") as name:
        folder = Path(name)
        if not asked.feed:
            asked.feed = folder / "feed.ndjson"
            with open(asked.feed, "wb") as sink:
                subprocess.run([sys.executable, HERE / "feed.py", NOTIFICATIONS], stdout=sink, check=True)
        served, found = folder / "served.ndjson", None
        try:
            found = measured(asked, folder, served)
            show(*found, served.stat().st_size)
        finally:
            if found:
                for it in (*found[0].values(), found[1]):
                    it.process.terminate()
                    it.process.wait()


if __name__ == "__main__":
    main()

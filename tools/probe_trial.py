"""The relay on trial of tools/probe: the program's own `live`, which follows a server through this process, so that
what passes can be judged, and when it came."""
import re
import socket
import subprocess
import time
from contextlib import suppress
from pathlib import Path
from threading import Event

from common import ENVIRONMENT, free_port
from probe_links import CONNECT, HEAD, HandedOn, Passage, in_background

# How many connections `live` may make: some servers end each at once.
MOST_CONNECTIONS = 8
# How long a server that is late is waited for, beyond what `live` waits; and a relay on a busy machine, once nothing
# has come for so long. In seconds.
LATE, STILL = 20, 4
# How long `live` is given to begin, and how often a screen asks, in seconds.
BEGIN, AGAIN = 30, 0.2


class Trial:
    """A relay that follows a feed, with a screen that waits for it. Its first connection is read on after the relay
    left it, as it does once a feed has settled: what comes then says whether it had."""

    def __init__(self, program, feed, asker, folder, options=()):
        self.feed, self.passages, self.over, self.options = feed, [], Event(), options
        self.began, self.screened, self.peak, self.threads = time.monotonic(), None, None, []
        self.tap = socket.create_server(("127.0.0.1", 0))
        self.port, self.said = free_port(), Path(folder, "reports")
        here = ["--host", "127.0.0.1", "--port", str(self.tap.getsockname()[1]), "--listen", str(self.port)]
        base = ["--base", feed.base] if feed.base else []
        name = ["--host-header", asker.host_header or feed.server()]
        user = ["--user-file", asker.user_file] if asker.user_file else []
        words = [program, "live", "--contest", feed.contest, *here, *base, *name, *user, "--until-eof", *options]
        with self.said.open("wb") as out:
            # Its input ends with this process, and it with that.
            how = {"stdin": subprocess.PIPE, "stdout": subprocess.DEVNULL, "stderr": out, "env": ENVIRONMENT}
            self.relay = subprocess.Popen(words, **how)
        self.threads += [in_background(self.accept), in_background(self.show)]

    def first(self):
        return self.passages[0] if self.passages else None

    def accept(self):
        """Takes the relay's connections."""
        with suppress(OSError):
            while len(self.passages) < MOST_CONNECTIONS:
                reader, _ = self.tap.accept()
                self.threads.append(in_background(self.pass_on, reader))
            self.tap.close()

    def pass_on(self, reader):
        """Hands on a request of the relay, and what the server answers."""
        with reader:
            request = request_from(reader)
            if not request:
                return
            is_first = not self.passages
            passage = Passage(self.feed, request)
            self.passages.append(passage)
            if passage.connect():
                handed = HandedOn(reader)
                passage.read(lambda: not self.over.is_set(), handed, stays=is_first)
                handed.finish()

    def show(self):
        """A screen: it asks until it is shown something."""
        request = f"GET /contests/{self.feed.contest}/event-feed HTTP/1.1\r\nHost: screen\r\n\r\n".encode()
        while self.screened is None and not self.over.is_set():
            with suppress(OSError), socket.create_connection(("127.0.0.1", self.port), 1) as link:
                link.settimeout(1)
                link.sendall(request)
                while not self.over.is_set() and self.screened is None:
                    with suppress(TimeoutError):
                        if not link.recv(4_096).startswith(b"HTTP/1.1 200"):
                            break
                        self.screened = self.first().now()
            time.sleep(AGAIN)

    def wait(self, seconds):
        """Waits until the feed was read for so many seconds, or there is nothing more to wait for."""
        while self.is_worth_waiting(seconds):
            time.sleep(0.05)

    def wait_for_screen(self, seconds):
        """Waits for that at most, until a screen was shown something."""
        while self.screened is None and self.is_worth_waiting(seconds):
            time.sleep(0.05)

    def is_worth_waiting(self, seconds):
        first = self.first()
        if self.relay.poll() is not None or first and (first.failure or first.response.fault or first.response.interim):
            return False
        if first is None:
            return time.monotonic() - self.began < BEGIN + CONNECT
        if first.answered is None:
            return first.ended is None and first.now() < HEAD + LATE
        if first.has_page():
            return False
        has_time = first.now() - first.answered < seconds + (LATE if self.is_behind() else 0)
        return has_time and not (first.end and (first.response.status != 200 or self.screened is not None))

    def is_behind(self):
        """Whether the relay has yet to show what seems to be all there is."""
        first = self.first()
        is_still = first.now() - first.latest > STILL
        return is_still and self.screened is None and b'"token"' in first.response.payload[-100_000:]

    def finish(self):
        """Ends the relay, and with it all connections."""
        if self.over.is_set():
            return
        with suppress(OSError, TypeError):
            status = Path(f"/proc/{self.relay.pid}/status").read_text()
            self.peak = int(re.search(r"VmHWM:\s+(\d+)", status)[1]) * 1024
        self.over.set()
        self.relay.kill()
        self.relay.wait()
        self.relay.stdin.close()
        with suppress(OSError):
            self.tap.shutdown(socket.SHUT_RDWR)
        self.tap.close()
        for thread in self.threads:
            thread.join(CONNECT)

    def reports(self):
        """What the relay reported, without times and without the name that the server had for it."""
        text = self.said.read_text(errors="replace")
        lines = [line.partition("live: ")[2] for line in text.split("\n") if "live: " in line]
        return [re.sub(r"^upstream \S+:", "upstream:", line) for line in lines if not line.startswith("listening")]

    def report(self, pattern):
        """The first report with this, if there is one."""
        return next((found for line in self.reports() if (found := re.search(pattern, line))), None)


def request_from(reader):
    """The request that a relay sends; nothing if it left before its end."""
    request = b""
    with suppress(OSError):
        while b"\r\n\r\n" not in request:
            piece = reader.recv(8_192)
            if not piece:
                return b""
            request += piece
    return request

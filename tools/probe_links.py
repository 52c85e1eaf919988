"""Connections of tools/probe: the URL of a feed, as whom it is asked, a response as it comes, and what came over a
connection, and when."""
import base64
import os
import queue
import re
import select
import socket
import ssl
import threading
import time
import urllib.parse
from contextlib import suppress
from dataclasses import dataclass, field, replace
from pathlib import Path

# How long `live` waits for a connection, and for the head of a response, in seconds.
CONNECT, HEAD = 10, 20
# How long a short request waits for a first line, for a further one, and in all, in seconds; and what it reads at most.
FIRST_LINE, NEXT_LINE, ALL_LINES, MOST_ANSWER = 5, 1, 10, 4 << 20
# The most bytes of a feed that are kept.
MOST_FEED = 512 << 20
# How many bytes of what is no feed are read, to show some; and for how long, in seconds.
MOST_PAGE, PAGE = 1 << 16, 1

TLS_GUIDE = "docs/SETUP.md#5-a-server-that-wants-tls"
SERVER = re.compile(r"(?:\[([0-9A-Fa-f:.]+)\]|([A-Za-z0-9.-]{1,255}))(?::(\d{1,5}))?")
CONTEST = re.compile(r"[A-Za-z0-9._-]{1,64}")
BASE = re.compile(r"(?:/[A-Za-z0-9._~/-]{0,254}(?<!/))?")


class Mistake(Exception):
    """The call is wrong: what to write in place of it."""


class NoContest(Mistake):
    """A URL that names no contest: the server and the base that it does name."""

    def __init__(self, text, feed):
        super().__init__(text)
        self.feed = feed


# ---- where a feed is, and who asks


@dataclass(frozen=True)
class FeedUrl:
    """What a URL names, as the options of `live` have it: an address of IPv6 has no brackets."""

    host: str
    port: int
    base: str
    contest: str

    def server(self):
        return f"[{self.host}]:{self.port}" if ":" in self.host else f"{self.host}:{self.port}"

    def path(self):
        return f"{self.base}/contests/{self.contest}/event-feed"

    def text(self):
        return f"http://{self.server().removesuffix(':80')}{self.path()}"

    def options(self):
        words = ["--contest", self.contest, "--host", self.host, "--port", str(self.port)]
        return words + (["--base", self.base] if self.base else [])


def scheme_fault(scheme, rest):
    """What is wrong with how a URL begins, if anything is."""
    if not scheme:
        return f"it has to begin with http://, as http://{rest}"
    path = rest.partition("/")[2] or "contests/CONTEST"
    if scheme.lower() == "https":
        named = f"http://127.0.0.1:8003/{path}"
        return f"TLS isn't spoken: put nginx before that server ({TLS_GUIDE}), and name that: {named}"
    return None if scheme.lower() == "http" else f"{scheme} isn't spoken: only http is"


def server_of(name):
    """The host and the port that a URL names; or what is wrong with that."""
    if "@" in name:
        return "no name and no password in a URL, which others can see: give --user-file"
    found = SERVER.fullmatch(name)
    if not found or not 0 < int(found[3] or 80) < 65_536:
        return f"{name!r} is no HOST or HOST:PORT"
    return found[1] or found[2], int(found[3] or 80)


def feed_at(text, option="URL"):
    """What a URL names, with /event-feed or without it."""
    scheme, rest = text.split("://", 1) if "://" in text else ("", text)
    fault = scheme_fault(scheme, rest)
    server, slash, path = rest.partition("/")
    named = fault or server_of(server)
    if isinstance(named, str):
        raise Mistake(f"{option}: {named}")
    more = re.search("[?#]", path)
    if more:
        raise Mistake(f"{option}: nothing may follow the contest: leave out {path[more.start():]!r}")
    path = f"{slash}{path}".rstrip("/").removesuffix("/event-feed")
    base, mark, contest = path.rpartition("/contests/")
    base = base if mark else path.removesuffix("/contests")
    if not BASE.fullmatch(base):
        raise Mistake(f"{option}: {base!r} is no base: it has letters, digits, and . _ - ~ /")
    feed = FeedUrl(*named, base, contest if mark else "")
    if not mark:
        form = replace(feed, contest="CONTEST").text().removesuffix("/event-feed")
        raise NoContest(f"{option}: no contest in it: it has to be as {form}", feed)
    if not CONTEST.fullmatch(contest):
        raise Mistake(f"{option}: {contest!r} is no contest: it has 1 to 64 letters, digits, and . _ -")
    return feed


@dataclass(frozen=True)
class Asker:
    """As whom servers are asked. The line of the user file is never printed."""

    host_header: str = None
    user_file: str = None
    line: bytes = field(default=b"", repr=False)

    def options(self):
        words = ["--user-file", self.user_file] if self.user_file else []
        return words + (["--host-header", self.host_header] if self.host_header else [])

    def request(self, feed, target):
        """The request that `live` sends, to the letter."""
        lines = [f"GET {target} HTTP/1.1", f"Host: {self.host_header or feed.server()}"]
        lines += ["Accept: application/x-ndjson", "Connection: close"]
        if self.line:
            lines.append(f"Authorization: Basic {base64.b64encode(self.line).decode()}")
        return "".join(f"{it}\r\n" for it in [*lines, ""]).encode()

    def secrets(self):
        """What must not be printed, though a server sent it back."""
        _, _, password = self.line.partition(b":")
        words = [base64.b64encode(self.line), password] if self.line else []
        return [it.decode() for it in words if it]


def asker_of(host_header, user_file):
    """Reads the user file as `live` does, and says what is wrong with it."""
    if not user_file:
        return Asker(host_header)
    try:
        about = os.stat(user_file)
        text = Path(user_file).read_bytes()
    except OSError as fault:
        raise Mistake(f"--user-file {user_file}: {fault.strerror}") from None
    line, own = text.removesuffix(b"\n"), about.st_uid == os.geteuid()
    is_line = re.fullmatch(rb"[^\0-\x1f\x7f:]*:[^\0-\x1f\x7f]*", line) and len(line) <= 1_024
    faults = [
        (about.st_mode & 0o007 or about.st_mode & 0o070 and own, "others may read it: chmod 600 it"),
        (line.endswith(b"\r"), "its line ends in CR LF, as on Windows: leave LF alone"),
        (line.startswith(b"\xef\xbb\xbf"), "it begins with a byte order mark: save it as UTF-8 without one"),
        (not is_line, "it isn't one line NAME:PASSWORD"),
    ]
    for is_wrong, text in faults:
        if is_wrong:
            raise Mistake(f"--user-file {user_file}: {text}")
    return Asker(host_header, user_file, line)


def target_after(feed, token):
    """The target of a request for what comes after a token."""
    return f"{feed.path()}?since_token={urllib.parse.quote_plus(token, safe='*-._')}"


# ---- what comes


class Response:
    """A response as it comes: its head, and the payload of its body, however that is framed. Heads that go before the
    final one (103, say) are skipped, and noted."""

    def __init__(self):
        self.status, self.version, self.fields, self.framing, self.interim = None, "", {}, "", []
        self.payload, self.is_whole, self.fault = bytearray(), False, None
        # What came first; what is not read yet; how many bytes of the body, or of a chunk with its end, are to come.
        self.begins, self.unread, self.left = b"", bytearray(), 0

    def take(self, piece):
        """Takes what came, and gives what of it is payload."""
        self.begins += piece[: max(0, 200 - len(self.begins))]
        self.unread += piece
        while self.status is None and not self.fault and self.take_head():
            pass
        start = len(self.payload)
        if self.framing == "chunks":
            self.take_chunks()
        elif self.framing:
            self.take_plain()
        return bytes(self.payload[start:])

    def take_head(self):
        """Whether a head was there."""
        if not self.unread.startswith(b"HTTP/"[: len(self.unread)]):
            self.fault = "no HTTP"
        head, end, _ = self.unread.partition(b"\r\n\r\n")
        if not end:
            return False
        first, *rest = head.decode("latin1").split("\r\n")
        found = re.match(r"HTTP/(\d\.\d) (\d{3})\b", first)
        if not found:
            self.fault = "no HTTP"
            return False
        del self.unread[: len(head) + 4]
        if found[2].startswith("1"):
            self.interim.append(found[2])
        else:
            self.begin(found, rest)
        return True

    def begin(self, found, lines):
        self.version, self.status = f"HTTP/{found[1]}", int(found[2])
        for name, _, value in (line.partition(":") for line in lines):
            self.fields.setdefault(name.strip().lower(), value.strip())
        length = self.fields.get("content-length", "")
        self.framing = "chunks" if "transfer-encoding" in self.fields else "length" if length.isdecimal() else "end"
        self.left = int(length) if self.framing == "length" else 0

    def take_plain(self):
        part = self.unread[: self.left] if self.framing == "length" else self.unread[:]
        self.payload += part
        self.left -= len(part)
        self.unread.clear()
        self.is_whole = self.framing == "length" and self.left == 0

    def take_chunks(self):
        at, unread = 0, self.unread
        while not self.is_whole and not self.fault:
            if self.left > 2:
                part = unread[at : at + self.left - 2]
                self.payload += part
                at, self.left = at + len(part), self.left - len(part)
            if self.left > 2 or self.left and len(unread) - at < 2:
                break
            at, self.left = at + self.left, 0
            end = unread.find(b"\r\n", at)
            if end < 0:
                break
            self.begin_chunk(bytes(unread[at:end]))
            at = end + 2
        del unread[:at]

    def begin_chunk(self, line):
        size = line.partition(b";")[0].strip()
        if not re.fullmatch(rb"[0-9A-Fa-f]{1,16}", size):
            self.fault = "bad chunk"
            return
        self.left = int(size, 16) + 2
        self.is_whole = self.left == 2


class Passage:
    """A connection to a server: what was asked, and what came when. Times are in seconds since it was begun."""

    # How many were made, to any server.
    made = 0

    def __init__(self, feed, request):
        self.feed, self.request, self.response = feed, request, Response()
        self.began, self.link, self.address = time.monotonic(), None, None
        # Why there was no connection, and whether the name has no address.
        self.failure, self.is_unknown = None, False
        # When there was a connection, a head, a first byte of payload, the last byte, the end; and the end of reading.
        self.connected = self.answered = self.first = self.latest = self.ended = self.left = None
        # How the server ended it: 'whole', 'closed' or 'reset'; or 'long', if it was left for its length.
        self.end = None
        # When bytes of lines came, and how many; and when white space alone came, which keeps a connection alive.
        self.arrivals, self.alive = [], []

    def now(self):
        return time.monotonic() - self.began

    def lasted(self):
        """For how long it was read."""
        return self.left or self.now()

    def connect(self):
        """Whether the server took the connection and the request."""
        Passage.made += 1
        try:
            self.link = socket.create_connection((self.feed.host, self.feed.port), CONNECT)
            self.connected, self.address = self.now(), self.link.getpeername()[0]
            self.link.sendall(self.request)
        except socket.gaierror as fault:
            self.failure, self.is_unknown = fault.strerror, True
        except TimeoutError:
            self.failure = f"no connection after {CONNECT} s"
        except OSError as fault:
            self.failure = fault.strerror or str(fault)
        return self.failure is None

    def read(self, goes_on, reader=None, stays=False):
        """Reads what comes, while `goes_on()`, until the server ends it, and hands it on to a reader. If the reader
        leaves, it ends, too, unless it stays."""
        while goes_on() and self.end is None and (stays or not reader or not reader.has_left()):
            ready, _, _ = select.select([self.link], [], [], 0.05)
            if ready:
                self.take_next(reader)
        self.left = self.now()
        self.link.close()

    def take_next(self, reader):
        try:
            piece = self.link.recv(1 << 18)
        except OSError:
            self.end, self.ended = "reset", self.now()
            return
        if not piece:
            self.end, self.ended = "closed", self.now()
            return
        self.note(self.response.take(piece))
        if self.response.is_whole or self.response.fault:
            self.end, self.ended = "whole", self.now()
        elif len(self.response.payload) > MOST_FEED:
            self.end, self.ended = "long", self.now()
        if reader:
            reader.hand_on(piece)

    def note(self, payload):
        self.latest = self.now()
        if self.answered is None and self.response.status is not None:
            self.answered = self.latest
        if not payload:
            return
        if self.first is None:
            self.first = self.latest
        if payload.isspace():
            self.alive.append(self.latest)
        else:
            self.arrivals.append((self.latest, len(payload)))

    def has_page(self):
        """Whether what comes is no feed that could be followed, and enough of it is here to say why."""
        answer = self.response
        is_feed = answer.status == 200 and not is_coded(answer) and not is_page(answer)
        waited = self.answered is not None and self.now() - self.answered > PAGE
        return self.answered is not None and not is_feed and (waited or len(answer.payload) > MOST_PAGE)


class HandedOn:
    """What is handed on over a connection, by a thread of its own: a slow reader doesn't delay what is read."""

    def __init__(self, link):
        self.link, self.pieces = link, queue.SimpleQueue()
        self.thread = in_background(self.send)

    def hand_on(self, piece):
        self.pieces.put(piece)

    def send(self):
        with suppress(OSError):
            while piece := self.pieces.get():
                self.link.sendall(piece)

    def has_left(self):
        """Whether the other end closed; what it sends is not looked at."""
        ready, _, _ = select.select([self.link], [], [], 0)
        with suppress(OSError):
            return bool(ready) and not self.link.recv(4_096)
        return True

    def finish(self):
        """Hands on what there is, and waits until that was taken, or the other end closed."""
        self.pieces.put(b"")
        self.thread.join()


def is_coded(response):
    return response.fields.get("content-encoding", "identity").lower() != "identity"


def is_page(response):
    kind = response.fields.get("content-type", "")
    return "html" in kind or bytes(response.payload[:200]).lstrip().startswith(b"<")


# ---- short requests


def ask(feed, asker, target):
    """A short request: the connection, with what came until nothing more did for a second."""
    passage = Passage(feed, asker.request(feed, target))
    if passage.connect():
        passage.read(lambda: is_worth_waiting(passage))
    return passage


def is_worth_waiting(passage):
    if passage.answered is None:
        return passage.now() < HEAD
    if passage.response.status != 200:
        return passage.now() - passage.answered < PAGE
    if not passage.response.payload.strip():
        return passage.now() - passage.answered < FIRST_LINE
    is_short = len(passage.response.payload) < MOST_ANSWER and passage.now() - passage.answered < ALL_LINES
    return is_short and passage.now() - passage.latest < NEXT_LINE


def tls_version(feed, begins):
    """Which version of TLS is spoken there, if any is: the server may have begun with an alert."""
    if begins.startswith((b"\x15\x03", b"\x16\x03")):
        return "TLS"
    context = ssl.create_default_context()
    context.check_hostname, context.verify_mode = False, ssl.CERT_NONE
    Passage.made += 1
    with suppress(OSError, ValueError):
        with socket.create_connection((feed.host, feed.port), CONNECT) as link:
            link.settimeout(FIRST_LINE)
            with context.wrap_socket(link, server_hostname=feed.host) as secure:
                return secure.version()
    return None


def in_background(function, *words):
    thread = threading.Thread(target=function, args=words, daemon=True)
    thread.start()
    return thread

"""What tools/interop does with the ready files that put a web server before two relays: examples/nginx.conf and
examples/haproxy.cfg, of which only the lines change that say so.

A contest server replays all that happened, with a token on each line, to who has the relays' account. To others it
sends another feed with the same tokens. Two relays follow it as the files say they should be started, and ten screens
read by way of the web server. Each state that a screen shows has to be one that the contest had since the check began. How
late a state came says for how long screens stood still."""
import base64
import http.client
import json
import re
import signal
import socket
import ssl
import subprocess
import threading
import time
from collections import Counter
from contextlib import contextmanager, suppress
from pathlib import Path

from common import TOP, free_port, loaded
from replays import Contest, Server, Tables, waited

ours = loaded("sockets")

# The name in the certificate, the account of the relays, a reader, and the paths that readers have.
NAME, ACCOUNT, READER = "feed.example.org", "screen:secret", "hall:word"
BASE, CONTEST = "/api", "finals"
FEED = f"{BASE}/contests/{CONTEST}/event-feed"
PAGE = "https://overlay.example.org"
# So many screens read, and so many things happen a second. At first so many had happened, which takes the server 2 s.
# A busy machine may pause it for longer than the 2 s by which a relay takes a replay to be over. So that is 5 s here,
# and a request waits for less than that.
SCREENS, RATE, BEGUN, PACE = 10, 2, 1600, 800
SETTLE, HOLD = 5_000, 5
# So long a step may take until all screens show the latest state; and the contest server is away.
LONG, AWAY = 200, 60


def basic(user):
    return "Basic " + base64.b64encode(user.encode()).decode()


def placed(name, changes):
    """A file of examples/ with other addresses, which only lines have that an operator changes."""
    lines, found = [], set()
    for line in (TOP / "examples" / name).read_text().splitlines():
        for old, new in changes.items() if "# CHANGE" in line else ():
            if old in line:
                line = line.replace(old, new)
                found.add(old)
        lines.append(line)
    ours.same(f"in {name} aren't", set(changes) - found, set())
    return "\n".join(lines) + "\n"


# ---- the contest


class Timed(Contest):
    """A contest that goes on by itself, and knows when each of its states came."""

    def __init__(self, *words, **more):
        super().__init__(*words, **more)
        self.times, self.is_on, self.is_paused = {}, True, False
        threading.Thread(target=self.run, daemon=True).start()

    def run(self):
        while self.is_on and self.at < len(self.events):
            time.sleep(1 / RATE)
            if not self.is_paused:
                self.times[self.token(self.at + 1)] = time.monotonic()
                self.at += 1


class ContestServer(Server):
    """Has the feed for the account of the relays, another one for others, and all else."""

    def __init__(self, contest, other, port=0):
        super().__init__(contest, port, pace=PACE, alive=10)
        self.other = Server(other, pace=PACE)

    def close(self):
        super().close()
        self.other.close()

    def talk(self, conn):
        with conn, suppress(OSError):
            head = ours.head_of(conn).decode()
            self.asked.append(head)
            since = re.search(r"since_token=([^& ]*)", head)
            place = self.contest.place(since[1]) if since else 0
            is_known = re.search(rf"\r\nauthorization: {basic(ACCOUNT)}\r\n", head, re.I) is not None
            if not head.startswith(f"GET {FEED}"):
                self.answer_else(conn, head, is_known)
            elif place is None:
                conn.sendall(b"HTTP/1.1 400 Bad Request\r\nContent-Length: 2\r\nConnection: close\r\n\r\n{}")
            else:
                (self if is_known else self.other).send(conn, place)

    @staticmethod
    def answer_else(conn, head, is_known):
        if "upgrade: websocket" in head.lower():
            accepted = b"s3pPLMBiTxaQ9kYGzzhZRbK+xOo="  # what RFC 6455 has for the key of the step below
            conn.sendall(b"HTTP/1.1 101 Switching Protocols\r\nUpgrade: websocket\r\nConnection: Upgrade\r\n")
            conn.sendall(b"Sec-WebSocket-Accept: %s\r\n\r\n" % accepted)
            while piece := conn.recv(4096):
                conn.sendall(piece)
        body = b"all else" if is_known else b"who are you"
        conn.sendall(b"HTTP/1.1 200 OK\r\nContent-Length: %d\r\nConnection: close\r\n\r\n%s" % (len(body), body))

    def asked_by_readers(self):
        """How many requests for the feed came from readers, which have a header of their own."""
        return sum(it.startswith(f"GET {FEED}") and "x-reader" in it.lower() for it in self.asked)


# ---- the screens


class Screen:
    """A screen behind the web server: it asks again with its token whenever its answer ends."""

    def __init__(self, world, port):
        self.world, self.port, self.is_on = world, port, True
        self.tables, self.since, self.wrong, self.conn = Tables(), None, [], None
        self.shown, self.ends, self.statuses, self.worst = 0, 0, Counter(), 0
        threading.Thread(target=self.run, daemon=True).start()

    def run(self):
        while self.is_on:
            with suppress(OSError), self.world.connected(self.port) as self.conn:
                self.follow(self.conn)
                self.ends += 1
            time.sleep(0.3)

    def follow(self, conn):
        query = f"?since_token={self.since}" if self.since else ""
        conn.sendall(request_text(FEED + query, READER))
        tables = self.tables if self.since else Tables()
        head, _, rest = ours.head_of(conn).partition(b"\r\n\r\n")
        if not head:
            return
        status = int(head.split()[1])
        self.statuses[status] += 1
        if status == 400:
            self.since = None
        while status == 200:
            *lines, rest = rest.split(b"\n")
            self.take(tables, filter(bytes.strip, lines))
            if not (piece := conn.recv(1 << 18)):
                return
            rest += piece

    def take(self, tables, lines):
        contest = self.world.contest
        for line in map(json.loads, lines):
            tables.take(line)
            if (token := line.get("token")) is None:
                continue
            self.shown += 1
            self.worst = max(self.worst, time.monotonic() - contest.times.get(token, time.monotonic()))
            if contest.states.get(token) != tables.sum or self.is_older(token):
                self.wrong.append(token)
            self.tables, self.since = tables, token

    def is_older(self, token):
        return self.since and self.world.contest.place(token) < self.world.contest.place(self.since)

    def has_all(self):
        """Whether it shows a state of the last second."""
        place = self.world.contest.place(self.since) if self.since else None
        return place is not None and place >= self.world.contest.at - RATE

    def cut(self):
        """Ends its connection below TLS, as a cut line does."""
        with suppress(OSError, TypeError):
            socket.socket.shutdown(self.conn, socket.SHUT_RDWR)

    def stop(self):
        self.is_on = False
        self.cut()


def request_text(path, user=None, method="GET", *headers):
    words = [f"{method} {path} HTTP/1.0", f"Host: {NAME}", "X-Reader: 1", *headers]
    words += [f"Authorization: {basic(user)}"] if user else []
    return "\r\n".join([*words, "", ""]).encode()


def asked_plainly(port, path):
    """The status and the body of an answer of a relay itself."""
    conn = http.client.HTTPConnection("127.0.0.1", port, timeout=ours.ONE)
    try:
        conn.request("GET", path)
        got = conn.getresponse()
        return got.status, got.read()
    finally:
        conn.close()


# ---- what stands between


class World:
    """A contest server, two relays, a certificate, and the screens."""

    def __init__(self, program, folder):
        self.program, self.folder, self.screens = program, Path(folder), []
        self.contest, self.other = Timed(BEGUN, 3000), Contest(BEGUN, 3000, team="False")
        self.server = ContestServer(self.contest, self.other)
        self.relays, self.ports, self.status = [None, None], [free_port(), free_port()], [free_port(), free_port()]
        (self.folder / "account").write_text(ACCOUNT + "\n")
        (self.folder / "account").chmod(0o600)
        made = ["openssl", "req", "-x509", "-newkey", "rsa:2048", "-nodes", "-days", "2", "-subj", f"/CN={NAME}"]
        made += ["-addext", f"subjectAltName=DNS:{NAME}", "-keyout", f"{folder}/key", "-out", f"{folder}/crt"]
        subprocess.run(made, check=True, capture_output=True, timeout=ours.ONE)
        (self.folder / "pem").write_text((self.folder / "crt").read_text() + (self.folder / "key").read_text())
        self.trust = ssl.create_default_context(cafile=f"{folder}/crt")

    def start(self, at):
        """Starts a relay as a service does."""
        words = ["live", "--quiet", "--contest", CONTEST, "--host", "127.0.0.1", "--port", self.server.port]
        words += ["--base", BASE, "--user-file", self.folder / "account", "--listen", self.ports[at], "--idle", 20]
        words += ["--status", self.status[at], "--state", self.folder / f"state{at}"]
        words += ["--settle", SETTLE, "--hold", HOLD]
        self.relays[at] = self.program.start(words, stdout=subprocess.DEVNULL)
        ours.listening(self.relays[at], self.ports[at])

    def kill(self, at):
        self.relays[at].kill()
        self.relays[at].wait(ours.ONE)

    def connected(self, port, timeout=None):
        """A connection to the web server."""
        conn = socket.create_connection(("127.0.0.1", port), timeout=5)
        secure = self.trust.wrap_socket(conn, server_hostname=NAME)
        secure.settimeout(timeout)
        return secure

    def asks(self, port, *request):
        """The head and the beginning of the body that a request is answered with."""
        with self.connected(port, ours.ONE) as conn:
            conn.sendall(request_text(*request))
            head, _, body = ours.head_of(conn).partition(b"\r\n\r\n")
            return head.decode().split("\r\n"), body

    def status_of(self, port, *request):
        return int(self.asks(port, *request)[0][0].split()[1])

    def begin(self, port):
        """All screens read from the first relay, and none stood still yet."""
        self.screens += [Screen(self, port) for _ in range(SCREENS - len(self.screens))]
        if self.screens_at(0) < SCREENS:
            # haproxy asks a relay every two seconds whether it is back.
            waited(ours.ONE, lambda: asked_plainly(self.status[0], "/health")[0] == 200)
            time.sleep(5)
            for it in self.screens:
                it.cut()
        is_there = waited(ours.ONE, lambda: self.screens_at(0) == SCREENS and all(it.has_all() for it in self.screens))
        ours.same("all screens read from the first relay", is_there, True)
        for it in self.screens:
            it.worst = 0

    def screens_at(self, at):
        """How many screens a relay has."""
        return json.loads(asked_plainly(self.status[at], "/status.json")[1])["status"]["screens"]["open"]

    def arrived(self, what):
        """Waits until all screens have what there is. For how long one stood still at most."""
        is_well = waited(LONG, lambda: all(it.has_all() for it in self.screens))
        ours.same(f"after {what} a screen is at its place", is_well, True)
        self.judge(what)
        return f"no screen stood still for longer than {max(it.worst for it in self.screens):.1f} s"

    def judge(self, what):
        ours.same(f"after {what} false states were", sum((it.wrong for it in self.screens), [])[:9], [])
        ours.same(f"after {what} readers at the contest server were", self.server.asked_by_readers(), 0)

    def end(self):
        self.contest.is_on = False
        for it in self.screens:
            it.stop()
        self.server.close()


@contextmanager
def running(words, port):
    """A program that listens at the port, and is ended."""
    with subprocess.Popen(words, stdout=subprocess.DEVNULL, stderr=subprocess.PIPE) as run:
        try:
            ours.listening(run, port)
            if run.poll() is not None:
                raise ours.Wrong(run.stderr.read().decode()[-300:])
            yield port
        finally:
            run.terminate()
            with suppress(subprocess.TimeoutExpired):
                run.communicate(timeout=10)
            run.kill()


def checked(words):
    """That a program finds nothing wrong with a file."""
    done = subprocess.run(words, capture_output=True, timeout=ours.ONE, check=False)
    ours.same(f"{words[0]} says {done.stderr.decode()[-300:]}:", done.returncode, 0)


def hash_of(kind, word):
    """The hash of a password."""
    return subprocess.run(["openssl", "passwd", kind, word], capture_output=True, check=True).stdout.decode().strip()


def nginx_before(world, changed=lambda text: text):
    """The port of an nginx with the ready file. It writes below the folder, and logs nothing."""
    port, folder = free_port(), world.folder
    user, word = READER.split(":")
    (folder / "users").write_text(f"{user}:{hash_of('-apr1', word)}\n")
    (folder / "users").chmod(0o644)
    changes = {"10.0.0.6:8001": f"127.0.0.1:{world.ports[0]}", "10.0.0.7:8001": f"127.0.0.1:{world.ports[1]}"}
    changes |= {"10.0.0.5:80": f"127.0.0.1:{world.server.port}", "listen 443": f"listen 127.0.0.1:{port}"}
    changes |= {"/etc/ssl/feed.crt": f"{folder}/crt", "/etc/ssl/feed.key": f"{folder}/key"}
    changes |= {"/etc/nginx/feed.users": f"{folder}/users"}
    places = "".join(f"{it}_temp_path {folder}/{it};" for it in ("client_body", "proxy", "fastcgi", "uwsgi", "scgi"))
    text = changed(placed("nginx.conf", changes)).replace("http {", f"http {{ access_log off; {places}", 1)
    (folder / f"nginx{port}").write_text(text)
    words = ["nginx", "-c", f"{folder}/nginx{port}", "-e", f"{folder}/errors"]
    checked([*words, "-t", "-g", f"pid {folder}/pid{port};"])
    return running([*words, "-g", f"daemon off; pid {folder}/pid{port};"], port)


def haproxy_before(world):
    """The port of a haproxy with the ready file. Those of its frontends for relays are `world.with_base`."""
    port, folder, world.with_base = free_port(), world.folder, [free_port(), free_port()]
    user, word = READER.split(":")
    changes = {"user screen password $5$salt$hash": f"user {user} password {hash_of('-5', word)}"}
    changes |= {"10.0.0.6:8001": f"127.0.0.1:{world.ports[0]}", "10.0.0.7:8001": f"127.0.0.1:{world.ports[1]}"}
    changes |= {"10.0.0.6:9001": f"127.0.0.1:{world.status[0]}", "10.0.0.7:9001": f"127.0.0.1:{world.status[1]}"}
    changes |= {"10.0.0.5:80": f"127.0.0.1:{world.server.port}", "bind :443": f"bind 127.0.0.1:{port}"}
    changes |= {"/etc/haproxy/feed.pem": f"{folder}/pem", "src 10.0.0.6 10.0.0.7": "src 127.0.0.1"}
    changes |= {f"bind :800{it}": f"bind 127.0.0.1:{at}" for it, at in zip((6, 7), world.with_base)}
    text = placed("haproxy.cfg", changes)
    for it in (0, 1):
        relay = f"127.0.0.1:{world.ports[it]} port "
        text = text.replace(f"{relay}9001", f"{relay}{world.status[it]}")
    (folder / "haproxy").write_text(text)
    checked(["haproxy", "-c", "-f", f"{folder}/haproxy"])
    return running(["haproxy", "-db", "-f", f"{folder}/haproxy"], port)


# ---- the steps

STEPS = []


def step(what, only=None):
    def add(function):
        STEPS.append((what, only, function))
        return function

    return add


@step("both relays start with nothing while ten screens ask. These wait or get 503, and first show a whole state")
def first_start(world, port):
    began, world.screens[:] = time.monotonic(), [Screen(world, port) for _ in range(SCREENS)]
    world.arrived("a start")
    ours.same("statuses are", set(sum((it.statuses for it in world.screens), Counter())) <= {200, 503}, True)
    return f"all had it after {time.monotonic() - began:.0f} s"


@step(
    "a reader's password: without it, and with another one, 401. Nothing but GET is passed on, and no feed of another "
    "contest"
)
def passwords(world, port):
    for user, status in ((None, 401), ("hall:other", 401), (READER, 200)):
        ours.same(f"the feed for {user} is", world.status_of(port, FEED, user), status)
        ours.same(f"all else for {user} is", world.status_of(port, f"{BASE}/contests", user), status)
    ours.same("a POST is passed on", world.status_of(port, f"{BASE}/contests", READER, "POST") in (403, 405), True)
    for path in ("practice/event-feed", "practice/event%2Dfeed", "finals/event-feed/x/../"):
        ours.same(f"{path} is passed on", world.status_of(port, f"{BASE}/contests/{path}", READER) in (200, 404), True)
    ours.same("readers at the contest server were", world.server.asked_by_readers(), 0)


@step(
    "all else of the API comes from the contest server by the relays' account, and so does a WebSocket, as "
    "presentation clients open"
)
def all_else(world, port):
    ours.same("all else is", world.asks(port, f"{BASE}/contests/finals/teams", READER)[1], b"all else")
    with world.connected(port, ours.ONE) as conn:
        headers = ["Connection: Upgrade", "Upgrade: websocket", "Sec-WebSocket-Version: 13"]
        headers += ["Sec-WebSocket-Key: dGhlIHNhbXBsZSBub25jZQ=="]
        upgrade = request_text("/presentation/ws", READER, "GET", *headers)
        conn.sendall(upgrade.replace(b"HTTP/1.0", b"HTTP/1.1"))
        ours.same("a socket is", ours.head_of(conn).split()[1], b"101")
        conn.sendall(b"and back")
        ours.same("a socket gives", conn.recv(99), b"and back")


@step("a page of an address that is named may read the feed with a password, and one of another address may not")
def pages(world, port):
    def allowed(page, *request):
        lines = {it.lower() for it in world.asks(port, *request, f"Origin: {page}")[0]}
        return f"access-control-allow-origin: {page}" in lines and "access-control-allow-credentials: true" in lines

    for page, wanted in ((PAGE, True), ("https://other.example.org", False)):
        ours.same(f"{page} may ask", allowed(page, FEED, None, "OPTIONS"), wanted)
        ours.same(f"{page} may read", allowed(page, FEED, READER, "GET"), wanted)


@step("the first relay is killed, and started again after 1 s")
def one_killed(world, port):
    world.begin(port)
    world.kill(0)
    time.sleep(1)
    world.start(0)
    time.sleep(8)
    return world.arrived("a kill")


@step("the first relay hangs (SIGSTOP)")
def one_hangs(world, port):
    world.begin(port)
    was = [it.ends for it in world.screens]
    world.relays[0].send_signal(signal.SIGSTOP)
    moved = waited(LONG, lambda: all(it.has_all() and it.ends > old for it, old in zip(world.screens, was)))
    ours.same("behind a relay that hangs all went on", moved, True)
    told = world.arrived("a hang")
    world.relays[0].send_signal(signal.SIGCONT)
    time.sleep(8)
    world.arrived("its end")
    return told


@step("the first relay begins with nothing (no state file): ten of ten screens that ask for everything get 200")
def one_empty(world, port):
    world.begin(port)
    world.kill(0)
    for file in world.folder.glob("state0*"):
        file.unlink()
    world.start(0)
    time.sleep(3)
    began = time.monotonic()
    ours.same("statuses are", [world.status_of(port, FEED, READER) for _ in range(10)], [200] * 10)
    took = time.monotonic() - began
    world.arrived("a start with nothing")
    return f"all ten within {took:.1f} s"


@step("both relays are killed for 10 s: no screen goes to the contest server")
def both_killed(world, port):
    world.begin(port)
    for at in (0, 1):
        world.kill(at)
    time.sleep(10)
    ours.same("a screen gets", world.status_of(port, FEED, READER) in (502, 503), True)
    for at in (0, 1):
        world.start(at)
    return world.arrived("two kills")


@step(
    f"the contest server is away for {AWAY} s: no screen is cut, and one that asks for everything gets the last state"
)
def primary_away(world, port):
    world.begin(port)
    world.contest.is_paused, at = True, world.server.port
    world.arrived("a pause")
    ends = [it.ends for it in world.screens]
    world.server.close()
    time.sleep(AWAY)
    fresh = Screen(world, port)
    ours.same("one that asks for everything is at its place", waited(20, fresh.has_all), True)
    ours.same("ends of screens are", [it.ends for it in world.screens], ends)
    fresh.stop()
    world.server, began = ContestServer(world.contest, world.other, at), time.monotonic()
    world.contest.is_paused = False
    came = world.contest.at + RATE
    is_back = waited(LONG, lambda: all(it.since and world.contest.place(it.since) >= came for it in world.screens))
    ours.same("all screens went on", is_back, True)
    world.judge("a contest server that was away")
    return f"screens went on {time.monotonic() - began:.1f} s after its return"


@step("relays name each other by the ports with a base, which nobody else may ask", "haproxy")
def with_base(world, _port):
    for port in world.with_base:
        for whose, status in (("127.0.0.1", b"200"), ("127.0.0.2", b"403")):
            with socket.create_connection(("127.0.0.1", port), ours.ONE, (whose, 0)) as conn:
                conn.sendall(request_text(FEED))
                ours.same(f"{whose} is answered", ours.head_of(conn).split()[1], status)
    below, status = free_port(), free_port()
    words = ["live", "--quiet", "--contest", CONTEST, "--host", "127.0.0.1", "--port", free_port(), "--base", BASE]
    words += ["--from", f"127.0.0.1:{world.with_base[1]}", "--listen", below, "--status", status]
    ours.listening(world.program.start(words, stdout=subprocess.DEVNULL), status)
    ours.same("it follows the other relay", waited(20, lambda: asked_plainly(status, "/health")[0] == 200), True)


@step(
    "with the lines `#P `, both relays gone: 50 screens that have a token read from the contest server, others get 503",
    "nginx",
)
def straight(world, port):
    for it in world.screens:
        it.stop()
    world.screens.clear()
    with nginx_before(world, lambda text: text.replace("#P ", "")) as port:
        world.begin(port)
        world.arrived("a further nginx")
        for at in (0, 1):
            world.kill(at)
        is_well = waited(LONG, lambda: all(it.has_all() for it in world.screens) and world.server.asked_by_readers())
        ours.same("screens went on", is_well, True)
        ours.same("false states were", sum((it.wrong for it in world.screens), [])[:9], [])
        ours.same("a screen without a token gets", world.status_of(port, FEED, READER), 503)
        late = [world.connected(port, ours.ONE) for _ in range(50 - SCREENS)]
        for it in late:
            it.sendall(request_text(f"{FEED}?since_token={world.contest.token()}", READER))
            ours.same("a further screen gets", ours.head_of(it).split()[1], b"200")
        query = f"{FEED}?since_token={world.contest.token()}"
        ours.same("one more gets", world.status_of(port, query, READER), 503)
        for it in late:
            it.close()
        for at in (0, 1):
            world.start(at)
        ours.same("a relay answers", waited(20, lambda: world.status_of(port, FEED, READER) == 200), True)

#!/usr/bin/env python3
"""Screens that take from a relay what others need: tools/attacks.py ATTACK PORT

Each is a process of its own beside one that measures, and goes on until its standard input ends. ATTACK is one of
these:

- slow: twelve screens ask for everything, each second one in HTTP/1.0, take 60,000 bytes a second each, and ask
  again once they are refused or cut;
- late: screens ask with the token 1, and read nothing but what comes first; some forty a second;
- visits: screens ask, read what comes first, and close; some two hundred a second;
- crowd: screens come to a relay that is full; some two hundred a second, each of which reads its refusal.

At the end a line of JSON says how many of each status were read, and how long the slowest of them took, in seconds.
The last line is 'attacks.py: N passed, M failed', where those failed that heard nothing."""
import json
import select
import socket
import sys
import threading
import time
from contextlib import closing, suppress

sys.dont_write_bytecode = True
from common import parser_of

REQUEST = "GET /contests/c/event-feed{} HTTP/1.{}\r\nHost: h\r\n\r\n"

# How many screens are slow, how many bytes each takes a second, and how many a second come late, or of the others.
SLOW, RATE, LATE, A_SECOND = 12, 60_000, 40, 200

# As long as one screen waits for its answer, in seconds.
PATIENCE = 30


class Attack:
    """Screens at a port, and what they were told."""

    def __init__(self, port):
        self.port, self.is_on, self.lock = port, True, threading.Lock()
        self.statuses, self.slowest = {}, 0

    def ask(self, version=1, query=""):
        conn = socket.socket()
        conn.settimeout(PATIENCE)
        conn.setsockopt(socket.SOL_SOCKET, socket.SO_RCVBUF, 65_536)
        conn.connect(("127.0.0.1", self.port))
        conn.sendall(REQUEST.format(query, version).encode())
        return conn

    def told(self, head, began):
        """What came first on a connection that was opened at a time."""
        with self.lock:
            status = head[9:12].decode() if len(head) >= 12 else "none"
            self.statuses[status] = self.statuses.get(status, 0) + 1
            self.slowest = max(self.slowest, time.monotonic() - began)

    def read(self, conn, began):
        """Reads what comes first."""
        head = b""
        with suppress(OSError):
            head = conn.recv(4096)
        self.told(head, began)

    def slow(self):
        threads = [threading.Thread(target=self.take_slowly, args=[number % 2]) for number in range(SLOW)]
        for it in threads:
            it.start()
        sys.stdin.read()
        self.is_on = False
        for it in threads:
            it.join()

    def take_slowly(self, version):
        while self.is_on:
            began = time.monotonic()
            with suppress(OSError), closing(self.ask(version)) as conn:
                self.read(conn, began)
                while self.is_on and (piece := conn.recv(RATE // 4)):
                    time.sleep(len(piece) / RATE)
            time.sleep(0.5)

    def late(self):
        held = []
        for began in self.beats(LATE):
            held.append(self.ask(query="?since_token=1"))
            self.read(held[-1], began)
        for conn in held:
            conn.close()

    def visits(self):
        for began in self.beats(A_SECOND):
            with suppress(OSError), closing(self.ask()) as conn:
                self.read(conn, began)

    def crowd(self):
        """Nobody waits for who came before."""
        waiting = {}
        for began in self.beats(A_SECOND):
            waiting[self.ask()] = began
            self.hear(waiting, 0)
        until = time.monotonic() + PATIENCE
        while waiting and time.monotonic() < until:
            self.hear(waiting, 1)
        for began in waiting.values():
            self.told(b"", began)

    def hear(self, waiting, seconds):
        for conn in select.select(list(waiting), [], [], seconds)[0]:
            with closing(conn):
                self.read(conn, waiting.pop(conn))

    def beats(self, rate):
        """The time, so many times a second, until standard input ends."""
        began, count = time.monotonic(), 0
        while not select.select([sys.stdin], [], [], max(0, began + count / rate - time.monotonic()))[0]:
            count += 1
            yield time.monotonic()


def main():
    parser = parser_of(__doc__)
    parser.add_argument("attack", metavar="ATTACK", choices=["slow", "late", "visits", "crowd"])
    parser.add_argument("port", metavar="PORT", type=int)
    asked = parser.parse_args()
    attack = Attack(asked.port)
    getattr(attack, asked.attack)()
    print(json.dumps({"statuses": attack.statuses, "slowest": round(attack.slowest, 3)}))
    untold = attack.statuses.get("none", 0)
    print(f"attacks.py: {sum(attack.statuses.values()) - untold} passed, {untold} failed")


if __name__ == "__main__":
    main()

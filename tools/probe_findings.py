"""The report of tools/probe: its findings; and the first of them, whether a server is reached, and how it speaks."""
import json
import re
import socket
from contextlib import suppress

from probe_feed import plural
from probe_links import HEAD, TLS_GUIDE, ask, is_coded, is_page, tls_version

# The statuses: it fits as it is, with options, not; that can't be said; and no connection could be made.
FITS, WITH_OPTIONS, NOT, UNSEEN, NO_CONNECTION = range(5)
WORST_FIRST = (NO_CONNECTION, NOT, UNSEEN, FITS)
# Where servers of the field have their contests.
BASES = ("", "/api", "/api/v4", "/domjudge/api/v4")
BY_NGINX = f"put nginx before that port ({TLS_GUIDE}), and name nginx"


class Findings:
    """The lines of a report, the options that a relay needs, and what could not be looked at."""

    def __init__(self, secrets=()):
        self.lines, self.options, self.unseen, self.worst, self.secrets = [], {}, [], FITS, secrets

    def add(self, level, topic, text, means=()):
        said = [text, *means]
        for secret in self.secrets:
            said = [it.replace(secret, "***") for it in said]
        self.lines.append((level, topic, said[0], said[1:]))

    def ok(self, topic, text, *means):
        self.add("ok", topic, text, means)

    def note(self, topic, text, *means, **options):
        """Worth knowing; or mended by options, which are then in the call that is printed."""
        self.add("note", topic, text, means)
        self.options.update(options)

    def problem(self, topic, text, *means, status=NOT):
        """What no option mends."""
        self.add("problem", topic, text, means)
        self.worst = min(self.worst, status, key=WORST_FIRST.index)

    def not_seen(self, topic, why, *means):
        self.add("note", topic, f"not looked at: {why}", means)
        self.unseen.append(topic)

    def status(self):
        if self.worst != FITS:
            return self.worst
        return UNSEEN if self.unseen else WITH_OPTIONS if self.options else FITS

    def words(self):
        """The options as words of a call."""
        given = [(f"--{name.replace('_', '-')}", value) for name, value in self.options.items()]
        return [word for name, value in given for word in ([name] if value is True else [name, str(value)])]


def printable(text, most):
    """The begin of a text, with ? for what can't be printed."""
    shown = "".join(it if " " <= it <= "~" else "?" for it in bytes(text[:most]).decode("latin1"))
    return shown + (".." if len(text) > most else "")


# ---- whether it is reached, and how it speaks


def see_reached(findings, passage, asker):
    """Whether there is a response with status 200."""
    feed, answer = passage.feed, passage.response
    if passage.failure:
        means = "mend the name or the resolver: `live` asks again" if passage.is_unknown else (
            "nothing listens there, or a firewall is between: look at the host and the port")
        findings.problem("reached", f"{feed.server()}: {passage.failure}", means, status=NO_CONNECTION)
        return False
    see_addresses(findings, feed)
    where = feed.server() if passage.address == feed.host else f"{feed.server()} ({passage.address})"
    if answer.status is None:
        see_no_answer(findings, passage, where)
        return False
    took = f"{passage.connected * 1000:.1f} ms; status {answer.status} after {passage.answered:.2f} s"
    text = f"{where} in {took} to GET {feed.path()}"
    if passage.answered > HEAD:
        means = f"`live` leaves a server that has not answered after {HEAD} s: mend the server"
        findings.problem("reached", text, means)
        return False
    if answer.interim:
        means = "`live` takes that for its answer, and leaves it: switch that off (Early Hints, say), in proxies, too"
        findings.problem("reached", f"{text}, and status {answer.interim[0]} before it", means)
        return False
    if answer.status == 200:
        findings.ok("reached", text)
        return True
    see_status(findings, passage, asker, text)
    return False


def see_addresses(findings, feed):
    with suppress(OSError):
        found = socket.getaddrinfo(feed.host, feed.port, type=socket.SOCK_STREAM)
        addresses = sorted({it[4][0] for it in found})
        if len(addresses) > 1:
            findings.note(
                "reached",
                f"{feed.host} has {len(addresses)} addresses: {', '.join(addresses[:8])}",
                "`live` takes each for a server of one log with the same tokens: if they aren't, name one address",
            )


def see_no_answer(findings, passage, where):
    """Says why a connection brought no response."""
    version = tls_version(passage.feed, passage.response.begins)
    if version:
        findings.problem("reached", f"{where}: that port speaks {version}, and no plain HTTP", BY_NGINX)
    elif passage.response.fault:
        begin = printable(passage.response.begins, 60)
        findings.problem("reached", f"{where}: what answers speaks no HTTP: {begin}", "look at the port")
    else:
        how = f"{'the connection ended' if passage.end else 'nothing came'} after {passage.lasted():.1f} s"
        leaves = f"; `live` leaves a server after {HEAD} s without one" if passage.lasted() > HEAD else ""
        means = f"look at that server's log{leaves}"
        findings.problem("reached", f"{where}: {how}, without an answer to GET {passage.feed.path()}", means)


def see_status(findings, passage, asker, text):
    """Says what another status than 200 means."""
    answer, status = passage.response, passage.response.status
    body = printable(answer.payload, 80)
    if b"HTTPS port" in answer.payload or status == 426:
        findings.problem("reached", f"{text}: that is a port for TLS", BY_NGINX)
    elif 300 <= status < 400:
        there = answer.fields.get("location", "nowhere")
        other = "`live` follows no redirect: probe that URL, and name it to `live`"
        means = BY_NGINX if there.startswith("https:") else other
        findings.problem("reached", text, f"it redirects to {there}", means)
    elif status == 401 and asker.line:
        findings.problem("reached", text, "the name or the password of --user-file is refused")
    elif status == 401:
        scheme = answer.fields.get("www-authenticate", "it names no scheme")
        means = "write NAME:PASSWORD into a file that only you can read (chmod 600), and give --user-file"
        findings.problem("reached", text, f"it wants a name and a password ({scheme}):", means)
    elif status == 403:
        means = "this account may not see the feed" if asker.line else "it may want an account: --user-file"
        findings.problem("reached", text, f"{means}; or this address isn't let in")
    elif status == 404:
        other = "look at what stands before /contests (a relay has nothing there), and at the contest's id"
        means = contests_at(passage.feed, asker) or other
        findings.problem("reached", f"{text}: no such contest, or no such base", means)
    elif status == 503:
        means = "it has nothing to show yet, or is overloaded: `live` waits for it. Probe again later"
        findings.problem("reached", f"{text}: {body}", means, status=UNSEEN)
    else:
        findings.problem("reached", f"{text}: {body}", "the server fails, or a proxy before it: look at their logs")


def contests_at(feed, asker):
    """Which contests that server has, and where: asked at the base of the URL, and at those of the field."""
    for base in dict.fromkeys((feed.base, *BASES)):
        with suppress(ValueError, TypeError, KeyError):
            listed = json.loads(bytes(ask(feed, asker, f"{base}/contests").response.payload))
            ids = [str(it["id"]) for it in listed]
            many, names = plural(len(ids), "contest"), printable(", ".join(ids[:10]).encode(), 200)
            return f"it has {many} at {base}/contests: {names}"
    bare = f"/contests/{feed.contest}/event-feed"
    if feed.base and feed.contest and ask(feed, asker, bare).response.status in (200, 503):
        return f"it serves the feed without {feed.base}, as a relay does: leave {feed.base} out of the URL"
    return ""


def see_http(findings, passage):
    """Whether its body is plain lines, and how that is framed."""
    answer = passage.response
    kind, coding = (answer.fields.get(f"content-{it}", f"no Content-{it.title()}") for it in ("type", "encoding"))
    transfer = answer.fields.get("transfer-encoding", "chunked")
    if is_coded(answer):
        means = "`live` leaves it (bad coding): switch compression off for this path (nginx: gzip off), in proxies, too"
        findings.problem("http", f"the body is coded: Content-Encoding: {coding}, which was not asked for", means)
    elif transfer.lower() != "chunked":
        findings.problem("http", f"Transfer-Encoding: {transfer}", "`live` reads no other than chunked (bad coding)")
    elif answer.fault:
        findings.problem("http", answer.fault, "the server, or a proxy before it, breaks the rules of HTTP: look there")
    elif is_page(answer):
        title = re.search(rb"<title>(.*?)</title>", answer.payload[:4_096], re.S | re.I)
        begin = printable(title[1] if title else answer.payload, 70)
        means = "a page to log in, or a wrong path: look at the base, and give --user-file if a password is needed"
        findings.problem("http", f"a page came, and no feed ({kind}): {begin}", means)
    elif answer.framing == "length":
        means = "that is a file, and no feed that goes on: `live` asks for it again and again"
        findings.note("http", f"{answer.version}, with its length, {kind}", means)
    else:
        how = "in chunks" if answer.framing == "chunks" else "to the end of the connection"
        findings.ok("http", f"{answer.version}, {how}, {kind}")
    return findings.worst == FITS

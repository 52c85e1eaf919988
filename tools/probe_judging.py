"""What tools/probe finds of a feed: a line for each thing that a relay supposes of it, what that means for screens, and
which option to give."""
import json
import statistics

from probe_feed import (
    SETTLE,
    answer_to,
    burst_after,
    form_of,
    longer_pause,
    longest_pause,
    objects_of,
    plural,
    settles_at,
    shorter_pause,
    token_like,
)
from probe_findings import FITS, UNSEEN, printable
from probe_links import MOST_FEED, ask, target_after

# How long a screen waits by default before it is answered 503, in seconds; and what that may be at most.
HOLD, MOST_HOLD = 10, 3_600
# As long as proxies let a connection be silent by default, in seconds, and what finds one that cuts it then.
SILENCE, LONG_LOOK = 60, 130
NEEDED = ("teams", "problems", "submissions", "judgements")


def see_format(findings, feed):
    """The format, the first line that isn't a notification, and ids."""
    if feed.fault:
        at = f", {feed.fault[3]}" if feed.fault[3] else ""
        findings.problem(
            "format",
            f"line {int(feed.fault[1]):,} is no notification: {feed.fault[2]}{at}",
            "`live` follows it no further than that, and asks again; what it has not shown by then it drops. The line:",
            printable(feed.bad, 110),
        )
    count, keepalives = plural(len(feed.notes), "notification"), plural(feed.counts.get("keepalives", 0), "keep-alive")
    old, _ = feed.how_many("lines in the format of 2020-03")
    if feed.is_old() and feed.notes:
        means = "that format has no tokens, so screens get 503 for ever: switch the server to 2023-06"
        findings.problem("format", f"2020-03: {old:,} of {plural(len(feed.notes), 'line')} have `op`", means)
    elif feed.notes and not feed.fault:
        findings.ok("format", f"2023-06: {count}, {keepalives}, {feed.size:,} bytes")
    wrong, first = feed.how_many("ids that are not the object's")
    if wrong and not feed.is_old():
        means = "screens are sent the line as it is: those that look at the object's own id may miss it"
        many = plural(wrong, "line")
        findings.note("ids", f"{many} under another id than the object's, first at line {first:,}", means)
    elif feed.notes and not wrong:
        findings.ok("ids", "each object is under its own id")


def see_tokens(findings, feed, trial):
    """Whether there are tokens, and whether each names one state."""
    if not feed.tokens:
        if feed.notes:
            findings.problem("tokens", "no line has one", "nothing of it can be shown: screens get 503 for ever")
        elif not feed.fault:
            means = "the contest may not be set up yet: probe again once it has teams"
            findings.problem("tokens", "no line came", means, status=UNSEEN)
        return False
    many = sum(it.token is not None for it in feed.notes)
    before, _ = feed.how_many("lines before the first token")
    share = "on each line" if many == len(feed.notes) else f"on {many:,} of {plural(len(feed.notes), 'line')}"
    share += f", first after {plural(before, 'line')} without one" if before else ""
    again, first = feed.how_many("repeated tokens")
    lost = trial.report(r"gave the token (.*) to two states")
    if lost:
        findings.problem(
            "tokens",
            f"{share}; {plural(again, 'token')} came again, first at line {first:,}, and {lost[1]} with other changes",
            "a token names one state: a relay drops what comes with it again, SO SCREENS LACK IT, with --fresh, too.",
            "Ask the server's makers: a token belongs on the last line of a commit alone",
        )
        return False
    form = f"{form_of(feed.tokens)}; first {json.dumps(feed.tokens[0])}, last {json.dumps(feed.tokens[-1])}"
    if again:
        means = "what comes with it again says the same, so screens lack nothing"
        findings.note("tokens", f"{share}; {plural(again, 'token')} came again, first at line {first:,}", means)
    findings.ok("tokens", f"{share}; {form}")
    return True


def see_start(findings, feed, trial):
    """What comes first, and when a relay shows it."""
    first, settled = trial.first(), trial.report(r"all of it came, in (\d+) ms")
    arrivals = [(at - first.first, count) for at, count in first.arrivals]
    if not settled:
        see_unsettled(findings, feed, arrivals, trial)
        return
    shown = int(settled[1]) / 1000
    findings.ok("start", feed.kind(len(feed.notes) if first.end == "whole" else lines_by(feed, arrivals, shown)))
    if first.end == "whole":
        findings.ok("settle", f"it ended in order, so a relay shows it at once, after {shown:.1f} s")
        return
    # A relay on a busy machine may be later than it could be.
    burst = burst_after(arrivals, min(shown, settles_at(arrivals, SETTLE) or shown))
    longest = longest_pause(arrivals, shown - SETTLE)
    if not burst:
        text = f"{shown:.1f} s after its first byte a relay shows it; longest pause before: {longest:.1f} s"
        findings.ok("settle", text)
        return
    when, most, pause = burst
    need = longer_pause(arrivals, pause, first.lasted() - first.first)
    findings.note(
        "settle",
        f"it paused for {pause:.1f} s, and then went on: {most:,} bytes in the second after {when:.1f} s",
        f"after {shown:.1f} s screens would be shown a part of it: give --settle {need * 1000}",
        settle=need * 1000,
    )


def see_unsettled(findings, feed, arrivals, trial):
    """A feed that a relay did not show by itself."""
    first = trial.first()
    until = first.lasted() - first.first
    rate = sum(count for at, count in arrivals if at > until / 2) / max(until / 2, 0.001)
    findings.ok("start", feed.kind(len(feed.notes)))
    came = f"it has not settled within {until:.0f} s: {feed.size:,} bytes came, of late {rate:,.0f} a second"
    shorter, left = shorter_pause(arrivals, until), trial.report(r"upstream: .*; next in \d+ ms")
    if left and not first.end:
        findings.not_seen("settle", f"`live` left the server, and reports: {left[0]}")
    elif shorter and not first.end:
        pause, shown = shorter
        findings.note(
            "settle",
            came,
            "screens get 503 until what comes in 2 s is 1/64 of all, or for 10 minutes; so it is with a young contest.",
            f"With --settle {pause * 1000:.0f} it would have been shown after {shown:.1f} s",
            settle=int(pause * 1000),
        )
    elif first.end in ("closed", "reset"):
        means = "a relay drops what came on a connection that breaks off, unless two end at the same token: see `quiet`"
        findings.problem("settle", f"the connection ended after {first.ended:.1f} s, before it had settled", means)
    else:
        means = f"screens get 503 until it has, for 10 minutes at most. Probe longer: --seconds {LONG_LOOK}"
        findings.not_seen("settle", came, means)


def lines_by(feed, arrivals, shown):
    """How many notifications had come by then."""
    room = sum(count for at, count in arrivals if at <= shown)
    with feed.file.open("rb") as lines:
        text = lines.read(room)
    return sum(1 for line in text.split(b"\n")[:-1] if line.strip())


# ---- what is answered to a token


SINCE = {
    "after": ("ok", ()),
    "again": ("ok", ()),
    "earlier": ("note", ("a relay skips what it holds",)),
    "start": ("fresh", ("it ignores since_token: each connection brings everything. `live` notices most that do",)),
    "older": (
        "fresh",
        (
            "its feed from the start goes another way than its events: a relay is sent events that are over,",
            "and SHOWS SCREENS THESE OLDER STATES right after its start",
        ),
    ),
    "gaps": (
        "fresh",
        ("it leaves out superseded commits: after a cut a relay would show states that the server never had",),
    ),
    "nothing": ("fresh", ("a relay that asks with this token lacks what came after it, for good",)),
    "other": ("fresh", ("it can't be said what a relay makes of that",)),
    "refused": ("note", ("a relay that comes back with such a token asks for everything: nothing is lost",)),
}


def ask_tokens(tokens, asker, place):
    """What the server sends to who asks with a token of the middle, with the one before the newest, with the newest,
    and with one that no server can have given."""
    chosen = {"since": tokens[len(tokens) // 2] if len(tokens) > 2 else None}
    chosen |= {"recheck": tokens[-2] if len(tokens) > 1 else None, "newest": tokens[-1], "unheld": token_like(tokens)}
    return {what: (it, ask(place, asker, target_after(place, it))) for what, it in chosen.items() if it is not None}


def see_answers(findings, feed, trial, answers):
    if trial.report("ignores since_token"):
        means = "each connection brings everything: give --fresh"
        findings.note("since", "`live` found that it ignores since_token", means, fresh=True)
    for what, see in (("since", see_since), ("recheck", see_recheck), ("newest", see_newest), ("unheld", see_unheld)):
        if what not in answers:
            means = f"it sent {plural(len(feed.tokens), 'token')}; look again once it has more"
            findings.note(what, "not looked at, for there is no such token", means)
            continue
        token, passage = answers[what]
        kind, text = answer_to(feed, token, passage)
        if kind == "failed":
            see_failed(findings, what, f"asked with {json.dumps(token)}: {text}", passage)
        else:
            see(findings, feed, f"asked with {json.dumps(token)}", kind, text, passage)


def see_failed(findings, what, said, passage):
    """What a request with a token comes to that is answered neither 200 nor 400."""
    if what == "newest" and not passage.failure:
        means = "a relay that asks while nothing is new fails so, and asks again up to 30 s later: commits are late."
        more = "Its head has to come at once: look at proxies, too (nginx: proxy_buffering off, fastcgi_read_timeout)"
        findings.problem(what, f"{said}, to its newest token", means, more)
    elif what == "unheld" and passage.response.status:
        means = "status 400 alone says that a token isn't held: if the server is set back, a relay asks again for ever."
        findings.note(what, f"{said}, a token that it can't have given", means, "Start it with --new then")
    else:
        findings.not_seen(what, said, "a relay that asks so tries again")


def see_since(findings, _feed, asked, kind, text, _passage):
    level, means = SINCE[kind]
    said = f"{asked}, of a line in the middle: {text}"
    if level == "fresh":
        findings.note("since", said, *means, "give --fresh: then each connection asks for everything", fresh=True)
    else:
        findings.add(level, "since", said, means)


def see_recheck(findings, feed, asked, kind, text, passage):
    """Whether the newest commit comes again, by which a relay sees that the server was not set back."""
    said = f"{asked}, of the commit before the newest"
    if "fresh" in findings.options:
        return
    if kind in ("after", "again", "earlier"):
        findings.ok("recheck", f"{said}: the newest commit comes again, the same")
    elif kind == "refused":
        findings.note("recheck", f"{said}: {text}", "a relay then asks with the newest, without a look at that commit")
    else:
        means = "to a relay that looks as if the server was set back: it asks for everything"
        findings.note("recheck", f"{said}: {text}", means, "give --fresh", fresh=True)


def see_newest(findings, _feed, asked, kind, text, _passage):
    said = f"{asked}, its newest token"
    if kind == "nothing":
        findings.ok("newest", f"{said}: status 200, and no line yet")
    elif kind in ("after", "again"):
        findings.ok("newest", f"{said}: {text}")
    elif kind == "refused":
        findings.note(
            "newest",
            f"{said}: {text}",
            "it doesn't take its own token: each new connection asks for everything, and screens begin again then.",
            "With --fresh they go on, if the state is the same",
            fresh=True,
        )
    elif "fresh" not in findings.options:
        findings.note("newest", f"{said}: {text}", "give --fresh", fresh=True)


def see_unheld(findings, _feed, asked, kind, text, _passage):
    said = f"{asked}, a token that it can't have given"
    if kind == "refused":
        findings.ok("unheld", f"{said}: {text}, so a server that was set back is noticed")
    elif kind == "start":
        means = "a relay with a token of an earlier feed may take that for the rest of its own"
        findings.note("unheld", f"{said}: {text}", f"{means}: start with --new for each new feed")
    else:
        findings.note(
            "unheld",
            f"{said}: it takes that token ({text})",
            "if the server is set back, a relay may wait at its old state: never give --no-recheck,",
            "start with --new for each new feed, and watch the age of the last commit",
        )


# ---- how it stays, and what it takes


def see_quiet(findings, passage, seconds):
    """Whether a quiet connection stays open, and how often something comes on it."""
    read = passage.lasted() - passage.answered
    last = passage.latest or passage.answered
    if passage.end == "long":
        findings.not_seen("quiet", f"over {MOST_FEED >> 20} MiB came")
        return
    if passage.end == "whole":
        means = "a feed doesn't end: `live` asks again, with pauses of up to 30 s"
        findings.note("quiet", f"the body ended in order after {read:.1f} s", means)
        return
    if passage.end:
        silence = passage.ended - last
        how = "was reset" if passage.end == "reset" else "ended without its last chunk" if (
            passage.response.framing == "chunks") else "ended"
        who = "something cuts quiet connections" if silence > 1 else "something ends connections, quiet or not"
        findings.note(
            "quiet",
            f"the connection {how} after {read:.1f} s, the last {silence:.1f} s of them quiet",
            f"{who} (nginx: proxy_read_timeout; PHP: max_execution_time; a load balancer): raise that limit.",
            "Each cut costs a connection, and a feed that isn't whole by then is never shown",
        )
        return
    times = sorted([passage.answered, *passage.alive, *(at for at, _ in passage.arrivals), passage.lasted()])
    silence = max(after - before for before, after in zip(times, times[1:]))
    gaps = [after - before for before, after in zip(passage.alive, passage.alive[1:])]
    every = f", one each {statistics.median(gaps):.0f} s" if gaps else ""
    alive = f"{plural(len(passage.alive), 'keep-alive')}{every}" if passage.alive else "no keep-alive"
    means = () if silence >= SILENCE or passage.alive else (
        f"not looked at: a longer silence. Whether a proxy cuts after {SILENCE} s is seen with --seconds {LONG_LOOK}",)
    findings.ok("quiet", f"it stayed open for {read:.0f} s, with {alive}; longest silence {silence:.0f} s", *means)


def see_size(findings, feed, trial):
    """How much there is of it, and what it costs."""
    snapshot = feed.tables()
    counts = {}
    for kind, _ in objects_of(snapshot):
        counts[kind] = counts.get(kind, 0) + 1
    many = plural(sum(counts.values()), "object")
    findings.ok(
        "size",
        f"{many} of {plural(len(counts), 'type')}: each new screen is sent {len(snapshot):,} bytes",
        ", ".join(f"{kind} {count:,}" for kind, count in sorted(counts.items())),
    )
    lacks = [it for it in NEEDED if it not in counts]
    if lacks:
        means = "the contest hasn't begun, or this account may not see them: screens see what it sees (--user-file)"
        findings.note("account", f"no {' and no '.join(lacks)} came", means)
    if trial.peak:
        findings.ok("memory", f"a relay took {trial.peak / 1e6:.0f} MB at most while that came")


def see_screen(findings, trial):
    """When a relay served a first screen."""
    given = f", with {' '.join(trial.options)}" if trial.options else ""
    if trial.screened is None:
        if findings.worst == FITS and not findings.unseen:
            findings.not_seen("screen", f"none was served meanwhile{given}", *trial.reports()[-3:])
        return
    findings.ok("screen", f"a first screen was served {trial.screened:.1f} s after the relay asked{given}")
    if trial.screened > HOLD:
        hold = min(MOST_HOLD, int(trial.screened * 2) + 1)
        means = f"at a first start screens are answered 503 after {HOLD} s: if they don't ask again, give --hold {hold}"
        findings.note("screen", f"that is more than {HOLD} s", means, hold=hold)


# ---- two servers


def see_other(findings, feed, other, asker, place):
    """Whether a second server has the same tokens for the same states."""
    common = [it for it in feed.tokens if it in other.where]
    if not common:
        newest = [json.dumps(it.tokens[-1]) for it in (feed, other)]
        findings.note(
            "against",
            f"no token of one is one of the other: {newest[0]} and {newest[1]} are the newest",
            "each numbers its own log, as a shadow does: name both only with --fresh",
            f"Each change of server then brings {other.size:,} bytes",
            fresh=True,
        )
        return
    looked = list(dict.fromkeys([common[-1], common[0], common[len(common) // 2]]))
    tables = {it: (objects_of(feed.tables(it)), objects_of(other.tables(it))) for it in looked}
    wrong = next((it for it in looked if tables[it][0] != tables[it][1]), None)
    if wrong is None:
        see_held(findings, common, looked, asker, place)
        return
    one, two = tables[wrong]
    differ = sorted(key for key in {*one, *two} if one.get(key) != two.get(key))
    first = differ[0]
    findings.note(
        "against",
        f"at the token {json.dumps(wrong)} {plural(len(differ), 'object')} differ, first {first[0]} {first[1]}",
        f"here:  {one.get(first, 'nothing')[:90]}",
        f"there: {two.get(first, 'nothing')[:90]}",
        "the same tokens stand for other states, as with a shadow, or for what another account sees.",
        "Without --fresh screens would be shown a mixture, and nothing would report it",
        fresh=True,
    )


def see_held(findings, common, looked, asker, place):
    """Whether the second server takes the newest token that both sent."""
    passage = ask(place, asker, target_after(place, common[-1]))
    many = f"{plural(len(common), 'token')} of both, with the same states at {len(looked)} that were compared"
    if passage.response.status == 200:
        findings.ok("against", f"{many}: {place.server()} may be named in --from")
    elif passage.response.status is None:
        findings.not_seen("against", f"{many}; asked with {json.dumps(common[-1])}: {passage.failure or 'no answer'}")
    else:
        means = "that server can't go on from there: name both only with --fresh"
        findings.note("against", f"{many}; yet it answers {passage.response.status} to that token", means, fresh=True)

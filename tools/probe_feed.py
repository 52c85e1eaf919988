"""What came of a feed, for tools/probe: as the program reads it, what a server answers to a token, and when a relay
would show it."""
import bisect
import json
import re
import subprocess
from collections import Counter
from typing import NamedTuple

from common import ENVIRONMENT

# A feed has settled once no more than one part in so many of it came of late: the rule of `live`.
SHARE = 64
# It counts in slices of time, of which those that it looks at last so much longer than the pause.
SLICES = 16 / 15
# What of that is more of the same: a second that brought over one part in so many of the busiest second before.
BUSY = 8
# How long `live` waits by default, in seconds, and what else may be given.
SETTLE, LONGER, SHORTER = 2, (3, 5, 8, 10, 15, 20, 30, 60), (1, 0.5, 0.25)
# How long one run of the program may take, in seconds.
ONE = 600


class Notification(NamedTuple):
    """What a line says, however it is written."""

    kind: str
    name: str
    data: str
    token: str


def notification(line):
    """What a line says; nothing if it is white space, or no object."""
    try:
        said = json.loads(line)
    except ValueError:
        return None
    if not isinstance(said, dict):
        return None
    data = json.dumps(said.get("data"), sort_keys=True)
    return Notification(said.get("type"), said.get("id"), data, said.get("token"))


def notifications(text):
    """What the whole lines of a text say."""
    found = (notification(line) for line in bytes(text).split(b"\n")[:-1] if line.strip())
    return [it for it in found if it]


def tokens_of(notes):
    """The tokens, in the order in which they came first."""
    return list(dict.fromkeys(it.token for it in notes if it.token is not None))


def objects_of(snapshot):
    """The objects of a snapshot that the program printed, by type and id."""
    lines = [json.loads(line) for line in snapshot.split(b"\n") if line.strip()]
    return {(it["type"], it["id"] or ""): json.dumps(it["data"]) for it in lines if it["data"] and it["data"] != []}


class Feed:
    """What one connection brought, up to the first line that can't be read."""

    def __init__(self, program, payload, file):
        self.program, self.file, self.fault = program, file, None
        self.read(bytes(payload))
        if self.fault:
            lines = bytes(payload).split(b"\n")
            number = int(self.fault[1])
            self.bad = lines[number - 1]
            self.read(b"".join(line + b"\n" for line in lines[: number - 1]))
        self.notes = notifications(self.file.read_bytes())
        self.tokens = tokens_of(self.notes)
        # Where each token came first.
        self.where = {it.token: at for at, it in reversed(list(enumerate(self.notes)))}

    def read(self, payload):
        """Has the program count what there is."""
        self.file.write_bytes(payload)
        self.size = len(payload)
        out, said = self.run("check", "--stream", "--verbose")
        first, *rest = out.decode().split("\n")
        self.counts = {name: int(count) for name, count in re.findall(r"(\w+) (\d+)", first)}
        found = (re.fullmatch(r"(.*?) (\d+)(?:, first at line (\d+))?", line) for line in rest)
        self.wrong = {it[1]: (int(it[2]), int(it[3] or 0)) for it in found if it}
        self.fault = self.fault or re.search(r"check: line (\d+): (.*)(?:\n\s+(at byte .*))?", said)

    def run(self, *words):
        """What the program prints and reports on what came."""
        with self.file.open("rb") as lines:
            how = {"stdin": lines, "capture_output": True, "env": ENVIRONMENT, "timeout": ONE}
            done = subprocess.run([self.program, *words], check=False, **how)
        return done.stdout, done.stderr.decode(errors="replace")

    def tables(self, token=None):
        """The snapshot at a token, or at the newest one."""
        return self.run("tables", "--history", "65536", *(["--at", token] if token else []))[0]

    def how_many(self, what):
        """How many lines have something that `check --verbose` counts, and which is the first."""
        return self.wrong.get(what, (0, 0))

    def is_old(self):
        """Whether it is in the format of 2020-03."""
        return self.how_many("lines in the format of 2020-03")[0] * 2 > len(self.notes)

    def kind(self, count):
        """What the first so many notifications are: all that ever happened, or what there is."""
        notes = self.notes[:count]
        keys = Counter((it.kind, it.name) for it in notes)
        runs = [it.kind for at, it in enumerate(notes) if at == 0 or notes[at - 1].kind != it.kind]
        states = sum(it.token is not None for it in notes)
        if states == 1 and len(notes) > 1 and notes[-1].token is not None:
            return "the present state, with one token, as a relay sends it"
        on_the_way = f": {states:,} states on the way, of which none is shown"
        if len(keys) < len(notes) or any(it.data == "null" for it in notes):
            return f"a replay of all that happened{on_the_way}"
        if len(runs) == len(set(runs)):
            return f"the present objects, type by type, or a contest before its start{on_the_way}"
        return f"each object once{on_the_way}"


# ---- what is answered to a token


def answer_to(feed, token, passage):
    """What a server sends to who asks with this token: a word for it, and how it is said."""
    if passage.failure or passage.response.status is None:
        return "failed", passage.failure or f"no answer within {passage.lasted():.0f} s"
    if passage.response.status != 200:
        is_refusal = passage.response.status == 400
        return "refused" if is_refusal else "failed", f"status {passage.response.status}"
    notes = notifications(passage.response.payload)
    if not notes:
        return "nothing", "status 200, and no line"
    at = feed.where.get(token)
    if notes[0] == feed.notes[0] and len(feed.notes) > 1:
        return "start", "it begins again with its first line"
    return ("other", "it sends lines") if at is None else compared(feed, at, notes)


def compared(feed, at, notes):
    """What these lines are that were sent after the line with this number of the feed."""
    places = {}
    for place, it in enumerate(feed.notes):
        places.setdefault(it, place)
    found = [places.get(it) for it in notes]
    known = [it for it in found if it is not None]
    if not known:
        return ("after", "it sends what came since") if at + 1 == len(feed.notes) else ("older", "it sends other lines")
    last = max(index for index, it in enumerate(found) if it is not None)
    strange = [index for index in range(last) if found[index] is None]
    if strange:
        token = json.dumps(notes[strange[0]].token)
        return "older", f"it sends {plural(len(strange), 'line')} that its feed from the start lacks, first at {token}"
    if known != sorted(known):
        return "older", "it sends lines in another order than its feed from the start"
    if known[0] > at + 1 or known != list(range(known[0], known[0] + len(known))):
        return "gaps", "it leaves out lines that its feed from the start has"
    if known[0] == at + 1:
        return "after", "it goes on after it"
    commit = next((it + 1 for it in range(at - 1, -1, -1) if feed.notes[it].token is not None), 0)
    if known[0] >= commit:
        return "again", "it sends that commit again, and goes on"
    return "earlier", f"it begins {plural(at - known[0], 'line')} before it"


def token_like(tokens):
    """A token that no server can have given yet, of the form of these."""
    found = re.fullmatch(r"(\D*)(\d{1,15})", tokens[-1])
    return f"{found[1]}{int(found[2]) + 1_000_003}" if found else "tunygarop-probe"


def form_of(tokens):
    """What tokens look like."""
    found = [re.fullmatch(r"(\D*)(\d{1,18})", it) for it in tokens]
    if not all(found) or len({it[1] for it in found}) > 1:
        return f"texts of {min(map(len, tokens))} to {max(map(len, tokens))} characters"
    numbers = [int(it[2]) for it in found]
    form = f"{found[0][1]!r} and numbers" if found[0][1] else "numbers"
    if numbers != sorted(numbers):
        return f"{form}, not in their order"
    is_dense = all(after == before + 1 for before, after in zip(numbers, numbers[1:]))
    return f"{form} that rise{' by one' if is_dense else ', with gaps'}"


# ---- when a relay would show it


def settles_at(arrivals, pause):
    """When a relay would show what came, if it waits for a pause of so many seconds; nothing if it would not yet."""
    times, sums = [at for at, _ in arrivals], [0]
    for _, count in arrivals:
        sums.append(sums[-1] + count)
    for shown in (at + pause * SLICES for at in times):
        have = sums[bisect.bisect_right(times, shown)]
        late = have - sums[bisect.bisect_right(times, shown - pause * SLICES)]
        if late * SHARE <= have:
            return shown
    return None


def burst_after(arrivals, shown):
    """Whether more of the same came after that: when, how many bytes in its busiest second, and after which pause."""
    before = [it for it in arrivals if it[0] <= shown]
    after = [it for it in arrivals if it[0] > shown]
    if not before or not after:
        return None
    most = busiest(after)
    if most * SHARE <= sum(count for _, count in before) or most * BUSY < busiest(before):
        return None
    return after[0][0], most, after[0][0] - before[-1][0]


def busiest(arrivals):
    """How many bytes came in the busiest second."""
    most = late = start = 0
    for at, count in arrivals:
        late += count
        while arrivals[start][0] < at - 1:
            late -= arrivals[start][1]
            start += 1
        most = max(most, late)
    return most


def longer_pause(arrivals, pause, until):
    """For how many seconds a relay has to wait, so that nothing more of the same comes after it."""
    for it in LONGER:
        shown = settles_at(arrivals, it)
        if it > pause and shown is not None and shown <= until and not burst_after(arrivals, shown):
            return it
    return min(60, int(pause * 2) + 1)


def shorter_pause(arrivals, until):
    """For how many seconds it may wait at least, if the usual pause never comes; and when it would show what came."""
    for it in SHORTER:
        shown = settles_at(arrivals, it)
        if shown is not None and shown <= until and longest_pause(arrivals, shown - it) * 2 < it:
            return it, shown
    return None


def longest_pause(arrivals, until):
    """The longest pause between what came until then."""
    times = [at for at, _ in arrivals if at <= until]
    return max((after - before for before, after in zip(times, times[1:])), default=0)


def plural(count, what):
    return f"{count:,} {what}{'' if count == 1 else 's'}"
